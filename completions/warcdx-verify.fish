# Completion of the words of warcdx-verify for fish.

complete -c warcdx-verify -f
complete -c warcdx-verify -s h -l help -d 'Print help'
complete -c warcdx-verify -s V -l version -d 'Print the version'
complete -c warcdx-verify -l jobs -x -d 'Check so many archives at a time'
complete -c warcdx-verify -l json -d 'Print objects of JSON'
complete -c warcdx-verify -s o -l output -r -F -d 'Write the lines to this new file'
complete -c warcdx-verify -l quiet -d 'Print nothing but faults'
complete -c warcdx-verify -l resume -r -F -d 'Pass over archives that this file notes as good'
complete -c warcdx-verify -l program -r -F -d 'Run this program'
complete -c warcdx-verify -k -a '(__fish_complete_suffix .warc; __fish_complete_suffix .warc.gz)'
