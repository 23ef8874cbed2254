# Completion of the words of warcdx-fetch for fish.

complete -c warcdx-fetch -f
complete -c warcdx-fetch -s h -l help -d 'Print help'
complete -c warcdx-fetch -s V -l version -d 'Print the version'
complete -c warcdx-fetch -l index -r -k -a '(__fish_complete_suffix .cdxj)' -d 'An index of the archives'
complete -c warcdx-fetch -l archives -x -a '(__fish_complete_directories)' -d 'A folder with the archives'
complete -c warcdx-fetch -l at -x -d 'Write the capture nearest to this time'
complete -c warcdx-fetch -l all -d 'Write every capture that is selected'
complete -c warcdx-fetch -l record -d 'Write records as they are stored'
complete -c warcdx-fetch -l quiet -d 'Print nothing but faults'
complete -c warcdx-fetch -l json -d 'Print objects of JSON'
complete -c warcdx-fetch -s o -l output -r -F -d 'The new file, folder or archive'
complete -c warcdx-fetch -l program -r -F -d 'Run this program'
