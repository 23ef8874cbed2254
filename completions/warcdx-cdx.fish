# Completion of the words of warcdx-cdx for fish.

# The command of the line, or `none`.
function __warcdx_cdx_command
    set -l words (commandline -opc)
    set -e words[1]
    while set -q words[1]
        switch $words[1]
            case -o --output --program
                set -e words[1]
            case '-*'
            case '*'
                echo $words[1]
                return
        end
        set -e words[1]
    end
    echo none
end

function __warcdx_cdx_at
    test (__warcdx_cdx_command) = $argv[1]
end

complete -c warcdx-cdx -f
complete -c warcdx-cdx -s h -l help -d 'Print help'
complete -c warcdx-cdx -s V -l version -d 'Print the version'
complete -c warcdx-cdx -s o -l output -r -F -d 'Write this new file'
complete -c warcdx-cdx -l program -r -F -d 'Run this program'
complete -c warcdx-cdx -n '__warcdx_cdx_at none' -a to -d 'Write the captures of indexes in eleven columns'
complete -c warcdx-cdx -n '__warcdx_cdx_at none' -a from -d 'Write the captures of CDX files as lines of an index'
complete -c warcdx-cdx -n '__warcdx_cdx_at to' -k -a '(__fish_complete_suffix .cdxj)'
complete -c warcdx-cdx -n '__warcdx_cdx_at from' -k -a '(__fish_complete_suffix .cdx)'
