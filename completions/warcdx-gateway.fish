# Completion of the words of warcdx-gateway for fish.

# The last option of the line, or `none`.
function __warcdx_gateway_option
    set -l options (string match -- '--*' (commandline -opc))
    set -q options[-1]
    and echo $options[-1]
    or echo none
end

function __warcdx_gateway_at
    test (__warcdx_gateway_option) = $argv[1]
end

complete -c warcdx-gateway -f
complete -c warcdx-gateway -s h -l help -d 'Print help'
complete -c warcdx-gateway -s V -l version -d 'Print the version'
complete -c warcdx-gateway -l address -x -d 'Listen at this address'
complete -c warcdx-gateway -l port -x -d 'Listen at this port'
complete -c warcdx-gateway -l host -x -d 'Accept this name in the field Host'
complete -c warcdx-gateway -l workers -x -d 'Answer requests by this number of processes'
complete -c warcdx-gateway -l program -r -F -d 'Run this program'
complete -c warcdx-gateway -l indexes -x -k -a '(__fish_complete_suffix .cdxj)' -d 'Answer from these indexes'
complete -c warcdx-gateway -l archives -x -a '(__fish_complete_directories)' -d 'Read records of the archives in these folders'
complete -c warcdx-gateway -n '__warcdx_gateway_at --indexes' -k -a '(__fish_complete_suffix .cdxj)'
complete -c warcdx-gateway -n '__warcdx_gateway_at --archives' -a '(__fish_complete_directories)'
complete -c warcdx-gateway -n '__warcdx_gateway_at none' -k -a '(__fish_complete_suffix .toml)'
