# Completion of the words of warcdx for fish.

# What may stand at the cursor: command, types-option, types, name-option, name, length-option, length, archive, index, query or nothing.
function __warcdx_place
    set -l words (commandline -opc)
    set -l command $words[2]
    set -l given $words[3..]
    set -l options
    switch $command
        case ''
            echo command
            return
        case index scan
            set options types name
        case get
            set options length
    end
    while set -q given[1] && contains -- $given[1] --$options
        set -l option (string sub --start 3 -- $given[1])
        if not set -q given[2]
            echo $option
            return
        end
        set options (string match --invert -- $option $options)
        set given $given[3..]
    end
    if not set -q given[1]
        string replace --regex -- '$' -option $options
    end
    switch $command:(count $given)
        case 'list:*' 'verify:*' 'index:*' get:1
            echo archive
        case query:0 pages:1 scan:1
            echo query
        case pages:0 scan:0 get:0
        case 'scan:*'
            echo archive
        case 'merge:*' 'check:*' 'serve:*' 'query:*' 'pages:*'
            echo index
    end
end

function __warcdx_at
    contains -- $argv[1] (__warcdx_place)
end

# Types behind those that stand in the word, none of them twice.
function __warcdx_types
    set -l given (string match --regex '.*,' -- (commandline -ct))
    for type in response resource revisit conversion metadata
        contains -- $type (string split , -- "$given")
        or echo "$given$type"
    end
end

complete -c warcdx -f
complete -c warcdx -s h -l help -d 'Print help'
complete -c warcdx -n '__warcdx_at command' -s V -l version -d 'Print the version'
complete -c warcdx -n '__warcdx_at types-option' -l types -d 'Index records of these types'
complete -c warcdx -n '__warcdx_at name-option' -l name -d 'The name of the archive -'
complete -c warcdx -n '__warcdx_at length-option' -l length -d 'Write a record of this length only'
complete -c warcdx -n '__warcdx_at types' -a '(__warcdx_types)' -d Types
complete -c warcdx -n '__warcdx_at archive' -k -a '(__fish_complete_suffix .warc)'
complete -c warcdx -n '__warcdx_at index' -k -a '(__fish_complete_suffix .cdxj)'
complete -c warcdx -n '__warcdx_at query' -a 'url= key=' -d Query
complete -c warcdx -n '__warcdx_at command' -a list -d 'List the records of archives'
complete -c warcdx -n '__warcdx_at command' -a verify -d 'Check the digests of the records of archives'
complete -c warcdx -n '__warcdx_at command' -a index -d 'Write an index of the captures of archives'
complete -c warcdx -n '__warcdx_at command' -a merge -d 'Merge indexes into one'
complete -c warcdx -n '__warcdx_at command' -a check -d 'Check that indexes are sorted, and count their lines'
complete -c warcdx -n '__warcdx_at command' -a query -d 'Write the captures that a query selects'
complete -c warcdx -n '__warcdx_at command' -a pages -d 'Write the captures that a query selects, page by page'
complete -c warcdx -n '__warcdx_at command' -a serve -d 'Answer queries line by line'
complete -c warcdx -n '__warcdx_at command' -a get -d 'Write the record at an offset of an archive'
complete -c warcdx -n '__warcdx_at command' -a scan -d 'Write the captures of archives that a query selects'
