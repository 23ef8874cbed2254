# Completion of the words of warcdx-gz for fish, which are those of warcdx. The file of warcdx is beside this one.

functions --query __warcdx_at
or source (status dirname)/warcdx.fish

complete -c warcdx-gz -w warcdx
complete -c warcdx-gz -n '__warcdx_at archive' -k -a '(__fish_complete_suffix .warc.gz)'
