# Completion of the words of warcdx-gz for bash, which are those of warcdx. The file of warcdx is beside this one, and has the same ending.
# shellcheck source=completions/warcdx.bash
source "$(dirname "${BASH_SOURCE[0]}")/warcdx${BASH_SOURCE[0]##*warcdx-gz}"

_warcdx_gz() {
    _warcdx_words warc.gz warc
}

complete -F _warcdx_gz warcdx-gz
