# Completion of jsoncrdt for bash; made by tools/make-completions from tools/command_line.py.
# In ~/.bashrc:  . /path/to/completions/jsoncrdt.bash
_jsoncrdt() {
    local word=${COMP_WORDS[COMP_CWORD]} before=${COMP_WORDS[COMP_CWORD - 1]} options= at=1
    COMPREPLY=()
    while [[ $at -lt $COMP_CWORD && ${COMP_WORDS[at]} == @(--explain|--unproved) ]]; do
        at=$((at + 1))
    done
    if [ "$COMP_CWORD" -eq "$at" ]; then
        COMPREPLY=($(compgen -W 'check print run view journal debug serve threads weave help -h --help -V --version --explain --unproved --prove' -- "$word"))
        return
    fi
    case ${COMP_WORDS[at]} in
        help) COMPREPLY=($(compgen -W 'check print run view journal debug serve threads weave' -- "$word")); return ;;
        check) options='-h --help' ;;
        print) options='-h --help' ;;
        run) options='--trace -h --help' ;;
        view) options='--at -h --help' ;;
        journal) options='--trace --effects -h --help' ;;
        debug) options='-h --help' ;;
        serve) options='-h --help' ;;
        threads) options='--limit -h --help' ;;
        weave) options='--seed --limit -h --help' ;;
    esac
    case $before in --at|--limit|--seed) return ;; esac
    if [[ $word == -* ]]; then
        COMPREPLY=($(compgen -W "$options" -- "$word"))
    else
        local IFS=$'\n'
        COMPREPLY=($(compgen -f -X '!*.jsoncrdt' -- "$word") $(compgen -d -S / -- "$word"))
    fi
}
complete -o filenames -F _jsoncrdt jsoncrdt ./jsoncrdt
