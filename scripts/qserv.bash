# Completions of qserv for bash: its commands, and then files where a command wants a file's name.
_qserv() {
    local commands='load query explain demo classes trace sources check serve --help --version'
    local words=("${COMP_WORDS[@]}") at=$COMP_CWORD files=0
    COMPREPLY=()
    if [ "$at" -eq 1 ]; then
        [ -x "${words[0]%/*}/scripts/install" ] && commands="$commands install"
        mapfile -t COMPREPLY < <(compgen -W "$commands" -- "${words[1]}")
        return
    fi
    case ${words[1]} in
        load | serve) files=2 ;;
        query | explain | classes | trace) files=3 ;;
        sources) files=4 ;;
        check | install) files=1 ;;
    esac
    if [ "$at" -le $((files + 1)) ]; then
        compopt -o filenames 2>/dev/null
        mapfile -t COMPREPLY < <(compgen -f -- "${words[at]}")
    fi
}
complete -F _qserv qserv ./qserv
