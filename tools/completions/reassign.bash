# Completions of `reassign` for bash. SPDX-License-Identifier: MIT OR Apache-2.0

_reassign() {
    local word=${COMP_WORDS[COMP_CWORD]} before=${COMP_WORDS[COMP_CWORD - 1]} files=0 options= at
    COMPREPLY=()
    if [ "$COMP_CWORD" -eq 1 ]; then
        COMPREPLY=($(compgen -W 'check bound solve trial verify repair edit' -- "$word"))
        return
    fi
    case ${COMP_WORDS[1]} in
        check) files=3 options='--closed' ;;
        bound) files=2 options='--closed' ;;
        solve) files=2 options='--slack --closed --draws' ;;
        verify) files=3 options='--slack --closed --draws' ;;
        repair) files=2 options='--closed' ;;
        edit) files=4 options='--closed' ;;
        *) return ;;
    esac
    case $before in
        --draws) COMPREPLY=($(compgen -W '1 2' -- "$word")); return ;;
        --slack) return ;;
        --closed) compopt -o filenames; mapfile -t COMPREPLY < <(compgen -f -- "$word"); return ;;
    esac
    at=$((COMP_CWORD - 1))
    if [ "$at" -le "$files" ] && [ "${word#-}" = "$word" ]; then
        compopt -o filenames
        mapfile -t COMPREPLY < <(compgen -f -- "$word")
    else
        COMPREPLY=($(compgen -W "$options" -- "$word"))
    fi
}
complete -F _reassign reassign
