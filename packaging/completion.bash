# Completion of the words of tsnd, for bash. A word behind '=' is completed as one behind a space is.

# _tsnd_value OPTION WORD: what may stand behind an option; its status is 1 where the word is no option with a value.
_tsnd_value() {
    case $1 in
        --listen) mapfile -t COMPREPLY < <(compgen -W "127.0.0.1:7000 127.0.0.1:0 [::1]:7000 unix:" -- "$2") ;;
        --port) mapfile -t COMPREPLY < <(compgen -W "$(seq -s ' ' 64)" -- "$2") ;;
        --sync) mapfile -t COMPREPLY < <(compgen -W "none" -- "$2") ;;
        --journal) mapfile -t COMPREPLY < <(compgen -f -- "$2") ;;
        --workers | --connections | --probe | --idle | --from | --step | --count | --since | --diff) COMPREPLY=() ;;
        *) return 1 ;;
    esac
    # Where bash parts a word at its colons, it completes the last part.
    if [[ ${COMP_WORDBREAKS-:} == *:* ]]; then
        local part=${2%"${2##*:}"}
        COMPREPLY=("${COMPREPLY[@]#"$part"}")
    fi
}

_tsnd() {
    local word=${COMP_WORDS[COMP_CWORD]} command=${COMP_WORDS[1]-} line=${COMP_LINE:0:COMP_POINT}
    COMPREPLY=()
    if [ "$COMP_CWORD" -eq 1 ]; then
        mapfile -t COMPREPLY < <(compgen -W "check journal script serve states help --help --version" -- "$word")
        return
    fi
    # The option and its value, as they stand on the line: bash parts them at '=' and ':'.
    if [[ $line =~ (--[a-z]+)(=|[[:space:]]+)([^[:space:]=]*)$ ]] && _tsnd_value "${BASH_REMATCH[1]}" "${BASH_REMATCH[3]}"; then
        return
    fi
    case $command:$word in
        serve:-*) mapfile -t COMPREPLY < <(compgen -W "--listen --workers --connections --probe --idle --journal --sync --log --help" -- "$word") ;;
        states:-*) mapfile -t COMPREPLY < <(compgen -W "--port --from --step --count --help" -- "$word") ;;
        script:-*) mapfile -t COMPREPLY < <(compgen -W "--journal --sync --help" -- "$word") ;;
        journal:-*) mapfile -t COMPREPLY < <(compgen -W "--since --diff --setup --begin --mend --help" -- "$word") ;;
        journal:*) mapfile -t COMPREPLY < <(compgen -f -- "$word") ;;
        check:-*) mapfile -t COMPREPLY < <(compgen -W "--lines --help" -- "$word") ;;
        script:* | serve:* | states:* | check:*) mapfile -t COMPREPLY < <(compgen -f -X '!*.toml' -- "$word"; compgen -d -- "$word") ;;
        help:*) mapfile -t COMPREPLY < <(compgen -W "check journal script serve states" -- "$word") ;;
    esac
}
complete -o filenames -F _tsnd tsnd
