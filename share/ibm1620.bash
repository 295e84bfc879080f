# What bash completes after ibm1620 and after its companions. Commands and options are those of their own --help, whose lines begin with them.

# The usage of a command, by the words for it: the start scripts and the companions answer --help, and build nothing for it.
_ibm1620_usage() {
    local command
    command=$(type -P "${1/#'~'/$HOME}") && "$command" "${@:2}" --help 2> /dev/null < /dev/null
}

# The words that begin as the last one does: from the list $1, or by the option -f or -d of compgen, names of files or folders.
_ibm1620_reply() {
    [[ $1 != -? ]] || compopt -o filenames
    mapfile -t COMPREPLY < <(if [[ $1 == -? ]]; then compgen "$1" -- "$2"; else compgen -W "$1" -- "$2"; fi)
}

# What may follow an option: the values that its line names after a colon, or else a name of what stands for its value.
_ibm1620_value() {
    case $1 in
        --form) _ibm1620_reply 'self dense' "$3" ;;
        --core) _ibm1620_reply '20000 40000 60000' "$3" ;;
        *)
            case $2 in
                FOLDER | TASK) _ibm1620_reply -d "$3" ;;
                N | K | SECONDS | STEPS | COUNT) ;;
                *) _ibm1620_reply -f "$3" ;;
            esac
            ;;
    esac
}

_ibm1620() {
    local word=${COMP_WORDS[COMP_CWORD]} before=${COMP_WORDS[COMP_CWORD - 1]} name=${COMP_WORDS[0]##*/} known='' words='' options='' first=1 option value
    COMPREPLY=()
    [[ $name != ibm1620 ]] || first=2
    # The line of a command begins with its word, and that of an option with the option and what stands for its value.
    while read -r option value _; do
        case $option in
            ibm1620) words+=" $value" ;;
            --*)
                options+=" ${option%,}"
                [[ $option != "$before" || ! $value =~ ^[A-Z][A-Z.html]*$ ]] || known=$value
                ;;
        esac
    done < <(_ibm1620_usage "${COMP_WORDS[@]:0:first == 2 && COMP_CWORD > 1 ? 2 : 1}")
    if [[ -n $known ]]; then
        _ibm1620_value "$before" "$known" "$word"
    elif [[ $first == 2 && $COMP_CWORD == 1 ]]; then
        _ibm1620_reply "$words --help --version" "$word"
    elif [[ $first == 2 && $words != " ${COMP_WORDS[1]}" ]]; then
        return
    elif [[ $word == -* || $first == 2 ]]; then
        # Each option is given once.
        for option in "${COMP_WORDS[@]:first:COMP_CWORD-first}"; do
            options=" $options "
            options=${options/ $option / }
        done
        _ibm1620_reply "$options" "$word"
    elif [[ $name == *diagnose ]]; then
        _ibm1620_reply 'first tables moves sums branches addresses long cards changes edges typewriter dump console disk drives features core own
            stops differences' "$word"
    else
        _ibm1620_reply -f "$word"
    fi
}

complete -F _ibm1620 ibm1620 ibm1620-{cards,console,core,diagnose,exhibit,grade,lint,live,sheet,trace,version}
