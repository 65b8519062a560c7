# Completion of bulhyemik for bash: what there is to complete is read in the program's own help.

_bulhyemik() {
    local program=${1/#\~/$HOME} word=$2 before=$3 command='' at=0 choices='' names k
    for ((k = 1; k < COMP_CWORD; k++)); do
        if [[ ${COMP_WORDS[k]} != --* ]]; then
            if [[ -z $command ]]; then command=${COMP_WORDS[k]}; else at=$((at + 1)); fi
        fi
    done
    if [[ $before == [\<\>] ]]; then
        compopt -o default
    elif [[ -z $command || $command == help ]]; then
        choices=$("$program" help 2> /dev/null | sed -n 's/^  \([a-z]*\) .*/\1/p')
        [[ $command ]] || choices+=' --help --version'
    elif [[ $word == -* ]]; then
        choices="--help $("$program" help "$command" 2> /dev/null | grep -o -e '--[a-z]*')"
    else
        # the arguments as each line of usage names them: only files are completed
        while read -ra names; do
            case ${names[at]-} in
                HEADER | NODES | LOG | FLOATS) compopt -o default ;;
            esac
        done < <("$program" help "$command" 2> /dev/null | sed -n '/^$/q; s/.*bulhyemik [a-z]*//; s/\[[^]]*\]//g; s/--[a-z]*//g; p')
    fi
    mapfile -t COMPREPLY < <(compgen -W "$choices" -- "$word" | sort -u)
}
complete -F _bulhyemik bulhyemik
