# Completion of recorder's command line. Commands and options are those that the program's own help names, so that none
# is forgotten here.

# _recorder_first PATTERN WORD..: the first words of the lines that the program prints, of those that match.
_recorder_first() {
    "$program" "${@:2}" 2>/dev/null | awk -v pattern="$1" '$0 ~ pattern { print $1 }'
}

_recorder_words() {
    mapfile -t COMPREPLY < <(compgen -W "$1" -- "$word")
}

_recorder() {
    local program=$1 word=$2 before=$3 command=${COMP_WORDS[1]}
    COMPREPLY=()
    case $COMP_CWORD:$command:$before in
    1:*) _recorder_words "$(_recorder_first '^  [a-z]' --help) --help --version" ;;
    2:help:* | 2:--help:* | 2:-h:*) _recorder_words "$(_recorder_first '^  [a-z]' --help)" ;;
    *:--version:*) _recorder_words --json ;;
    *:--inputs | *:--fuel | *:--stops | *:--before | *:--*-bytes) compopt +o default 2>/dev/null ;;
    *) case $word in -*) _recorder_words "$(_recorder_first '^  --' help "$command") --help" ;; esac ;;
    esac
}

# Where nothing is offered, a file is.
complete -o default -F _recorder recorder
