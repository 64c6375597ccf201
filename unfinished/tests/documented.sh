#!/usr/bin/env bash
# documented.sh FOLDER: of what is installed in the folder, man pages and completion name all that the program and the
# header have, and nothing else. tests/install.sh calls it.
set -euo pipefail

program=$1/bin/recorder
header=$1/include/recorder.h
program_page=$1/share/man/man1/recorder.1
library_page=$1/share/man/man3/recorder.3
. "$1/share/bash-completion/completions/recorder"
passed=0

# same WHAT ONE OTHER: the same words, in any order.
same() {
    local one other
    one=$(tr ' ' '\n' <<<"$2" | grep . | sort)
    other=$(tr ' ' '\n' <<<"$3" | grep . | sort)
    if [ -z "$one" ] || [ "$one" != "$other" ]; then
        echo "tests/documented.sh: $1 differ: $(diff <(echo "$one") <(echo "$other") | grep '^[<>]' | tr '\n' ' ')" >&2
        exit 1
    fi
    passed=$((passed + 1))
}

# told PATTERN WORD..: the first words of the lines that the program prints, of those that match.
told() {
    "$program" "${@:2}" | awk -v pattern="$1" '$0 ~ pattern { print $1 }'
}

# page SECTION: what the section of the man page explains, each by its first word.
page() {
    awk -v section="$1" '/^\.SH/ { here = $0 == ".SH " section } here && entry { print $2 } { entry = /^\.TP/ }' \
        "$program_page" | sed 's/\\-/-/g'
}

# page_options COMMAND: the options that the man page names with the command.
page_options() {
    awk -v command="$1" '/^\.SH|^\.TP/ { here = 0; entry = 1; next } entry { here = $2 == command; entry = 0 } here' \
        "$program_page" | sed 's/\\-/-/g' | grep -o -- '--[a-z-]*' || true
}

# offered WORD..: what is offered for the last of the words.
offered() {
    COMP_WORDS=(recorder "$@") COMP_CWORD=$#
    _recorder "$program" "${COMP_WORDS[-1]}" "${COMP_WORDS[-2]}"
    echo "${COMPREPLY[@]:-}"
}

commands=$(told '^  [a-z]' --help)
same 'commands of usage and man page' "$commands --version" "$(page COMMANDS)"
same 'options of usage and man page' "$(told '^  --' --help)" "$(page OPTIONS) --version"
same 'commands of usage and completion' "$commands --help --version" "$(offered '')"
same 'commands of usage and completion after help' "$commands" "$(offered help '')"
for command in ${commands/help/}; do
    options=$(told '^  --' help "$command")
    same "options of $command in usage and man page" "$options" "$(page_options "$command") --json"
    same "options of $command in usage and completion" "$options --help" "$(offered "$command" -)"
done
same 'options offered for a beginning' '--fuel --force' "$(offered archive x --f)"
same 'what is offered after --version' '--json' "$(offered --version '')"
same 'what is offered for a file and for values' 'nothing' \
    "nothing$(offered check e)$(offered run x --inputs-file '')$(offered run x --fuel -)"

same 'functions of header and man page' "$(grep -o '^[a-z0-9_]* recorder_[a-z_]*(' "$header" | cut -d ' ' -f 2)" \
    "$(sed -n '/^\.SH SYNOPSIS/,/^\.SH DESCRIPTION/p' "$library_page" | grep -o 'recorder_[a-z_]*(')"
same 'numbers of header and man page' \
    "$(sed -n '/^enum recorder_number/,/^};/s/^ *\(RECORDER_[A-Z_]*\) = \([0-9]*\).*/\1=\2/p' "$header")" \
    "$(sed -n 's/^\.BR \([0-9]*\) " \(RECORDER_[A-Z_]*\)"$/\2=\1/p' "$library_page")"

echo "documented: $passed passed"
