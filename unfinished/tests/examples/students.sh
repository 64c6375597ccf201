# The pairs of examples/students, right and wrong, end and part as `students.expected`, their README and docs/COURSE.md
# say; sourced by tests/examples.sh.

# ends NUMBER STATEMENT FREE WORD..: a run ends so, with all its fuel left.
ends() {
    local place=''
    [ "$1" -eq 0 ] || place=" at statement $2"
    expect "$1" ": ending $1 (" "${@:4}" --inputs 7,9 --fuel 10
    expect "$1" "$place, fuel left 10, free cells $3" "${@:4}" --inputs 7,9 --fuel 10
}

# in_row NUMBER STATEMENT: an ending as the table of the README has it.
in_row() {
    [ "$1" -eq 0 ] && echo 0 || echo "$1 at statement $2"
}

# bare FILE: the records of a text, without comments and with single spaces.
bare() {
    sed 's/#.*//' "$1" | awk 'NF { $1 = $1; print }'
}

# fields TEXT: the seven numbers at the front of a text, with single spaces.
fields() {
    awk '{ NF = NF < 7 ? NF : 7; $1 = $1; print }' <<<"$1"
}

# edited NAME FILE COMMAND: the text with an edit by sed, as a table of this name; the file's name.
edited() {
    sed "$3" "$2" | table "$1"
}

students=examples/students
while read -r name number statement free wrong_number wrong_statement wrong_free differing; do
    right=$students/$name-right.txt wrong=$students/$name-wrong.txt

    expect 0 'accepted' check "$students/$name.txt"
    expect 0 'accepted' check --target "$right"
    expect 0 'accepted' check --target "$wrong"

    "$program" translate "$students/$name.txt" "$scratch/$name.translated" >"$scratch/said" || fail "translate $name"
    "$program" pack "$right" "$scratch/$name.packed" >"$scratch/said" || fail "pack $right"
    cmp "$scratch/$name.translated" "$scratch/$name.packed" || fail "$right is not the translation of $name.txt"

    for run in run watch; do
        ends "$number" "$statement" "$free" "$run" "$students/$name.txt"
    done
    expect 0 'both runs have the same answer and the same execution memory' demo "$students/$name.txt"
    ends "$number" "$statement" "$free" watch --target "$right"
    ends "$wrong_number" "$wrong_statement" "$wrong_free" watch --target "$wrong"

    if [ "$differing" = eight-more ]; then
        found=$(($(bare "$wrong" | wc -l) - $(bare "$right" | wc -l)))
        [ "$found" -eq 8 ] || fail "$wrong has $found records more than the translation"
    else
        found=$(paste -d: <(bare "$right") <(bare "$wrong") | awk -F: '$1 != $2 { print $1 + 0 }' | paste -sd,)
        [ "$found" = "$differing" ] || fail "$wrong differs from the translation in records $found"
    fi

    line=$(grep -m1 '^#     ' "$students/$name.txt") || fail "$name.txt does not say its program"
    for file in "$students/$name.txt" "$right" "$wrong"; do
        grep -q '^# Teaches: ' "$file" || fail "$file does not say what it teaches"
        grep -qxF "$line" "$file" || fail "$file does not say the program of $name.txt"
        grep -B1 '^# number kind mark A B C literal$' "$file" | grep -q '^# variable [0-9]* is [a-z]*$' ||
            fail "$file does not say how its variables are called"
    done
    grep -q '^# Differs from the translation in ' "$wrong" || fail "$wrong does not say where it differs"

    row="| \`$name\` | $(in_row "$number" "$statement") | $(in_row "$wrong_number" "$wrong_statement") |"
    grep -qF "$row" "$students/README.md" || fail "$students/README.md does not say $row"
done < <(grep -v '^#' tests/examples/students.expected)

for file in "$students"/*.txt; do
    name=$(basename "$file" .txt)
    name=${name%-right} name=${name%-wrong}
    grep -q "^$name " tests/examples/students.expected || fail "$file has no expected ending"
    grep -qx "## $name" "$students/README.md" || fail "$students/README.md says nothing of $file"
done

# The listings of the README have the records of the tables, and mark those that differ: the right one's from column 7
# on, the wrong one's from column 59 on.
listed=0
while IFS= read -r line; do
    case $line in
    '## '*)
        name=${line#\#\# }
        rights=$(bare "$students/$name-right.txt") wrongs=$(bare "$students/$name-wrong.txt")
        ;;
    '    > '* | '      '[0-9]*)
        right=$(fields "${line:6:50}") wrong=$(fields "${line:58}")
        [ -z "$right" ] || grep -qxF "$right" <<<"$rights" || fail "README: $name-right.txt has no record $right"
        grep -qxF "$wrong" <<<"$wrongs" || fail "README: $name-wrong.txt has no record $wrong"
        differs=' '
        case $name in
        undecided-for-false) [ -n "$right" ] || differs='>' ;;
        *) [ "$right" = "$wrong" ] || differs='>' ;;
        esac
        [ "${line:4:1}${line:56:1}" = "$differs$differs" ] || fail "README: $name: record $wrong is marked wrongly"
        listed=$((listed + 1))
        ;;
    esac
done <"$students/README.md"
[ "$listed" -ge 60 ] || fail "$students/README.md lists only $listed records"
passed=$((passed + listed))

# Where they part: the memories that the runs leave. Those of valid-for-initialised, undecided-for-false and
# place-asked-again are the same for right and wrong.
for side in right wrong; do
    shows $'  block 3: live and freeable\n    cell 3: 5\n    cell 4: undefined\n' \
        watch --target "$students/valid-for-initialised-$side.txt"
    shows $'  block 3: live\n    mark 3: initialised\n    mark 4: not initialised\n' \
        watch --target "$students/valid-for-initialised-$side.txt"
    shows $'  block 3: live\n    mark 3: not initialised\n' watch --target "$students/undecided-for-false-$side.txt"
    shows $'  block 1: live and fixed\n    cell 0: 5\n' watch --target "$students/place-asked-again-$side.txt"
    shows $'  block 4: live and freeable\n    cell 4: undefined\n' \
        watch --target "$students/mark-put-elsewhere-$side.txt"
    shows $'  block 5: live and freeable\n    cell 4: undefined\n' watch --target "$students/name-comes-back-$side.txt"
done
shows $'  block 5: live\n    mark 4: not initialised\n  dead names: 4\n' \
    watch --target "$students/name-comes-back-right.txt"
shows $'    marks 1 to 2: initialised\n  block 4: live\n    mark 4: not initialised\n  dead names: 3\n' \
    watch --target "$students/name-comes-back-wrong.txt"
shows $'  block 4: live\n    mark 4: not initialised\n' watch --target "$students/mark-put-elsewhere-right.txt"
shows $'  block 4: live\n    mark 4: initialised\n' watch --target "$students/mark-put-elsewhere-wrong.txt"

# The answers to the questions of docs/COURSE.md. 1: only at a cell that is valid and not initialised do they part.
while read -r offset right wrong; do
    for side in right wrong; do
        file=$(edited "offset-$side" "$students/valid-for-initialised-$side.txt" "s/^32 .*/32 1 0 0 0 0 $offset/")
        expect "${!side}" ": ending ${!side} (" watch --target "$file"
    done
done <<'END_OF_OFFSETS'
-1 33 33
0 0 0
1 33 0
2 33 33
END_OF_OFFSETS

# 2: with the delete left out alone both blocks are live in the observation memory, where the second has another place.
both_live=$(edited both-live "$students/name-comes-back-wrong.txt" 's/^51 .*/51 68 1 0 0 0 13/')
ends 0 0 1020 watch --target "$both_live"
shows $'  block 4: live\n    mark 4: not initialised\n  block 5: live\n    mark 5: not initialised\n' \
    watch --target "$both_live"

# And a dead name is not stored again.
stored_again=$(edited stored-again "$students/name-comes-back-right.txt" 's/^48 .*/48 10 1 0 0 0 0/')
ends 48 13 1019 watch --target "$stored_again"

# 3: the wrong program is the translation of another assertion, but for the numbers of its statements.
guarded=$(table guarded <<'END_OF_TABLE'
 1 10 1  0  0 0 0   # x
 2  3 0  1  0 0 0   # &x
 3 20 0  2  0 0 0   # as a term
 4 31 0  3  0 0 0   # is it initialised?
 5 10 1  0  0 0 0   # x
 6  2 0  5  0 0 0   # value of x
 7 20 0  6  0 0 0   # as a term
 8  1 0  0  0 0 1   # 1
 9 20 0  8  0 0 0   # as a term
10 32 7  7  9 0 0   # x = 1
11 34 0  4 10 0 0   # initialised(&x) and x = 1
12 48 0 11  0 0 0   # assert
13 47 1 12  0 0 0   # let x in 12
END_OF_TABLE
)
"$program" list "$guarded" | sed 's/ 12$/ 7/; s/ 13$/ 8/' >"$scratch/said"
diff "$scratch/said" <(bare "$students/undecided-for-false-wrong.txt") ||
    fail "undecided-for-false-wrong.txt is not the translation of an assertion that asks first"
ends 33 12 1020 run "$guarded"

# What docs/COURSE.md quotes below a command are lines that the program prints, in this order. A command without a quote
# is not run here.
words=()
rest=''
quoted=0
while IFS= read -r line; do
    case $line in
    '    $ build/recorder '*)
        read -ra words <<<"${line#*recorder }"
        rest=''
        ;;
    '    '?*)
        [ ${#words[@]} -gt 0 ] || continue
        [ -n "$rest" ] || rest=$'\n'$("$program" "${words[@]}" 2>&1)$'\n' || true
        line=$'\n'${line#    }$'\n'
        [[ $rest == *"$line"* ]] || fail "docs/COURSE.md: ${words[*]} does not print there: $line"
        rest=$'\n'${rest#*"$line"}
        quoted=$((quoted + 1))
        ;;
    *) words=() ;;
    esac
done <docs/COURSE.md
[ "$quoted" -ge 20 ] || fail "docs/COURSE.md quotes only $quoted lines"
passed=$((passed + quoted))

# The pictures of docs/course are those that draw makes.
for picture in docs/course/*.svg; do
    name=$(basename "$picture" .svg)
    before=()
    case $name in name-comes-back-*) before=(--before 60) ;; esac
    "$program" draw "$students/$name.txt" - --target "${before[@]}" 2>"$scratch/said" | cmp - "$picture" ||
        fail "$picture is another picture"
    grep -q "(course/$name.svg)" docs/COURSE.md || fail "docs/COURSE.md does not show $picture"
    passed=$((passed + 1))
done
