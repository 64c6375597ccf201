# Pictures of both memories; sourced by tests/examples.sh.

picture=$scratch/picture.svg

# draw WORD..: draws a picture, which is well formed.
draw() {
    local said status=0
    rm -f "$picture"
    said=$("$program" draw "$@" "$picture" 2>&1) || status=$?
    [ "$status" -eq 0 ] || fail "recorder draw $*: status $status: $said"
    [[ $said == "draw: $picture, "*" by "* ]] || fail "recorder draw $*: says $said"
    is_well_formed || fail "recorder draw $*: the picture is not well formed: $(<"$scratch/form")"
    passed=$((passed + 1))
}

# Each element that is opened is closed, in order, and no sign of XML's stands bare in a text.
is_well_formed() {
    sed -e 1d -e 's/&amp;//g; s/&lt;//g; s/&gt;//g' "$picture" | awk '
        { all = all $0 " " }
        END {
            while (match(all, /<[^>]*>/)) {
                if (substr(all, 1, RSTART - 1) ~ /[&<>]/) print "a bare sign before " substr(all, RSTART, RLENGTH)
                element = substr(all, RSTART + 1, RLENGTH - 2)
                all = substr(all, RSTART + RLENGTH)
                name = element
                sub(/ .*/, "", name)
                if (name ~ /^\//) { if ("/" opened[depth--] != name) print "not opened: " name }
                else if (element !~ /\/$/) opened[++depth] = name
            }
            if (depth != 0 || all ~ /[&<>]/) print "not closed: " opened[depth]
        }' >"$scratch/form"
    [ ! -s "$scratch/form" ] && [[ $(head -n 1 "$picture") == '<?xml version="1.0" encoding="UTF-8"?>' ]]
}

# has TEXT..: each text is a whole one in the picture drawn last.
has() {
    local text
    for text; do
        grep -qF ">$text</text>" "$picture" || fail "the picture does not have '$text'"
        passed=$((passed + 1))
    done
}

# counts NUMBER STYLE: how many signs of a style the picture has. One is the legend's; of arrows three are.
counts() {
    local number
    number=$(grep -c "class=\"$2\"" "$picture") || true
    [ "$number" -eq "$1" ] || fail "the picture has $number times $2 where $1 were expected"
    passed=$((passed + 1))
}

draw examples/two-assertions.txt --inputs 7,9 --fuel 10
has examples/two-assertions.txt 'ending 33 (assertion false) at statement 29, fuel left 10, free cells 1018' \
    'execution memory' 'observation memory' 'block 1: variable 0, fixed' 'block 2: the inputs, fixed' 'block 3: variable p, fixed' \
    'block 5, freeable' 'cells 4 to 5' 'marks 4 to 5' 'block 5, offset 0' 7 9 undefined 'dead names: 4'
counts 5 arrow
counts 3 head
counts 2 undefined
counts 6 initialised
counts 2 not-initialised
counts 1 no-mirror

draw examples/read-after-free.txt
has 'dead block 4, offset 0'
counts 2 cross
draw examples/one-past-the-end.txt
has 'offset 3, outside: the run ended here'
counts 2 outside
draw examples/offset-below-zero.txt
has 'offset -1, outside: the run ended here'
draw examples/cells-kept-at-a-stop.txt
has 'block 4: not recorded here' 'no mirror here'
counts 2 no-mirror

# Long blocks, many names and many blocks.
draw examples/P8-fits.txt
has '1020 cells, each undefined' '0 to 1019' 'cells 4 to 1023'
draw examples/P1.txt --inputs "$(seq -s, 256)"
has '256 integers, the first 1' '0 to 255'
draw examples/R1.txt --fuel 300
has 'ending 32 (no fuel at a while test) at statement 4, fuel left 0, free cells 1021' 'dead names: 3 to 302'
draw examples/many-names.txt
has 'block 305, offset 0' 'dead names: 4 to 303'
blocks=$(table blocks <<'TABLE'
1  1 0 0 0 0 1
2 10 0 0 0 0 0
3  1 0 0 0 0 1
4 42 0 2 3 0 0   # v0 := new 1
5 46 0 1 4 0 0   # while 1 do 4
TABLE
)
draw "$blocks" --fuel 60
has 'block 62, offset 0, not shown' 'block 40, freeable' 'and 22 more live blocks'

# An offset as far outside as it can be.
far=$(table far <<'TABLE'
1 10 0 0 0 0 0
2 10 0 0 0 0 0
3  3 0 2 0 0 0
4  1 0 0 0 0 -9223372036854775808
5  5 0 3 4 0 0
6 41 0 1 5 0 0   # v0 := &v0 shifted
TABLE
)
draw "$far"
has 'offset -9223372036854775808, outside the block' 'block 1, offset -9223372036854775808'

# A watched program that keeps its notes badly: block 3 without one, block 4 with one that is wrong.
wrong=$(table wrong <<'TABLE'
 1 10 0  0  0 0 0
 2  1 0  0  0 0 2
 3 42 0  1  2 0 1   # v0 := new 2
 4 10 0  0  0 0 0
 5  2 0  4  0 0 0
 6 11 0  5  0 0 0
 7  1 0  0  0 0 1
 8 42 0  6  7 0 1   # *v0 := new 1
 9 10 0  0  0 0 0
10  2 0  9  0 0 0
11 11 0 10  0 0 0
12  2 0 11  0 0 0
13 61 0 12  0 0 1   # t0 := *v0
14  1 0  0  0 0 1
15 61 1 14  0 0 1   # t1 := 1
16 68 0  0  0 0 1   # store block
17 70 0  0  0 0 1   # initialise
18 44 0 16 17 0 1
19 44 0 15 18 0 1
20 44 0 13 19 0 1
21 44 0  8 20 0 1
22 44 0  3 21 0 1
TABLE
)
draw "$wrong" --target
has 'block 3: not recorded here' 'block 4: no mirror here' 'cell 5' 'mark 3' 'no mirror here'
counts 4 no-mirror

# On the way: P7's variable points to itself.
draw examples/P7.txt --before 9
has 'before statement 9, fuel left 1000, free cells 1020' 'block 3, offset 0'
counts 5 arrow
expect 64 'draw: the run does not come to statement 99' draw examples/P7.txt "$scratch/never.svg" --before 99
[ ! -e "$scratch/never.svg" ] || fail 'a picture of a run that never comes there'

# File names are no markup.
strange=$scratch/$(printf 'a<b>&"\377.txt')
cp examples/P1.txt "$strange"
draw "$strange"
has "$scratch/a&lt;b&gt;&amp;\"?.txt"

# What exists stays, unless it is said; standard output has the picture alone.
echo kept >"$scratch/kept.svg"
expect 73 'exists; --force overwrites it' draw examples/P1.txt "$scratch/kept.svg"
[ "$(<"$scratch/kept.svg")" = kept ] || fail 'draw wrote over a file'
expect 0 "draw: $scratch/kept.svg, " draw examples/P1.txt "$scratch/kept.svg" --force
"$program" draw examples/P1.txt - 2>"$scratch/said" | cmp -s - "$scratch/kept.svg" || fail 'draw to standard output'
[[ $(<"$scratch/said") == 'draw: -, '* ]] || fail 'draw to standard output: no line on standard error'

expect 0 '{"command": "draw", "file": "examples/P1.txt", "output": "/dev/null", "width": ' \
    draw examples/P1.txt /dev/null --json
expect 0 '"answer": {"number": 0, "words": "finished", "record": 0, "fuel": 1000, "free_cells": 1021}' \
    draw examples/P1.txt /dev/null --json
refused=$(table refused <<<'1 99 0 0 0 0 0')
expect 3 'watched run: refusal 3 at record 1' draw "$refused" "$scratch/refused.svg"
expect 3 '"answer": {"number": 3' draw "$refused" "$scratch/refused.svg" --json
[ ! -e "$scratch/refused.svg" ] || fail 'a picture of a refused run'
