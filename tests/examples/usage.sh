# Wrong arguments and bad files; sourced by tests/examples.sh.
expect 0 '73 a file cannot be written' --help
expect 64 '73 a file cannot be written'
expect 64 'no such command: fly' fly
expect 64 'check: a file is missing' check
expect 64 'pack: the file to write is missing' pack examples/P1.txt
expect 64 'check: one file too many: b' check examples/P1.txt b
expect 64 'run: no such option: --speed' run examples/P1.txt --speed 3
expect 64 'check: takes no --fuel' check examples/P1.txt --fuel 3
expect 64 'run: a value is missing after --fuel' run examples/P1.txt --fuel
for fuel in -1 4294967296 99999999999999999999 '' 1x ' 1' +1; do
    expect 64 "--fuel takes a number from 0 to 4294967295, not '$fuel'" run examples/P1.txt --fuel "$fuel"
done
expect 0 'fuel left 4294967295' run examples/P1.txt --fuel 4294967295
for inputs in ',' '7,' '7,,9' seven 9223372036854775808 000000000000000000000000000000000007; do
    expect 64 '--inputs takes numbers of 64 bits' run examples/P1.txt --inputs "$inputs"
done
expect 0 'finished' run examples/P1.txt --inputs -9223372036854775808,9223372036854775807
expect 64 '--inputs takes at most 512 numbers' run examples/P1.txt --inputs "$(seq -s, 513)"
expect 64 '--memory-bytes takes a number of bytes from 0 to 65536' run examples/P1.txt --memory-bytes 65537

expect 66 'cannot open nowhere.txt: ' check nowhere.txt
expect 66 'cannot open nowhere: ' check nowhere
expect 66 'cannot read examples: ' check examples
expect 66 'cannot open nowhere: ' run examples/P1.txt --inputs-file nowhere
expect 73 'cannot open nowhere/out: ' pack examples/P1.txt nowhere/out
expect 73 'cannot write /dev/full: ' pack examples/P1.txt /dev/full
status=0
"$program" list examples/P1.txt 2>"$scratch/said" >/dev/full || status=$?
[ "$status" -eq 73 ] || fail "a full standard output: status $status"

# Text that is no table, and files longer than any.
bad_text() {
    expect 65 "line 1: $1" check "$(table bad <<<"$2")"
}
bad_text 'literal is missing; a record is: number kind mark A B C literal' '1 40 0 0 0 0'
bad_text "'x' is no kind, a number from 0 to 255" '1 x 0 0 0 0 0'
bad_text "'256' is no mark, a number from 0 to 255" '1 40 256 0 0 0 0'
bad_text "'65536' is no child C, a number from 0 to 65535" '1 40 0 0 0 65536 0'
bad_text "'9223372036854775808' is no literal" '1 1 0 0 0 0 9223372036854775808'
bad_text 'the record is numbered 2, and its place is 1' '2 40 0 0 0 0 0'
bad_text "'5' stands after the literal" '1 40 0 0 0 0 0 5'
bad_text 'longer than 510 characters' "$(printf '%600s' 1)"
expect 65 'more records than any table has' check "$(skips 4101 | table endless)"
head -c 65601 /dev/zero >"$scratch/long"
expect 65 'is longer than 65600 bytes' check "$scratch/long"
