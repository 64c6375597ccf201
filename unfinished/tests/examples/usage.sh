# Arguments, and what is written where; sourced by tests/examples.sh.
expect 0 '73 a file cannot be written' --help
expect 0 'is tested and not proved' --help
for help in help -h; do
    diff <("$program" --help) <("$program" "$help")
done
expect 64 'recorder --help tells more'
expect 64 'no such command: fly' fly
expect 64 'no such command: fly' help fly

# Each command's own help, asked for in every way, and whatever else is given.
for command in check show list translate run watch demo trace draw pack unpack archive verify; do
    shows "usage: recorder $command " help "$command"
    for words in "$command --help" "$command -h" "$command nowhere --help --speed"; do
        # shellcheck disable=SC2086
        diff <("$program" help "$command") <("$program" $words) || fail "recorder $words"
    done
    shows "  $command " --help
    expect 64 "$command: it takes " "$command"
    expect 64 "$command: no such option: --speed" "$command" examples/P1.txt --speed 3
done
expect 64 'pack: it takes FILE OUT' pack examples/P1.txt
expect 64 'run: one word too many: b' run examples/P1.txt b
expect 64 'check: takes no --fuel' check examples/P1.txt --fuel 3
expect 64 'run: a value is missing after --fuel' run examples/P1.txt --fuel
expect 64 'run: no value belongs to --json' run examples/P1.txt --json=yes
expect 64 'run: no such option: -x' run examples/P1.txt -x

# Values: behind the option or with =, and words behind --.
expect 0 'fuel left 17' run examples/P1.txt --fuel=17
expect 0 'fuel left 17' run --fuel 17 -- examples/P1.txt
expect 66 'cannot open --fuel: ' run -- --fuel
for fuel in -1 4294967296 99999999999999999999 '' 1x ' 1' +1; do
    expect 64 "--fuel takes a number from 0 to 4294967295, not '$fuel'" run examples/P1.txt --fuel "$fuel"
    expect 64 "--fuel takes a number from 0 to 4294967295, not '$fuel'" run examples/P1.txt "--fuel=$fuel"
done
expect 0 'fuel left 4294967295' run examples/P1.txt --fuel 4294967295
for inputs in ',' '7,' '7,,9' seven 9223372036854775808 000000000000000000000000000000000007; do
    expect 64 '--inputs takes numbers of 64 bits' run examples/P1.txt --inputs "$inputs"
done
expect 0 'finished' run examples/P1.txt --inputs -9223372036854775808,9223372036854775807
expect 64 '--memory-bytes takes a number of bytes from 0 to 65536' run examples/P1.txt --memory-bytes 65537

expect 66 'cannot open nowhere.txt: ' check nowhere.txt
expect 66 'cannot read examples: ' check examples
expect 66 'cannot open nowhere: ' run examples/P1.txt --inputs-file nowhere
expect 73 'cannot open nowhere/out: ' pack examples/P1.txt nowhere/out
expect 73 'cannot write /dev/full: ' pack examples/P1.txt /dev/full
status=0
"$program" list examples/P1.txt 2>"$scratch/said" >/dev/full || status=$?
[ "$status" -eq 73 ] || fail "a full standard output: status $status"

# Several files: each line has its file's name, and the status is the worst.
expect 0 'examples/P1.txt: check: accepted, 5 records' check examples/P1.txt examples/P7.txt
expect 0 'examples/P7.txt: check: accepted, 11 records' check examples/P1.txt examples/P7.txt
expect 66 'examples/P7.txt: check: accepted' check examples/P1.txt nowhere examples/P7.txt
expect 6 'check: accepted' check "$(table misshapen <<<'1 1 0 0 0 0 5')" examples/P7.txt
[ "$("$program" check "$scratch/misshapen.txt" examples/P7.txt | grep -cv '^[^ ]*\.txt: ')" -eq 0 ] || fail "check of two"
expect 6 'examples/P1.txt: 7 44 0 5 6 0 5' list "$scratch/misshapen.txt" examples/P1.txt
[ "$("$program" list examples/P1.txt examples/P7.txt | grep -cv '^examples/P[17].txt: ')" -eq 0 ] || fail "list of two"

# Nothing is overwritten, the input least of all, but with --force.
cp examples/P1.txt "$scratch/own.txt"
for command in pack unpack translate; do
    expect 73 'own.txt exists; --force overwrites it' "$command" "$scratch/own.txt" "$scratch/own.txt"
    cmp -s examples/P1.txt "$scratch/own.txt" || fail "$command wrote over its own input"
done
expect 0 '' pack "$scratch/own.txt" "$scratch/own.txt" --force
[ "$(wc -c <"$scratch/own.txt")" -eq 80 ] || fail "pack --force over its own input"
expect 4 'refusal 4' translate "$(table refused <<<'1 41 0 0 0 0 0')" "$scratch/unwritten"
[ ! -e "$scratch/unwritten" ] || fail "a refused translation is written"

# Standard input and output; what is told goes to standard error then.
"$program" pack - - <examples/P7.txt >"$scratch/P7" 2>"$scratch/said"
"$program" pack examples/P7.txt "$scratch/P7-file"
cmp "$scratch/P7" "$scratch/P7-file"
"$program" translate - - <"$scratch/P7" >"$scratch/P7-target" 2>"$scratch/said"
grep -q 'translation: done, 36 records' "$scratch/said" || fail "translate to standard output: $(cat "$scratch/said")"
"$program" check --target - <"$scratch/P7-target" >"$scratch/said" || fail "what translate wrote to standard output"
expect 64 'standard input (-) is named twice' check - - </dev/null
