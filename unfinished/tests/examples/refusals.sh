# Every refusal, with its number, its record and its message; sourced by tests/examples.sh.

# refused NUMBER TEXT FILE: every command on a source table refuses it alike.
refused() {
    local command
    for command in check translate run watch demo; do
        expect "$1" "refusal $1$2" "$command" "$3"
    done
    expect "$1" "$1 " list "$3"
}

refused 1 " (the table's length is 0 or no multiple of 16 bytes)" "$(table nothing <<<'# no record')"
head -c 15 /dev/zero >"$scratch/short"
refused 1 " (the table's length is 0" "$scratch/short"

refused 2 ' (too many records)' "$(skips 257 | table many)"
refused 6 ' at record 1 (the last record is no statement, or another' "$(skips 256 | table full)"
expect 2 'refusal 2 (too many records)' check --target "$(skips 4097 | table many-target)"
expect 2 'refusal 2 (too many records)' watch --target "$scratch/many-target.txt"

refused 3 ' at record 1 (kind not in the language)' "$(table kind <<<'1 6 0 0 0 0 0')"
refused 4 ' at record 1 (mark, operator, query, literal or child' "$(table mark <<<'1 40 1 0 0 0 0')"
refused 5 ' at record 1 (child not smaller or of the wrong sort)' "$(table child <<<'1 43 0 1 0 0 0')"
refused 6 ' at record 1 (the last record is no statement' "$(table shape <<<'1 1 0 0 0 0 5')"
refused 7 ' at record 1 (variable used out of scope' "$(printf '1 10 5 0 0 0 0\n2 2 0 1 0 0 0\n3 43 0 2 0 0 0\n' | table scope)"

refused 8 ' at record 3 (term or predicate that needs a temporary above 63)' "$(deep 63 | table deep)"
expect 0 'ending 0 (finished)' watch "$(deep 62 | table less-deep)"

# The inputs: none, 257 of them, and 9 bytes.
head -c 9 /dev/zero >"$scratch/inputs"
for run in run watch; do
    expect 9 'refusal 9 (inputs no multiple of 8 bytes, none, or over 256)' "$run" examples/P1.txt --inputs ''
    expect 9 'refusal 9 (' "$run" examples/P1.txt --inputs "$(seq -s, 257)"
    expect 9 'refusal 9 (' "$run" examples/P1.txt --inputs-file "$scratch/inputs"
    expect 0 'free cells 767' "$run" examples/P1.txt --inputs "$(seq -s, 256)"
done

# The lent buffers, tried after the inputs, and the observation memory last. With 18,424 and 3,064 bytes
# a host comes that was built for 255 names.
expect 20 'refusal 20 (output shorter than the translation)' translate examples/P1.txt --output-bytes 111
expect 0 'translation: done, 7 records' translate examples/P1.txt --output-bytes 112
for bytes in 0 18424 49143 49145; do
    expect 21 'refusal 21 (execution memory not 49144 bytes)' run examples/P1.txt --memory-bytes "$bytes"
    expect 21 'refusal 21 (' watch examples/P1.txt --memory-bytes "$bytes" --observation-bytes 0
done
for bytes in 0 3064 33783 33785; do
    expect 22 'refusal 22 (observation memory not 33784 bytes)' watch examples/P1.txt --observation-bytes "$bytes"
done
expect 9 'refusal 9 (' watch examples/P1.txt --inputs '' --memory-bytes 0
