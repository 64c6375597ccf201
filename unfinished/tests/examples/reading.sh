# Tables as text and as bytes; sourced by tests/examples.sh.

# The content tells the format, the name does not; either can be given.
"$program" pack examples/P7.txt "$scratch/bytes.txt"
cp examples/P7.txt "$scratch/text.table"
expect 0 'accepted, 11 records' check "$scratch/bytes.txt"
expect 0 'accepted, 11 records' check "$scratch/text.table"
expect 0 'accepted, 11 records' check --bytes "$scratch/bytes.txt"
expect 0 'accepted, 11 records' check --text "$scratch/text.table"
expect 65 'line 1: column 1: a NUL' check --text /dev/stdin < <(head -c 16 /dev/zero)
expect 1 "refusal 1 (the table's length is 0 or no multiple of 16 bytes)" check --bytes "$scratch/text.table"

# Text and bytes and back, of source and target tables.
for example in examples/*.txt; do
    "$program" pack "$example" "$scratch/packed" --force
    "$program" unpack "$scratch/packed" "$scratch/unpacked" --force
    "$program" pack "$scratch/unpacked" - | cmp - "$scratch/packed" || fail "$example packed, unpacked, packed"
    "$program" list "$example" >"$scratch/listed"
    "$program" translate "$example" - 2>"$scratch/said" | "$program" unpack - - | cmp - "$scratch/listed" ||
        fail "the translation of $example unpacked"
done
expect 65 "a table's bytes are a multiple of 16; these are 17" unpack --bytes "$(head -c 17 /dev/zero | table odd)" -

# What no text may hold is told with line and column.
stray() {
    printf "$1" >"$scratch/stray.txt"
    expect 65 "stray.txt, line $2: column $3: $4" check "$scratch/stray.txt"
}
stray '1 40 0 0 0 0 0\0 2 2 2\n' 1 15 'a NUL (byte 0)'
stray "1 40 0 0 0 0 0\n#$(printf '%500s' '')\0\n2 40 0 0 0 0 0\n" 2 502 'a NUL (byte 0)'
stray "#$(printf '%600s' '')\0" 1 602 'a NUL (byte 0)'
stray '1 40 0 0 0 0 0 # \033[2J\n' 1 18 'a control character (byte 27)'
stray '1 40 0 0 0 0 0 # \177\n' 1 18 'a control character (byte 127)'
stray '# one\n1 40 0 0\r 0 0 0\n' 2 9 'a control character (byte 13)'

# A byte order mark, lines that end as on other systems, no end of the last line, text in comments.
for text in '\357\273\277# one\n1 40 0 0 0 0 0\n' '1 40 0 0 0 0 0\r\n' '1\t40 0 0 0 0 0' '\n\n 1 40 0 0 0 0 0 # \303\251\n'; do
    printf "$text" >"$scratch/fine.txt"
    expect 0 'accepted, 1 record' check "$scratch/fine.txt"
done

# Text that is no table, and files longer than any.
bad_text() {
    expect 65 "line 1: $1" check "$(table bad <<<"$2")"
}
bad_text 'literal is missing; a record is: number kind mark A B C literal' '1 40 0 0 0 0'
bad_text "'x' is no kind, a number from 0 to 255" '1 x 0 0 0 0 0'
bad_text "'256' is no mark, a number from 0 to 255" '1 40 256 0 0 0 0'
bad_text "'65536' is no child C, a number from 0 to 65535" '1 40 0 0 0 65536 0'
bad_text "'9223372036854775808' is no literal" '1 1 0 0 0 0 9223372036854775808'
bad_text 'the record is numbered 2, and its place is 1' '2 40 0 0 0 0 0'
bad_text "'5' stands after the literal" '1 40 0 0 0 0 0 5'
bad_text 'longer than 511 characters' "$(printf '%512s' 1)"
bad_text 'literal is missing' "$(printf '%499s 40 0 0 0 0' 1)"
expect 65 'more records than any table has' check "$(skips 4101 | table endless)"
head -c 65601 /dev/zero >"$scratch/long"
expect 65 'is longer than 65600 bytes' check "$scratch/long"
