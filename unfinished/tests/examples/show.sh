# Tables in words, and refusals explained; sourced by tests/examples.sh.

shows '35: let p in
  3: p := new 2
  6: free p
  9: p := new 2
  17: *p := *v0
  22: assert initialised p
  29: assert initialised (p + 1)' show examples/two-assertions.txt
shows '  17: while i <= 300 do
    9: let p in
      8: skip
    15: i := i + 1
  44: let p in
    20: p := new 2' show examples/many-names.txt
shows '    27: while (p = q) = 0 do
      18: q := p' show examples/compare-after-free.txt
shows '14: assert not ((0 = 1) and (p = 1))' show examples/P10.txt
expect 0 'source table, 35 records; what stands one below the other is a sequence (kind 44)' show \
    examples/two-assertions.txt

# The translation is told to be a target table by its kinds; its statements tell where they came from.
"$program" translate examples/two-assertions.txt "$scratch/two" >/dev/null
for option in '' --target; do
    shows '  7: t0 := address of v1                            [of 3]
  9: t2 := 2                                        [of 3]
  12: v1 := new 2                                   [of 3]
  15: t1 := *t0                                     [of 3]
  16: store block t1 of t2 cells                    [of 3]
  17: initialise t0                                 [of 3]' show "$scratch/two" $option
    shows '  75: t1 := v1 + 1                                  [of 29]
  76: t0 := initialised t1                          [of 29]
  78: assert t0                                     [of 29]
  86: t0 := address of v1                           [of 35]
  87: delete block t0                               [of 35]' show "$scratch/two" $option
done
expect 0 'target table, 93 records; what stands one below the other is a sequence (kind 44); [of' show "$scratch/two"

# Parentheses, and kinds that the examples do not have.
file=$(table source-kinds <<'TABLE'
# variable 1 is p
1 10 0 0 0 0 0
2 3 0 1 0 0 0
3 20 0 2 0 0 0
4 21 0 3 0 0 0
5 10 1 0 0 0 0
6 2 0 5 0 0 0
7 11 0 6 0 0 0
8 2 0 7 0 0 0
9 20 0 8 0 0 0
10 22 0 9 0 0 0
11 24 4 4 10 0 0
12 1 0 0 0 0 -5
13 20 0 12 0 0 0
14 23 0 13 0 0 0
15 24 5 11 14 0 0
16 1 0 0 0 0 3
17 20 0 16 0 0 0
18 32 6 15 17 0 0
19 1 0 0 0 0 4
20 20 0 19 0 0 0
21 30 0 20 0 0 0
22 33 0 21 0 0 0
23 35 0 18 22 0 0
24 48 0 23 0 0 0
25 10 1 0 0 0 0
26 2 0 25 0 0 0
27 1 0 0 0 0 1
28 4 2 26 27 0 0
29 1 0 0 0 0 2
30 4 3 28 29 0 0
31 40 0 0 0 0 0
32 45 0 30 24 31 0
33 47 1 32 0 0 0
TABLE
)
shows '33: let p in
  32: if (p - 1) * 2 then
    24: assert ((nearest (((base of (address of v0)) / (offset of *p)) / (length of -5))) <= 3) or (not (valid 4))
  32: else
    31: skip' show "$file"

# Operations and queries of a target table.
file=$(table target-kinds <<'TABLE'
1 12 5 0 0 0 0
2 60 4 1 0 0 9
3 63 3 0 0 5 9
4 64 0 0 0 1 9
5 64 0 0 0 3 9
6 64 0 0 0 4 9
7 64 0 0 0 5 9
8 65 2 0 0 0 9
9 69 1 0 0 0 9
10 66 7 0 8 9 9
11 44 0 7 10 0 9
12 44 0 6 11 0 9
13 44 0 5 12 0 9
14 44 0 4 13 0 9
15 44 0 3 14 0 9
16 44 0 2 15 0 9
TABLE
)
said=$("$program" show "$file" | sed 's/  *\[of 9\]$//; 1d')
[ "$said" = '2: t4 := address of *t5
3: t3 := nearest (t4 / t5)
4: t0 := valid t1
5: t0 := base of t1
6: t0 := offset of t1
7: t0 := length of t1
10: if t7 then
  8: t2 := not t3
10: else
  9: delete block t1' ] || fail "show of target kinds: $said"
passed=$((passed + 1))

# Nothing is lost: each statement of each example but a sequence has a line of its own.
for file in examples/*.txt; do
    said=$("$program" show "$file")
    for number in $(sed 's/#.*//' "$file" | awk '$2 >= 40 && $2 != 44 { print $1 }'); do
        [[ $said =~ (^|$'\n')\ *$number:\  ]] || fail "show $file: statement $number is missing: $said"
    done
    passed=$((passed + 1))
done

# What is nested too deep for a line stands below it.
shows '    #45: not (not (not (not (not (not (not (not (not (not (not #34))))))))))
      #34: not (' show "$(deep 62 | table nested)"

# long_sequence: 4,095 records of a target table, nested to the left: what a stack could not hold.
long_sequence() {
    echo '1 40 0 0 0 0 1'
    local number
    for number in $(seq 2 2 4094); do
        echo "$number 70 0 0 0 0 1"
        echo "$((number + 1)) 44 0 $((number - 1)) $number 0 1"
    done
}
file=$(long_sequence | table long-sequence)
expect 0 '4094: initialise t0' show "$file"
[ "$("$program" show "$file" | wc -l)" -eq 2049 ] || fail 'show of a long sequence: not a line for each statement'

# Damaged tables, one record a line.
damaged='1 99 1 2 3 4 5
2 45 0 1 7 0 0
3 4 9 1 3 0 0
4 44 0 3 9 0 0'
shows "1: kind 99 (mark 1, A 2, B 3, C 4, literal 5)
2: if kind 99 (mark 1, A 2, B 3, C 4, literal 5) then 7 else nothing [of 0]
3: (kind 99 (mark 1, A 2, B 3, C 4, literal 5)) operator 9 #3
4: 3, then 9                                        [of 0]
check: refusal 3 at record 1" show "$(table damaged <<<"$damaged")"
# Any bytes are a table in no shape.
head -c 8000 docs/RULES.md >"$scratch/prose"
expect 3 'target table, 500 records; each has a line' show --bytes "$scratch/prose"
expect 1 'the table has 31 bytes: 1 record of 16 bytes, and 15 more' show --bytes <(head -c 31 docs/RULES.md)

# Each refusal explained, of a source table and of a target table: refused_for NUMBER TEXT OPTION, the table on input.
refused_for() {
    expect "$1" "$2" check "$(table explained)" ${3:-}
}
refused_for 1 'the table has no bytes; a table has at least one record, of 16 bytes' <<<''
head -c 33 /dev/zero >"$scratch/cut"
expect 1 'the table has 33 bytes: 2 records of 16 bytes, and 1 more' check --target "$scratch/cut"
refused_for 2 'the table has 257 records; a source table has at most 256' < <(skips 257)
refused_for 2 'the table has 4097 records; a target table has at most 4096' --target < <(skips 4097)
refused_for 3 'its kind is 6; a source table has 1-5, 10, 11, 20-24, 30-35, 40-48' <<<'1 6 0 0 0 0 0'
refused_for 3 'usually: the table is a target table, which --target tells' <<<'1 67 0 0 0 0 1'
refused_for 3 'its kind is 62; a target table has 1-5, 10-12, 40-47, 60, 61, 63-70' --target <<<'1 62 0 0 0 0 1'
refused_for 3 'usually: the table is a source table, or has records of one' --target <<<'1 20 0 1 0 0 0'

# one_field TEXT LINES [OPTION]: only this is told of the last of the lines.
one_field() {
    local said
    said=$("$program" check "$(table field <<<"$2")" ${3:-} | sed -n 3p) || true
    [ "$said" = "  $1" ] || fail "of the line '$2' is told: $said"
    passed=$((passed + 1))
}
one_field 'its mark is 9; kind 4 (operation) allows operators 1 to 7' $'1 1 0 0 0 0 1\n2 1 0 0 0 0 1\n3 4 9 1 2 0 0'
one_field 'its mark is 6; kind 24 (operation) allows operators 1 to 5 or 8' '1 24 6 1 1 0 0'
one_field 'its mark is 5; kind 32 (comparison) allows operators 6 or 7' '1 32 5 1 1 0 0'
one_field 'its mark is 64; kind 10 (variable) allows variables 0 to 63' '1 10 64 0 0 0 0'
one_field 'its mark is 1; kind 40 (skip) has none, so it must be 0' '1 40 1 0 0 0 0'
one_field 'its child B is 0; kind 41 (store) asks for an expression' '1 41 0 1 0 0 0'
one_field 'its child C is 3; kind 41 (store) has none, so it must be 0' '1 41 0 1 1 3 0'
one_field 'its literal is 7; kind 40 (skip) has none, so it must be 0' '1 40 0 0 0 0 7'
one_field 'its mark is 62; kind 63 (operation) allows temporaries 0 to 61' '1 63 62 0 0 8 1' --target
one_field 'its C is 9; kind 63 (operation) allows operators 1 to 8' '1 63 0 0 0 9 1' --target
one_field 'its C is 0; kind 64 (query) allows queries 1 to 5' '1 64 0 0 0 0 1' --target
one_field 'its child A is 1; kind 66 (if) has none, so it must be 0' '1 66 0 1 1 1 1' --target
one_field 'its literal is 257; a statement of a target table has 1 to 256, the source statement that it came from' \
    '1 40 0 0 0 0 257' --target
one_field 'its mark is 2; kind 2 (read) has none, so it must be 0; also its child A is 0; '\
'kind 2 (read) asks for a place' '1 2 2 0 0 0 0'

place='1 10 0 0 0 0 0'
one_field 'child A is 5, which is not below 2' "$place"$'\n2 2 0 5 0 0 0'
one_field 'child A is record 1, a place; kind 43 (free) asks for an expression' "$place"$'\n2 43 0 1 0 0 0'
one_field 'child A is record 1, a place; kind 61 (value) asks for an expression' "$place"$'\n2 61 0 1 0 0 1' --target
refused_for 5 'usually: a read is left out: kind 2 is what a place holds' <<<"$place"$'\n2 43 0 1 0 0 0'

one_field 'the last record is a place; the last is the whole program, a statement' "$place"
one_field 'it is a child 2 times (A of 2, B of 2); each but the last is one exactly once' \
    $'1 40 0 0 0 0 0\n2 44 0 1 1 0 0'
one_field 'it is the child of no record; each but the last is the child of exactly one' \
    $'1 40 0 0 0 0 1\n2 64 0 0 0 1 1' --target

one_field 'variable 5 (v5) is used where it is not in scope: no record above lets it; it is let nowhere' \
    $'1 10 5 0 0 0 0\n2 2 0 1 0 0 0\n3 43 0 2 0 0 0'
one_field 'variable 5 (p) is used where it is not in scope: no record above lets it; it is let elsewhere, at 4' \
    $'# variable 5 is p\n1 10 5 0 0 0 0\n2 60 0 1 0 0 1\n3 40 0 0 0 0 1\n4 47 5 3 0 0 1\n5 44 0 4 2 0 1' --target
one_field 'variable 5 (v5) is let while it is in scope, by the let at 3 above' \
    $'1 40 0 0 0 0 0\n2 47 5 1 0 0 0\n3 47 5 2 0 0 0'
one_field 'variable 0 (v0) is let, and is in scope everywhere' $'1 40 0 0 0 0 1\n2 47 0 1 0 0 1' --target
refused_for 8 'its level is 64, so temporary t64 would be named; the last is t63' < <(deep 63)
refused_for 8 '3: v0' < <(deep 63)

expect 9 'a run takes 1 to 256 inputs, 8 bytes to each' run examples/P1.txt --inputs ''
expect 20 '57344 bytes hold any translation' translate examples/P1.txt --output-bytes 0
expect 21 'the execution memory has 49144 bytes' run examples/P1.txt --memory-bytes 0
expect 22 'the observation memory has 33784 bytes' watch examples/P1.txt --observation-bytes 0

# One object a line.
shows '{"command": "show", "file": "examples/P10.txt", "number": 15, "depth": 0, "text": "let p in"}
{"command": "show", "file": "examples/P10.txt", "number": 14, "depth": 1, "text": "assert not ((0 = 1) and (p = 1))"}' \
    show --json examples/P10.txt
shows '"number": 78, "depth": 1, "text": "assert t0", "of": 29}' show --json "$scratch/two"
expect 7 '"explanation": {"statement": "1: v5", "detail": "variable 5 (v5) is' show --json "$scratch/scope.txt"
