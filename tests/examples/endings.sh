# Both runs of every example end as `expected` has it; sourced by tests/examples.sh.
while read -r name inputs fuel number statement left free; do
    place=''
    [ "$number" -eq 0 ] || place=" at statement $statement"
    for run in run watch; do
        expect "$number" "$place, fuel left $left, free cells $free" \
            "$run" "examples/$name.txt" --inputs "$inputs" --fuel "$fuel"
        expect "$number" ": ending $number (" "$run" "examples/$name.txt" --inputs "$inputs" --fuel "$fuel"
    done
    expect 0 'both runs have the same answer and the same execution memory' \
        demo "examples/$name.txt" --inputs "$inputs" --fuel "$fuel"
done < <(grep -v '^#' tests/examples/expected)

for file in examples/*.txt; do
    name=$(basename "$file" .txt)
    grep -q "^$name " tests/examples/expected || fail "$name has no expected ending"
    grep -q '^# Teaches: ' "$file" || fail "$file does not say what it teaches"
    expect 0 'accepted' check "$file"
done

# The listing that document 01 has of P1, from the text and from the table's bytes.
"$program" pack examples/P1.txt "$scratch/P1" || fail "pack"
diff tests/examples/P1.listing <("$program" list examples/P1.txt)
diff tests/examples/P1.listing <("$program" list "$scratch/P1")

# A translation written to a file is accepted as a target table, and runs as the source does.
"$program" translate examples/two-assertions.txt "$scratch/target" >"$scratch/said" || fail "translate"
expect 0 'accepted' check --target "$scratch/target"
expect 33 'at statement 29' watch --target "$scratch/target"

# told NUMBER WORDS EXAMPLE WORD..: both runs, and the demo of both, tell the ending of a source table in these words.
told() {
    local run
    for run in run watch; do
        expect "$1" " run: ending $1 ($2) at statement " "$run" "examples/$3.txt" "${@:4}"
    done
    shows "plain run: ending $1 ($2) at statement " demo "examples/$3.txt" "${@:4}"
    shows "watched run: ending $1 ($2) at statement " demo "examples/$3.txt" "${@:4}"
}
told 42 'block 4 is dead; its offset 0 was used' read-after-free
told 42 'block 4 is dead; its offset 0 was used' read-after-free-asserted
told 42 'block 4 is dead; its offset 1 was used' store-after-free
told 50 'offset 3 is outside block 5, which has 3 cells' one-past-the-end
told 50 'offset 2 is outside block 2, which has 2 cells' one-past-the-end-asserted
told 50 'offset 2 is outside block 2, which has 1 cell' one-past-the-end-asserted --inputs 7
told 50 'offset -1 is outside block 2, which has 2 cells' offset-below-zero
told 50 'offset -1 is outside block 2, which has 2 cells' offset-below-zero-asserted
told 47 'base, offset or length of a block not live, or a pointer into one compared' compare-after-free
told 47 'base, offset or length of a block not live, or a pointer into one compared' compare-after-free-asserted

# A target table's temporaries stand in no buffer, so that it is told in general words, a translation too.
"$program" translate examples/read-after-free.txt "$scratch/dead" >"$scratch/said" || fail "translate"
expect 42 'ending 42 (cell of a dead block) at statement 19' watch --target "$scratch/dead"
"$program" translate examples/one-past-the-end.txt "$scratch/outside" >"$scratch/said" || fail "translate"
expect 50 'ending 50 (offset outside a live block) at statement 18' watch --target "$scratch/outside"

# A new block whose own store is turned away: the execution memory alone knows it.
unrecorded=$(table unrecorded <<'END'
1 10 0 0 0 0 0   # v0
2  2 0 1 0 0 0   # value of v0
3  1 0 0 0 0 2   # 2
4  5 0 2 3 0 0   # v0 + 2
5 11 0 4 0 0 0   # the place *(v0 + 2)
6  1 0 0 0 0 1   # 1
7 42 0 5 6 0 0   # *(v0 + 2) = new 1
END
)
expect 50 'ending 50 (offset 2 is outside block 2, which has 2 cells) at statement 7' watch "$unrecorded"
shows $'  block 3: live and freeable\n    cell 3: undefined\n  dead names: none\n' watch "$unrecorded"
shows $'  block 2: live\n    marks 1 to 2: initialised\n  dead names: none\n' watch "$unrecorded"

# What the runs left in the memories.
shows $'  block 2: live and fixed\n    cell 1: 4\n    cell 2: -4\n    cell 3: 2\n    cell 4: -2\n    cell 5: 0\n' \
    run examples/P2.txt --inputs 0,0,0,0,0
shows $'    cell 1: -3\n    cell 2: 9\n' run examples/P3.txt
shows $'    cell 0: pointer to block 4, offset 0\n' run examples/P9.txt
shows $'  block 4: live and freeable\n    cells 3 to 7: undefined\n  dead names: 3\n' run examples/P9.txt
shows $'  block 5: live\n    mark 4: initialised\n    mark 5: not initialised\n  dead names: 4\n' \
    watch examples/two-assertions.txt
shows $'observation memory\n  block 1: live\n    mark 0: initialised\n' watch examples/P1.txt

# Names above 255: of a let, of what it points to, of dead blocks.
shows $'  dead names: 3 to 302\n' run examples/R1.txt --fuel 300
shows $'  dead names: 3 to 4095\n' run examples/R1.txt --fuel 5000
shows $'  block 304: live and fixed\n    cell 4: pointer to block 305, offset 0\n' run examples/many-names.txt
shows $'  block 305: live and freeable\n    cell 5: 7\n    cell 6: undefined\n  dead names: 4 to 303\n' \
    run examples/many-names.txt
shows $'  block 304: live\n    mark 4: initialised\n  block 305: live\n    mark 5: initialised\n' \
    watch examples/many-names.txt
shows $'    mark 6: not initialised\n  dead names: 4 to 303\n' watch examples/many-names.txt

# They are told whole where they end a run. In place of the example's second assertion: a store to *(p + 2).
outside=$(sed 's/^36 .*/36 1 0 0 0 0 2/; s/^38 .*/38 11 0 37 0 0 0/; s/^39 .*/39 1 0 0 0 0 5/
    s/^40 .*/40 41 0 38 39 0 0/' examples/many-names.txt | table names-outside)
# And a free of p in place of the first.
dead=$(sed 's/^31 .*/31 43 0 30 0 0 0/; s/^32 .*/32 40 0 0 0 0 0/; s/^33 .*/33 44 0 31 32 0 0/' \
    "$outside" | table names-dead)
for run in run watch; do
    expect 50 'ending 50 (offset 2 is outside block 305, which has 2 cells) at statement 40' "$run" "$outside"
    expect 42 'ending 42 (block 305 is dead; its offset 2 was used) at statement 40' "$run" "$dead"
done

# Endings that only a hand-made target has: a block stored twice, and an empty temporary.
stored_twice=$(table stored-twice <<'END'
1 10 0 0 0 0 0   # v0
2 60 0 1 0 0 9   # t0 = &v0
3  1 0 0 0 0 1   # 1
4 61 1 3 0 0 9   # t1 = 1
5 68 0 0 0 0 9   # store block t0 of length t1
6 44 0 4 5 0 9
7 44 0 2 6 0 9
END
)
expect 48 'ending 48 (call that contradicts the observation memory) at statement 9' watch --target "$stored_twice"
empty=$(table empty <<<'1 67 5 0 0 0 3')
expect 49 'ending 49 (empty temporary) at statement 3' watch --target "$empty"

# Kind 63 asks the observation memory: a block never recorded is compared with nothing, though it is live.
unrecorded_compared=$(table unrecorded-compared <<'END'
 1 10 0  0  0 0 0   # v0
 2  1 0  0  0 0 1   # 1
 3 42 0  1  2 0 5   # v0 = new 1
 4 10 0  0  0 0 0   # v0
 5  2 0  4  0 0 0   # value of v0
 6 61 1  5  0 0 5   # t1 = v0
 7 10 0  0  0 0 0   # v0
 8  2 0  7  0 0 0   # value of v0
 9 61 2  8  0 0 5   # t2 = v0
10 63 0  0  0 7 6   # t0 = (t1 = t2)
11 44 0  9 10 0 5
12 44 0  6 11 0 5
13 44 0  3 12 0 5
END
)
expect 47 'a pointer into one compared) at statement 6' watch --target "$unrecorded_compared"
