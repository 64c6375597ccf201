# Runs told step by step; sourced by tests/examples.sh.

# stops EXPECTED WORD..: the stops of a trace, without what the statements say.
stops() {
    local said
    said=$("$program" trace "${@:2}" |
        sed -n 's/^\([0-9]*\): end of .* \[/\1 end [/p; s/^\([0-9]*\): .* \[/\1 [/p') || true
    [ "$said" = "$1" ] || fail "recorder trace ${*:2}: stops at $said"
    passed=$((passed + 1))
}

# replays STOPS WORD..: the changes that a trace with so many stops tells add up to the memories that the run leaves.
replays() {
    diff <("$program" trace --stops "$1" "${@:2}" | awk -f tests/examples/replay.awk) \
        <("$program" watch "${@:2}" | sed '/^watched run/,$d') ||
        fail "recorder trace --stops $*: the changes do not add up"
    passed=$((passed + 1))
}

while read -r name inputs fuel number _; do
    expect "$number" "watched run: ending $number (" trace "examples/$name.txt" --inputs "$inputs" --fuel "$fuel"
    replays 100 "examples/$name.txt" --inputs "$inputs" --fuel "$fuel"
done < <(grep -v '^#' tests/examples/expected)

# A list is no stop; a let is one before its block is made, and again when its body is done.
stops '35 [fuel left 1000, free cells 1021]
3 [fuel left 1000, free cells 1020]
6 [fuel left 1000, free cells 1018]
9 [fuel left 1000, free cells 1020]
17 [fuel left 1000, free cells 1018]
22 [fuel left 1000, free cells 1018]
29 [fuel left 1000, free cells 1018]' examples/two-assertions.txt
shows $'\n29: assert initialised (p + 1) [fuel left 1000, ' trace examples/two-assertions.txt
shows $'\nstart\n    block 1 made: 1 cell from cell 0, fixed\n    block 2 made: 2 cells from cell 1, fixed
    cell 0 (block 1, offset 0): undefined -> pointer to block 2, offset 0
    cell 1 (block 2, offset 0): undefined -> 7
    cell 2 (block 2, offset 1): undefined -> 9\n    block 1 recorded: 1 mark from mark 0
    block 2 recorded: 2 marks from mark 1\n    mark 0 (block 1, offset 0): initialised
    marks 1 to 2 (block 2, offsets 0 to 1): initialised\n35: ' trace examples/two-assertions.txt
shows $', free cells 1018]\n    block 4 ended\n    block 4 deleted\n9: ' trace examples/two-assertions.txt
shows $']\n    block 5 made: 2 cells from cell 4, freeable
    cell 3 (block 3, offset 0): pointer to block 4, offset 0 -> pointer to block 5, offset 0
    block 5 recorded: 2 marks from mark 4\n17: ' trace examples/two-assertions.txt
shows $']\n    cell 4 (block 5, offset 0): undefined -> 7\n    mark 4 (block 5, offset 0): initialised\n22: ' \
    trace examples/two-assertions.txt
shows $']\n    cell 3 (block 3, offset 0): undefined -> pointer to block 3, offset 0
    mark 3 (block 3, offset 0): initialised\n9: *p := 5 [' trace examples/P7.txt
shows $', free cells 1020]\n    cell 3 (block 3, offset 0): pointer to block 3, offset 0 -> 5\n11: end of let p in 10 [' \
    trace examples/P7.txt
shows $'(--stops 1)\n    block 3 made and ended\n    block 3 recorded and deleted\nwatched run: ' \
    trace --stops 1 examples/P7.txt
shows $'made: 5 cells from cell 3, freeable\n' trace examples/P9.txt

# While tests, each with the fuel that it finds; a statement is a stop in the first turn alone.
stops '4 [test 1, fuel left 2, free cells 1021]
3 [fuel left 1, free cells 1021]
2 [fuel left 1, free cells 1020]
3 end [fuel left 1, free cells 1020]
4 [test 2, fuel left 1, free cells 1021]' examples/R1.txt --fuel 2
stops '' examples/R1.txt --fuel 0
stops '30 [fuel left 1000, free cells 1021]
29 [fuel left 1000, free cells 1020]
3 [fuel left 1000, free cells 1019]
6 [fuel left 1000, free cells 1016]
26 [test 1, fuel left 1000, free cells 1016]
18 [fuel left 999, free cells 1016]
24 [fuel left 999, free cells 1016]
26 [test 2, fuel left 999, free cells 1016]
26 [test 3, fuel left 998, free cells 1016]
26 [test 4, fuel left 997, free cells 1016]' examples/one-past-the-end.txt
expect 50 $'watched run: ending 50 (' trace examples/one-past-the-end.txt

# No more stops than asked for, and the ending all the same.
stops '4 [test 1, fuel left 5000, free cells 1021]
3 [fuel left 4999, free cells 1021]
2 [fuel left 4999, free cells 1020]
3 end [fuel left 4999, free cells 1020]
4 [test 2, fuel left 4999, free cells 1021]' examples/R1.txt --fuel 5000 --stops 5
shows $'more stops are left out (--stops 5)\n    blocks 4 to 4095 made and ended
    blocks 4 to 4095 recorded and deleted\nwatched run: ending 31 (' trace examples/R1.txt --fuel 5000 --stops 5
stops '4 [test 1, fuel left 4294967295, free cells 1021]' examples/R1.txt --fuel 4294967295 --stops 1
for most in 1 2 3 5 8; do
    replays "$most" examples/one-past-the-end.txt
    replays "$most" examples/many-names.txt
done

# A hand-made target: its own records are the statements, though they carry other numbers.
"$program" translate examples/R1.txt "$scratch/looping" >"$scratch/said" || fail "translate"
stops '17 [test 1, fuel left 1, free cells 1021]
16 [fuel left 0, free cells 1021]
3 [fuel left 0, free cells 1020]
5 [fuel left 0, free cells 1020]
6 [fuel left 0, free cells 1020]
7 [fuel left 0, free cells 1020]
9 [fuel left 0, free cells 1020]
10 [fuel left 0, free cells 1020]
16 end [fuel left 0, free cells 1020]' --target "$scratch/looping" --fuel 1
stored_again=$(table stored-again <<'END_OF_TABLE'
1 10 0 0 0 0 0   # v0
2 60 0 1 0 0 9   # t0 = &v0
3  1 0 0 0 0 1   # 1
4 61 1 3 0 0 9   # t1 = 1
5 68 0 0 0 0 9   # store block t0 of length t1
6 44 0 4 5 0 9
7 44 0 2 6 0 9
END_OF_TABLE
)
stops '2 [fuel left 1000, free cells 1021]
4 [fuel left 1000, free cells 1021]
5 [fuel left 1000, free cells 1021]' --target "$stored_again"
expect 48 'watched run: ending 48 (' trace --target "$stored_again"

# 256 records: an assertion gives way to the one that stops the run, a skip is too short for that.
full=$({
    printf '%s\n' '1 1 0 0 0 0 0' '2 20 0 1 0 0 0' '3 1 0 0 0 0 0' '4 20 0 3 0 0 0' '5 32 7 2 4 0 0' '6 48 0 5 0 0 0'
    for number in $(seq 7 131); do echo "$number 40 0 0 0 0 0"; done
    for number in $(seq 132 256); do echo "$number 44 0 $((262 - number)) $((number - 1)) 0 0"; done
} | table full)
stops '6 [fuel left 1000, free cells 1021]' "$full"
expect 0 'no stop at statement 7, 8, 9, 10,' trace "$full"
expect 0 ', 131: the table has no room for it' trace "$full"

# Objects: one a stop, and one for the end.
first='{"command": "trace", "file": "examples/R1.txt", "stop": 1, "at": "test", "statement": 4, "text": "'
expect 32 "$first" trace --json examples/R1.txt --fuel 2
shows '"fuel": 2, "free_cells": 1021, "execution_changes": ["block 1 made: ' trace --json examples/R1.txt --fuel 2
shows '"stop": 2, "at": "statement", "statement": 3, ' trace --json examples/R1.txt --fuel 2
shows '"execution_changes": ["block 3 ended"], "observation_changes": ["block 3 deleted"]}' \
    trace --json examples/R1.txt --fuel 2
shows '"at": "end", "answer": {"number": 32, ' trace --json examples/R1.txt --fuel 2
shows '"execution_changes": [], "observation_changes": []}' trace --json examples/two-assertions.txt
shows '"cut": true, "no_room": []}' trace --json examples/R1.txt --stops 1
shows '"cut": false, "no_room": [7, 8, 9, 10, ' trace --json "$full"
[ "$("$program" trace --json examples/R1.txt --fuel 2 | wc -l)" -eq 6 ] || fail "trace --json: not one line a stop"

# A refused table is told as `watch` tells it.
refused=$(table refused <<<'1 40 0 0 0 0 1')
expect 4 'watched run: refusal 4 at record 1 (' trace "$refused"
expect 9 'watched run: refusal 9 (' trace examples/P1.txt --inputs ''
expect 4 '"at": "end", "answer": {"number": 4, ' trace --json "$refused"
