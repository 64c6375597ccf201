# Endings explained that have to do with a block's end: 42, 46, 47 and 50; then those of target tables, 48 and 49 among
# them. Sourced by tests/examples.sh.

# 42: a read, and the store of a new block's pointer, after a free; a let's block after its end.
explained 42 examples/read-after-free.txt <<'END'
19: *v0 := *p
*p: block 4 is dead; its offset 0 was used
block 4 is dead since statement 11, free p
it was a read
END
explained 42 '10 m1 | 1 =1 | 42 A1 B2 | 10 m1 | 2 A4 | 43 A5 | 10 m1 | 2 A7 | 11 A8 | 1 =1 | 42 A9 B10 | 44 A6 B11
    | 44 A3 B12 | 47 m1 A13' <<'END'
11: *v1 := new 1
*v1: block 4 is dead; its offset 0 was used
block 4 is dead since statement 6, free v1
it was the store of the pointer to the new block, which stays
END
explained 42 '10 m1 | 10 m2 | 3 A2 | 41 A1 B3 | 47 m2 A4 | 10 m1 | 2 A6 | 11 A7 | 1 | 41 A8 B9 | 44 A5 B10
    | 47 m1 A11' <<'END'
10: *v1 := 0
*v1: block 4 is dead; its offset 0 was used
block 4 is dead since the end of statement 5, let v2 in 4
it was a store
END

# Three turns: each makes a block and frees it, by one statement in the first turn and by another in the next two; then
# the third one's block is used. A free that can have ended it in a later turn is named where there is no other.
turns() {
    echo "10 m2 | 1 | 41 A1 B2 | 1 =1 | 10 m1 | 1 =1 | 42 A5 B6 | 10 m2 | 2 A8 | 10 m1 | 2 A10 | 43 A11 | $1
        | 45 A9 B12 C15 | 1 =2 | 10 m2 | 2 A18 | 4 m6 A17 B19 | 10 m1 | 2 A21 | 11 A22 | 1 | 41 A23 B24 | 10 m2 | 10 m2
        | 2 A27 | 1 =1 | 4 m1 A28 B29 | 41 A26 B30 | 45 A20 B25 C31 | 44 A16 B32 | 44 A7 B33 | 46 A4 B34 | 44 A3 B35
        | 47 m2 A36 | 47 m1 A37"
}
explained 42 "$(turns '10 m1 | 2 A13 | 43 A14')" <<'END'
25: *v1 := 0
*v1: block 7 is dead; its offset 0 was used
block 7 is dead
it was a store
END
explained 42 "$(turns '40 | 40 | 44 A13 B14')" <<'END'
25: *v1 := 0
*v1: block 7 is dead; its offset 0 was used
block 7 is dead since statement 12, free v1
it was a store
END

# 46: a fixed block, not the first cell, a block freed before.
explained 46 '10 | 2 A1 | 43 A2' <<'END'
3: free v0
v0 is a pointer to block 2, offset 0, and that block is fixed: only what a new made can be freed
block 2 is live and fixed (the inputs), 2 cells from cell 1 on
END
explained 46 '10 | 1 =2 | 42 A1 B2 | 10 | 2 A4 | 1 =1 | 5 A5 B6 | 43 A7 | 44 A3 B8' <<'END'
8: free (v0 + 1)
v0 + 1 is a pointer to block 3, offset 1, which is not the block's first cell
block 3 is live and freeable, 2 cells from cell 3 on
END
explained 46 '10 | 1 =2 | 42 A1 B2 | 10 | 2 A4 | 43 A5 | 10 | 2 A7 | 43 A8 | 44 A6 B9 | 44 A3 B10' <<'END'
9: free v0
v0 is a pointer to block 3, offset 0, and that block is dead
block 3 is dead since statement 6, free v0
END

# 47: each query, and each side of a comparison.
while read -r kind text words; do
    explained 47 "10 | 1 =2 | 42 A1 B2 | 10 | 2 A4 | 43 A5 | 10 | 2 A7 | 20 A8 | $kind A9 | 1 | 20 A11 | 32 m7 A10 B12
        | 48 A13 | 44 A6 B14 | 44 A3 B15" <<END
14: assert ($text of v0) = 0
$text of v0: v0 is a pointer to block 3, offset 0
block 3 is dead since statement 6, free v0
the $words was asked for
END
done <<'END'
21 base base address
22 offset offset
23 length block length
END
compared() {
    echo "10 m1 | 1 =2 | 42 A1 B2 | 10 m1 | 2 A4 | 43 A5 | 10 | 10 m$1 | 2 A8 | 10 m$2 | 2 A10 | 4 m7 A9 B11
        | 41 A7 B12 | 44 A6 B13 | 44 A3 B14 | 47 m1 A15"
}
explained 47 "$(compared 1 0)" <<'END'
13: v0 := v1 = v0
v1 = v0: v1 is a pointer to block 4, offset 0, v0 is a pointer to block 2, offset 0
block 4 is dead since statement 6, free v1
the left side of the comparison points into a block that is not live
END
explained 47 "$(compared 1 1)" <<'END'
13: v0 := v1 = v1
v1 = v1: v1 is a pointer to block 4, offset 0, v1 is a pointer to block 4, offset 0
block 4 is dead since statement 6, free v1
both sides of the comparison point into blocks that are not live
END

# 50: a store, and a read.
explained 50 examples/one-past-the-end.txt <<'END'
18: *(p + i) := 0
*(p + i): offset 3 is outside block 5, which has 3 cells
block 5 is live and freeable, 3 cells from cell 5 on
it was a store
END
explained 50 examples/one-past-the-end-asserted.txt <<'END'
11: assert *(v0 + 2) = 0
*(v0 + 2): offset 2 is outside block 2, which has 2 cells
block 2 is live and fixed (the inputs), 2 cells from cell 1 on
it was a read
END

# Target tables: 48 of each call, 49, and what can be worked out without a temporary. Statement numbers are no records.
explained_by watch 48 '10 | 60 A1 =9 | 1 =1 | 61 m1 A3 =9 | 68 =9 | 44 A4 B5 =9 | 44 A2 B6 =9' --target <<END
record 5: store block t0 of t1 cells, from source statement 9
a block was to be recorded in the observation memory; what temporaries hold stands in no buffer
this contradicts where the offset is not 0, the length is below 1, the name is live or dead there already, \
or no run of free marks is long enough
END
explained_by watch 48 '10 | 2 A1 | 1 =2 | 5 A2 B3 | 61 A4 =200 | 69 =201 | 44 A5 B6 =202' --target <<'END'
record 6: delete block t0, from source statement 201
a block was to be deleted from the observation memory; what temporaries hold stands in no buffer
this contradicts where the offset is not 0, or the name is not live there
END
explained_by watch 48 '10 | 2 A1 | 1 =2 | 5 A2 B3 | 61 A4 =200 | 70 =201 | 44 A5 B6 =202' --target <<'END'
record 6: initialise t0, from source statement 201
a place was to be marked initialised; what temporaries hold stands in no buffer
this contradicts where the pointer leads to no mark: its name is not live there, or the offset is outside
END
explained_by watch 49 '67 m5 =3' --target <<'END'
record 1: assert t5, from source statement 3
a temporary was asserted; what temporaries hold stands in no buffer
a temporary was read before anything was put there
END
explained_by watch 41 '10 m1 | 2 A1 | 61 A2 =250 | 47 m1 A3 =251' --target <<'END'
record 3: t0 := v1, from source statement 250
v1 is undefined: nothing was stored at offset 0 of block 3
block 3 is live and fixed (the variable v1), 1 cell, cell 3
END
explained_by watch 41 '10 m1 | 60 A1 =7 | 12 | 2 A3 | 61 m1 A4 =8 | 44 A2 B5 =9 | 47 m1 A6 =9' --target <<'END'
record 5: t1 := *t0, from source statement 8
a temporary was used; what temporaries hold stands in no buffer
END
