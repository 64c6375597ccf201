# Endings explained: 30 to 33, 40, 41 and 43 to 45; sourced by tests/examples.sh.

# 30: holes that are all too short; then holes that grow by one with each turn.
explained 30 '10 m1 | 1 =2 | 42 A1 B2 | 10 m2 | 1 =1000 | 42 A4 B5 | 10 m1 | 2 A7 | 43 A8 | 10 m1 | 1 =30 | 42 A10 B11
    | 44 A9 B12 | 44 A6 B13 | 47 m2 A14 | 44 A3 B15 | 47 m1 A16' <<'END'
12: v1 := new 30
a block of 30 cells was to be made
free runs, longest first: cells 1007 to 1023 (17), cells 4 to 5 (2); 30 cells were asked for
END
explained 30 '10 m3 | 1 =1 | 41 A1 B2 | 1 =1 | 10 m1 | 10 m3 | 2 A6 | 42 A5 B7 | 10 m2 | 10 m3 | 2 A10 | 42 A9 B11
    | 10 m1 | 2 A13 | 43 A14 | 10 m3 | 10 m3 | 2 A17 | 1 =1 | 4 m1 A18 B19 | 41 A16 B20 | 44 A15 B21 | 44 A12 B22
    | 44 A8 B23 | 46 A4 B24 | 44 A3 B25 | 47 m3 A26 | 47 m2 A27 | 47 m1 A28' --fuel 100 <<END
8: v1 := new v3
a block of 32 cells was to be made
free runs, longest first: cells 936 to 966 (31), cells 876 to 905 (30), cells 818 to 846 (29), \
cells 762 to 789 (28) and 28 more; 32 cells were asked for
END
explained 30 '10 | 1 =1021 | 42 A1 B2 | 40 | 47 m1 A4 | 44 A3 B5' <<'END'
5: let v1 in 4
a block of 1 cell was to be made
no cell is free; 1 cell was asked for
END

explained 31 examples/R1.txt --fuel 5000 <<'END'
3: let p in 2
a block of 1 cell was to be made, and all 4,095 names are given
END

for fuel in 300 0; do
    explained 32 examples/R1.txt --fuel "$fuel" <<END
4: while 1 do 3
no fuel was left for the test of 1; the run was given $fuel
END
done

# 33: not initialised, dead, outside, comparisons, and parts under and, or and not.
explained 33 examples/two-assertions.txt <<'END'
29: assert initialised (p + 1)
initialised (p + 1) is false: p + 1 is a pointer to block 5, offset 1, where nothing was stored
block 5 is live and freeable, 2 cells from cell 4 on
END
explained 33 examples/store-after-free-asserted.txt <<'END'
13: assert valid (p + 1)
valid (p + 1) is false: p + 1 is a pointer to block 4, offset 1, and that block is dead
block 4 is dead since statement 6, free p
END
explained 33 '10 | 2 A1 | 1 =2 | 5 A2 B3 | 20 A4 | 30 A5 | 48 A6' <<'END'
7: assert valid (v0 + 2)
valid (v0 + 2) is false: v0 + 2 is a pointer to block 2, offset 2, outside the block, which has 2 cells
block 2 is live and fixed (the inputs), 2 cells from cell 1 on
END
explained 33 '10 | 2 A1 | 11 A2 | 2 A3 | 20 A4 | 1 =3 | 20 A6 | 32 m6 A5 B7 | 48 A8' <<'END'
9: assert *v0 <= 3
*v0 <= 3 is false: *v0 is 7
END
explained 33 '10 | 2 A1 | 20 A2 | 10 | 3 A4 | 20 A5 | 32 m7 A3 B6 | 48 A7' <<'END'
8: assert v0 = (address of v0)
v0 = (address of v0) is false: v0 is a pointer to block 2, offset 0, address of v0 is a pointer to block 1, offset 0
END
explained 33 '1 =1 | 20 A1 | 1 | 20 A3 | 32 m6 A2 B4 | 10 | 2 A6 | 20 A7 | 30 A8 | 10 | 2 A10 | 11 A11 | 2 A12 | 20 A13
    | 1 =7 | 20 A15 | 32 m7 A14 B16 | 33 A17 | 34 A9 B18 | 35 A5 B19 | 48 A20' <<'END'
21: assert (1 <= 0) or ((valid v0) and (not (*v0 = 7)))
1 <= 0 is false; *v0 = 7 is true: *v0 is 7
END
explained 33 '10 | 2 A1 | 20 A2 | 30 A3 | 10 | 2 A5 | 20 A6 | 31 A7 | 34 A4 B8 | 33 A9 | 48 A10' <<'END'
11: assert not ((valid v0) and (initialised v0))
valid v0 is true: v0 is a pointer to block 2, offset 0; initialised v0 is true: v0 is a pointer to block 2, offset 0
block 2 is live and fixed (the inputs), 2 cells from cell 1 on
END

# 40: what came, and what was asked for.
explained 40 '1 =5 | 11 A1 | 1 =1 | 41 A2 B3' <<'END'
4: *5 := 1
*5: 5 is an integer; a pointer was asked for
END
explained 40 '10 | 10 | 2 A2 | 1 =1 | 4 m1 A3 B4 | 41 A1 B5' <<'END'
6: v0 := v0 + 1
v0 + 1: v0 is a pointer to block 2, offset 0, 1 is an integer; two integers were asked for
END
explained 40 '10 | 1 =1 | 10 | 2 A3 | 5 A2 B4 | 41 A1 B5' <<'END'
6: v0 := 1 + v0
1 + v0: 1 is an integer, v0 is a pointer to block 2, offset 0; a pointer and an integer were asked for
END
explained 40 '10 | 2 A1 | 20 A2 | 1 | 20 A4 | 32 m7 A3 B5 | 48 A6' <<'END'
7: assert v0 = 0
v0 = 0: v0 is a pointer to block 2, offset 0, 0 is an integer; two integers or two pointers were asked for
END
explained 40 '10 | 2 A1 | 40 | 46 A2 B3' <<'END'
4: while v0 do 3
v0 is a pointer to block 2, offset 0; an integer was asked for
END
explained 40 '10 | 10 | 2 A2 | 42 A1 B3' <<'END'
4: v0 := new v0
v0 is a pointer to block 2, offset 0; an integer was asked for
END
explained 40 '1 =5 | 43 A1' <<'END'
2: free 5
5 is an integer; a pointer was asked for
END
explained 40 '10 | 2 A1 | 11 A2 | 2 A3 | 20 A4 | 30 A5 | 48 A6' <<'END'
7: assert valid *v0
valid *v0: *v0 is 7; a pointer was asked for
END

explained 41 examples/undefined-read.txt <<'END'
7: assert p = 1
p is undefined: nothing was stored at offset 0 of block 3
block 3 is live and fixed (the variable p), 1 cell, cell 3
END

# 43: of integers, of an offset.
explained 43 '10 | 10 | 2 A2 | 11 A3 | 2 A4 | 1 =1 | 4 m1 A5 B6 | 41 A1 B7' --inputs 9223372036854775807 <<'END'
8: v0 := *v0 + 1
*v0 + 1: 9223372036854775807 + 1 leaves 64 bits
END
explained 43 '10 | 10 | 2 A2 | 1 =1 | 5 A3 B4 | 1 =9223372036854775807 | 5 A5 B6 | 41 A1 B7' <<'END'
8: v0 := (v0 + 1) + 9223372036854775807
(v0 + 1) + 9223372036854775807: offset 1 + 9223372036854775807 leaves 64 bits
END

explained 44 '10 | 1 =7 | 10 | 2 A3 | 11 A4 | 2 A5 | 4 m4 A2 B6 | 41 A1 B7' --inputs 0 <<'END'
8: v0 := 7 / *v0
7 / *v0: the divisor is 0
END

explained 45 examples/P8-zero.txt <<'END'
3: p := new 0
the size is 0; a block has at least 1 cell
END
explained 45 '10 | 10 | 2 A2 | 11 A3 | 2 A4 | 42 A1 B5' --inputs -3 <<'END'
6: v0 := new *v0
the size *v0 is -3; a block has at least 1 cell
END
