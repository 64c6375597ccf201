# Entries of the archive: written, verified, damaged, tampered with; sourced by tests/examples.sh.
entries=$scratch/entries
mkdir "$entries"
entry_files=(source.table target.table inputs answer.txt execution.memory observation.memory account.txt)

# Every example is kept whatever its ending, and holds; sha256sum finds the same checksums.
count=0
while read -r name inputs fuel number statement _; do
    entry=$entries/$name-$fuel
    place=''
    [ "$number" -eq 0 ] || place=" at statement $statement"
    expect 0 "$entry: entry written" archive "$entry" "examples/$name.txt" --inputs "$inputs" --fuel "$fuel"
    expect 0 "$entry: holds: ending $number$place" verify "$entry"
    (cd "$entry" && sha256sum --quiet --strict -c SHA256SUMS) || fail "sha256sum -c in $entry"
    (cd "$entry" && sha256sum "${entry_files[@]}") | diff - "$entry/SHA256SUMS"
    count=$((count + 1))
done < <(grep -v '^#' tests/examples/expected)
expect 0 "verified $count entries: $count hold, 0 differ" verify "$entries"/*

# The accounts of a wording are these, by their checksums: who changes a word raises ACCOUNT_WORDING in host/account.h,
# so that older entries are held to their checksums and do not differ.
accounts() {
    grep -h '^wording ' "$entries"/*/answer.txt | sort -u
    (cd "$entries" && sha256sum -- */account.txt)
}
diff tests/examples/accounts <(accounts) || fail "accounts have other words than tests/examples/accounts"

# Files of every length around the end of a block of SHA-256 have the checksums that sha256sum gives.
for inputs in 6 7 8 9 15 16 256; do
    for fuel in 1 10 1000 100000 4294967295; do
        expect 0 'entry written' \
            archive "$entries/sums" examples/P1.txt --force --inputs "$(seq -s, "$inputs")" --fuel "$fuel"
        (cd "$entries/sums" && sha256sum "${entry_files[@]}") | diff - "$entries/sums/SHA256SUMS"
    done
done

# docs/ARCHIVE.md decodes one of them: what it shows of each file stands there.
decoded=$entries/valid-or-initialised-100
file=''
rows=0
while read -r word place bytes; do
    [ "$word" = byte ] || { file=$place && continue; }
    found=$(od -An -v -tx1 -w16 -j "${place//,/}" -N "$(wc -w <<<"$bytes")" "$decoded/$file")
    [ "$(tr -d ' ' <<<"$bytes")" = "$(tr -d ' ' <<<"$found")" ] || fail "ARCHIVE.md, $file, byte $place: $found"
    rows=$((rows + 1))
done < <(sed -nE -e 's/^\*\*([A-Za-z0-9.]+)\*\*, .*/file \1/p' \
    -e 's/^    (byte) +([0-9,]+)   ([0-9a-f ]*[0-9a-f])   .*/\1 \2 \3/p' docs/ARCHIVE.md)
[ "$rows" -eq 44 ] || fail "ARCHIVE.md shows $rows rows of bytes"
[[ $(<docs/ARCHIVE.md) == *"$(sed 's/^/    /' "$decoded/answer.txt")"* ]] || fail 'ARCHIVE.md has another answer'
[[ $(<docs/ARCHIVE.md) == *"$(grep -v account "$decoded/SHA256SUMS" | sed 's/^/    /')"* ]] ||
    fail 'ARCHIVE.md has other checksums'

# The same run gives the same entry, from the text and from the table's bytes. A folder that is there is left alone.
kept=$entries/two-assertions-100
"$program" pack examples/two-assertions.txt "$scratch/two-assertions"
expect 0 'entry written' archive "$entries/again" "$scratch/two-assertions" --inputs 7,9 --fuel 100
diff -r "$kept" "$entries/again"
expect 73 "$kept exists; --force writes an entry over it" archive "$kept" examples/P1.txt
diff -r "$kept" "$entries/again"
expect 0 'entry written' archive "$entries/again" examples/P1.txt --force
expect 0 'holds: ending 0' verify "$entries/again"
expect 73 'cannot make the folder' archive "$entries/nowhere/entry" examples/P1.txt
expect 73 'cannot open' archive "$kept/inputs" examples/P1.txt --force

# An entry that could not be written to its end has no checksums.
rm "$entries/again/account.txt"
mkdir "$entries/again/account.txt"
expect 73 "cannot write $entries/again/account.txt: Is a directory" archive "$entries/again" examples/P7.txt --force
expect 71 'SHA256SUMS: missing' verify "$entries/again"
expect 71 'account.txt: no file' verify "$entries/again"

# What is refused is told as run tells it, and nothing is written.
refused=$(table refused <<<'1 62 0 0 0 0 0')
expect 3 'plain run: refusal 3 at record 1' archive "$entries/refused" "$refused"
expect 9 'plain run: refusal 9' archive "$entries/refused" examples/P1.txt --inputs ''
expect 65 'is no kind' archive "$entries/refused" "$(table bad <<<'1 x 0 0 0 0 0')"
expect 66 'cannot open nowhere.txt' archive "$entries/refused" nowhere.txt
expect 3 '"answer": {"number": 3' archive "$entries/refused" "$refused" --json
[ ! -e "$entries/refused" ] || fail 'a refused table has an entry'

# flip FILE BYTE: changes one byte.
flip() {
    local byte
    byte=$(od -An -tu1 -j "$2" -N 1 "$1")
    printf "\\x$(printf %x $((byte ^ 1)))" | dd of="$1" bs=1 seek="$2" conv=notrunc status=none
}

# fresh: a copy of an entry, to be changed; sealed: its checksums are made anew.
fresh() {
    rm -rf "$entries/changed"
    cp -r "$kept" "$entries/changed"
}
sealed() {
    (cd "$entries/changed" && sha256sum "${entry_files[@]}" >SHA256SUMS)
}
# differs TEXT: the changed entry differs in that.
differs() {
    expect 71 "$1" verify "$entries/changed"
    expect 71 'verified 1 entry: 0 hold, 1 differ' verify "$entries/changed"
}

# One byte of any file: its checksum tells, and the run tells which byte.
for file in "${entry_files[@]}"; do
    fresh
    flip "$entries/changed/$file" 8
    differs "$entries/changed: differs: $file: not the checksum that SHA256SUMS has"
done
fresh
flip "$entries/changed/SHA256SUMS" 3
differs 'source.table: not the checksum that SHA256SUMS has'
fresh
flip "$entries/changed/SHA256SUMS" 64
differs 'SHA256SUMS, line 1: not a checksum and source.table'
fresh
echo >>"$entries/changed/SHA256SUMS"
differs 'SHA256SUMS: 1 bytes behind its last line'

# Checksums made anew hide nothing: what the rules give is held against the files themselves.
for change in 'target.table 17 0' 'execution.memory 32824 2' 'observation.memory 32765 0' 'account.txt 0 65'; do
    read -r file byte right <<<"$change"
    fresh
    flip "$entries/changed/$file" "$byte"
    sealed
    differs "differs: $file, byte $byte: $((right ^ 1)) where the rules give $right"
done

# answer LINES..: the entry with other lines in its answer, and right checksums.
answer() {
    fresh
    printf '%s\n' "$@" >"$entries/changed/answer.txt"
    sealed
}
answer 'version 2' 'wording 1' 'fuel 100' 'number 0' 'statement 0' 'fuel left 100' 'free cells 1018'
differs 'answer.txt, number: 0 where the rules give 33; answer.txt, statement: 0 where the rules give 29'
answer 'version 2' 'wording 1' 'fuel 100' 'number 33' 'statement 29' 'fuel left 99' 'free cells 1019'
differs 'fuel left: 99 where the rules give 100; answer.txt, free cells: 1019 where the rules give 1018'
answer 'version 2' 'wording 1' 'fuel 101' 'number 33' 'statement 29' 'fuel left 100' 'free cells 1018'
differs 'answer.txt, fuel left: 100 where the rules give 101'
answer 'version 3' 'wording 1' 'fuel 100' 'number 33' 'statement 29' 'fuel left 100' 'free cells 1018'
differs "answer.txt, version: 3, and this program's rules are of 2"
answer 'version 2' 'wording 1' 'fuel 0100' 'number 33' 'statement 29' 'fuel left 100' 'free cells 1018'
differs "answer.txt, line 3: not 'fuel' and a decimal number"
answer 'version 2' 'wording 1' 'number 33' 'fuel 100' 'statement 29' 'fuel left 100' 'free cells 1018'
differs "answer.txt, line 3: not 'fuel' and a decimal number"
answer 'version 2' 'wording 1' 'fuel 100' 'number 4294967296' 'statement 29' 'fuel left 100' 'free cells 1018'
differs "answer.txt, line 4: not 'number' and a decimal number"
answer 'version 2' 'wording 1' 'fuel 100' 'number 33' 'statement 29' 'fuel left 100'
differs "answer.txt, line 7: not 'free cells' and a decimal number"
answer 'version 2' 'wording 1' 'fuel 100' 'number 33' 'statement 29' 'fuel left 100' 'free cells 1018' ''
differs 'answer.txt: 1 bytes behind its last line'

# An account in another program's words is held to its checksum.
answer 'version 2' 'wording 2' 'fuel 100' 'number 33' 'statement 29' 'fuel left 100' 'free cells 1018'
expect 0 'at statement 29; account.txt has wording 2, and was held to its checksum alone' verify "$entries/changed"
echo 'All is well.' >"$entries/changed/account.txt"
differs 'account.txt: not the checksum that SHA256SUMS has'

# Files that are missing, cut, longer, or none.
for file in "${entry_files[@]}" SHA256SUMS; do
    fresh
    rm "$entries/changed/$file"
    differs "$entries/changed: differs: $file: missing"
    mkdir "$entries/changed/$file"
    differs "$entries/changed: differs: $file: no file"
    fresh
    head -c 600000 /dev/zero >"$entries/changed/$file"
    differs "$entries/changed: differs: $file: longer than "
    : >"$entries/changed/$file"
    differs "$file"
done
fresh
mkfifo "$entries/pipe"
mv "$entries/pipe" "$entries/changed/inputs"
differs 'inputs: no file'
fresh
head -c 49143 "$kept/execution.memory" >"$entries/changed/execution.memory"
sealed
differs 'execution.memory: 49143 bytes where the rules give 49144'
fresh
head -c 17 "$kept/source.table" >"$entries/changed/source.table"
sealed
differs "source.table: refusal 1 (the table's length is 0 or no multiple of 16 bytes)"
fresh
head -c 7 "$kept/inputs" >"$entries/changed/inputs"
sealed
differs 'inputs: refusal 9 ('
expect 71 'the folder cannot be opened: No such file or directory' verify "$entries/nowhere"
expect 71 'the folder cannot be opened: Not a directory' verify "$kept/inputs"

# One entry that differs changes nothing for its neighbours, nor do its bytes.
fresh
flip "$entries/changed/inputs" 0
said=$("$program" verify "$kept" "$entries/changed" "$kept" "$entries/R1-300") || true
[ "$(grep -c ': holds: ' <<<"$said")" -eq 3 ] || fail "verify of four entries: $said"
[[ $said == *'verified 4 entries: 3 hold, 1 differ' ]] || fail "verify of four entries: $said"

# Objects of JSON.
json=$entries/json
expect 0 "{\"command\": \"archive\", \"file\": \"examples/P1.txt\", \"entry\": \"$json\", " \
    archive "$json" examples/P1.txt --json
expect 0 "{\"command\": \"verify\", \"entry\": \"$kept\", \"holds\": true, \"account_by_checksum\": false, " \
    verify --json "$kept"
expect 0 '"answer": {"number": 33, "words": "assertion false", "record": 29' verify --json "$kept"
expect 71 '"difference": "inputs: not the checksum that SHA256SUMS has; ' verify --json "$entries/changed"
expect 71 '{"command": "verify", "entries": 2, "hold": 1, "differ": 1}' verify --json "$kept" "$entries/changed"
