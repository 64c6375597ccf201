#!/usr/bin/env bash
# Checks that what the documents name is there: definitions, theorems, functions, files, tests and must-fail edits; and
# that every sentence of docs/SENTENCES.md has a test or says why it has none.
set -euo pipefail
cd "$(dirname "$0")/.."
missing=0

miss() {
    echo "$1"
    missing=1
}

# The names between backquotes in the text read, each once.
names() {
    grep -o '`[^`]*`' | tr -d '`' | sort -u
}

# exists NAME: a name is told by its form; a word that has none of these forms is not a name.
exists() {
    local name=$1
    case $name in
    *.rs::*) grep -A1 -Fx '#[test]' "tests/${name%%::*}" | grep -qxF "fn ${name##*::}() {" ;;
    *::*)
        grep -qE "(fn ${name##*::}[(<]|pub use [a-z_:]+::(\{([a-z_]+, )*)?${name##*::}((, [a-z_]+)*\})?;)" \
            "crates/${name%%::*}/src/"*.rt
        ;;
    crates/* | docs/* | tests/*) [ -e "$name" ] ;;
    reference/* | compare/*) [ -e "tests/$name" ] ;;
    */*.*) [ -e "crates/$name" ] ;;
    */*) [ -f "crates/${name%%/*}/must-fail/${name#*/}.edit" ] ;;
    [A-Z]*.*)
        grep -qE "^ *((pub|abbrev|unfoldable|record|data) )*${name#*.} *[:({]" \
            crates/rules*/specs/"${name%%.*}.antt" crates/rules*/proofs{,/*}/"${name%%.*}.antt"
        ;;
    [A-Z]*)
        compgen -G "crates/rules*/proofs/$name.antt" >/dev/null ||
            compgen -G "crates/rules/proofs/*/$name.antt" >/dev/null || grep -q "enum $name " crates/rules/src/lib.rt
        ;;
    esac 2>/dev/null
}

# names_exist PAGE NAMES: every one of the names, of which there are some.
names_exist() {
    [ -n "$2" ] || miss "$1 names nothing"
    while IFS= read -r name; do
        exists "$name" || miss "$1 names $name, which is not there"
    done <<<"$2"
    echo "$1: $(wc -l <<<"$2") names"
}

# rows_tested PAGE: in a table whose last column is Test, each row has a test function there, or "no test" and why.
rows_tested() {
    local row
    while IFS= read -r row; do
        [ -z "$row" ] || miss "$1 has no test for$row"
    done <<<"$(awk -F'|' '
        !/^\|/ { tests = 0; next }
        $(NF - 1) == " Test " { tests = 1; next }
        tests && !/^\|-/ && $(NF - 1) !~ /\.rs::[a-z]/ && $(NF - 1) !~ /^ no test: [a-z]/ { print $2 }' "$1")"
}

# theorems_stand PAGE: in the table with a column Theorem before a column File, each theorem stands in one of its files.
theorems_stand() {
    local theorems files theorem file found
    while IFS='|' read -r theorems files; do
        for theorem in $(names <<<"$theorems"); do
            found=
            for file in $(names <<<"$files"); do
                grep -qE "^ *(pub )?(record )?${theorem#*.} *[:(]" crates/rules*/proofs{,/*}/"$file.antt" 2>/dev/null && found=1
            done
            [ -n "$found" ] || miss "$1 names $theorem, which is not in$files"
        done
    done <<<"$(awk -F'|' '
        !/^\|/ { theorems = 0; next }
        $3 == " Theorem " && $4 == " File " { theorems = 1; next }
        theorems && !/^\|-/ { print $3 "|" $4 }' "$1")"
}

# every_module_named PAGE DEFINITIONS: each section names a definition, and each module of the definitions has one named.
every_module_named() {
    local file module section
    for file in crates/rules*/specs/*.antt; do
        module=$(basename "$file" .antt)
        [ "$module" = Lib ] || [ "$module" = Types ] || grep -q "^$module\." <<<"$2" || miss "$1 names nothing of $module"
    done
    while IFS= read -r section; do
        [ -z "$section" ] || miss "$1 names no definition in: $section"
    done <<<"$(awk '/^## / { if (h && !d) print h; h = $0; d = 0 } /`[A-Z][A-Za-z0-9]*\.[A-Za-z]/ { d = 1 }
        END { if (!d) print h }' "$1")"
}

names_exist docs/SENTENCES.md "$(names <docs/SENTENCES.md)"
rows_tested docs/SENTENCES.md
names_exist docs/PROVED.md "$(sed -n '/^## Versions/,/^## What/p' docs/PROVED.md | grep '^|' | names | grep / || true)"
theorems_stand docs/PROVED.md
defined=$(names <docs/RULES.md | grep '^[A-Z][A-Za-z0-9]*\.[a-zA-Z]' || true)
names_exist docs/RULES.md "$defined"
every_module_named docs/RULES.md "$defined"

[ "$missing" -eq 0 ] || exit 1
echo "what the documents name is all there"
