#!/usr/bin/env bash
# Turns what `make bench` or `make instructions` prints into the rows of a table in README.md, the largest ratio first.
set -euo pipefail
awk '
    function grouped(n) { # 1234567 as 1,234,567
        while (match(n, /[0-9][0-9][0-9][0-9]($|,)/))
            n = substr(n, 1, RSTART) "," substr(n, RSTART + 1)
        return n
    }
    function shown(n) {
        if (n !~ /\./)
            return grouped(n)
        return n < 1 ? sprintf("%.3f", n) : n < 100 ? sprintf("%.1f", n) : grouped(sprintf("%.0f", n))
    }
    /^$/ { exit }
    NR > 1 {
        table = substr($0, 11, 31)
        sub(/ +$/, "", table)
        printf "| %s | %s | %s | %s | %.2f |\n", table, $1, shown($(NF - 2)), shown($(NF - 1)), $NF
    }' | sort -t'|' -k6,6rn
