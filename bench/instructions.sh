#!/usr/bin/env bash
# Instructions of one call of each row, of the library and of C, counted by callgrind: instructions.sh BENCH
set -euo pipefail
bench=$1
# memset and memcpy are found before the call. By vectors, since callgrind counts each byte of the other way.
export LD_BIND_NOW=1
export GLIBC_TUNABLES=glibc.cpu.x86_rep_stosb_threshold=1000000000:glibc.cpu.x86_rep_movsb_threshold=1000000000
count() { # SIDE CALL FUNCTION TABLE
    valgrind --tool=callgrind --callgrind-out-file=/dev/null --toggle-collect="$3" "$bench" "$1" "$2" "$4" 2>&1 |
        sed -n 's/.*Collected : *\([0-9]*\).*/\1/p'
}
printf '%-9s %-31s %12s %12s %8s\n' call table library C ratio
"$bench" rows | while IFS=$'\t' read -r call table; do
    case $call in
    plain | watched) function=run_$call ;;
    source | target) function=check_$call ;;
    *) function=$call ;;
    esac
    library=$(count library "$call" "recorder_$function" "$table")
    c=$(count c "$call" "interpreter_$function" "$table")
    awk -v r="$call" -v t="$table" -v l="$library" -v c="$c" \
        'BEGIN { printf "%-9s %-31s %12d %12d %8.2f\n", r, t, l, c, l / c }'
done
