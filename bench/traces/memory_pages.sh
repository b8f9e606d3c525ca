#!/bin/sh
# memory_pages.sh [PROGRAM [ARGUMENT..]]: the 4 KB pages that a program touches, for code and for data, as
# hexadecimal numbers; of the first ACCESSES (1000000) alone. Without arguments the program is
# `ls -R /usr/share/doc`. What it writes to standard output isn't kept. Needs valgrind.
set -eu
[ $# -gt 0 ] || set -- ls -R /usr/share/doc
# The program writes to a file, since some do less for /dev/null; the file has no name, so nothing is left.
written=$(mktemp)
exec 4>"$written"
rm "$written"
# A line is: KIND ADDRESS,SIZE, where KIND is I (a fetch), L, S or M.
valgrind --tool=lackey --trace-mem=yes --log-fd=3 "$@" 3>&1 >&4 |
    awk -v most="${ACCESSES:-1000000}" '
        NF == 2 && $1 ~ /^[ILSM]$/ {
            sub(/,.*/, "", $2)
            page = substr($2, 1, length($2) - 3)
            print page == "" ? "0" : page
            if (++count == most) exit
        }
        END { exit !count }'
