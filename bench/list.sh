#!/usr/bin/env bash
# Times `list` and `normal` on a table of 1 MiB: 64 bridges, 64 windows, 64 CXIMS, and records of 4 bytes in the rest.
# The program is proved and built first where it is not.
set -eu
source "$(dirname "${BASH_SOURCE[0]}")/common.sh"
table="$work/large.cedt"

# number VALUE WIDTH: the value in so many bytes, lowest first
number() {
    local value=$1 i
    for ((i = 0; i < $2; i++)); do
        printf '%b' "\\x$(printf '%02x' $((value & 255)))"
        value=$((value >> 8))
    done
}

# header CHECKSUM: the 36 bytes of a table of 1 MiB
header() {
    printf 'CEDT'
    number 1048576 4
    number 1 1
    number "$1" 1
    number 0 26
}

bridge() { # bridge I
    number 0 1; number 0 1; number 32 2; number "$1" 4; number 1 4; number 0 4
    number $((0x80000000 + 0x10000 * $1)) 8; number 65536 8
}

window() { # window I: two ways at 256 bytes, over two bridges
    number 1 1; number 0 1; number 44 2; number 0 4
    number $((0x100000000 + 0x20000000 * $1)) 8; number $((0x20000000)) 8
    number 1 1; number 0 1; number 0 2; number 0 4; number 6 2; number 0 2
    number "$1" 4; number $((($1 + 1) % 64)) 4
}

maps() { # maps I: one map of the granularity I mod 7
    number 2 1; number 0 1; number 16 2; number 0 2; number $(($1 % 7)) 1; number 1 1; number $((0x404100)) 8
}

{
    for ((i = 0; i < 64; i++)); do bridge "$i"; done
    for ((i = 0; i < 64; i++)); do window "$i"; done
    for ((i = 0; i < 64; i++)); do maps "$i"; done
} >"$work/judged"
number 4 1 >"$work/others"
number 0 1 >>"$work/others"
number 4 2 >>"$work/others"
while (($(wc -c <"$work/others") < 1048576)); do
    cat "$work/others" "$work/others" >"$work/more"
    mv "$work/more" "$work/others"
done
cat "$work/judged" "$work/others" | head -c $((1048576 - 36)) >"$work/records"
sum="$({ header 0; cat "$work/records"; } | od -An -v -tu1 | awk '{ for (i = 1; i <= NF; i++) sum += $i } END { print (256 - sum % 256) % 256 }')"
{ header "$sum"; cat "$work/records"; } >"$table"

"$top/cxlplan" --version >/dev/null
"$top/cxlplan" list "$table" | tail -n 1
echo "lines: $("$top/cxlplan" list "$table" | wc -l)"
echo "list, to a file:"
time "$top/cxlplan" list "$table" >"$work/lines"
echo "normal, to a file:"
time "$top/cxlplan" normal "$table" >"$work/normal"
cmp "$table" "$work/normal" && echo "the normal form is the table"
