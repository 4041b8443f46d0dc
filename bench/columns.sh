#!/bin/sh
# Times `create` and `fix` by one worker beside dvdisaster's method RS01 on one random image, for 32, 64 and 100 parity
# bytes: the image whole, and with one sector in twenty, all in a row, overwritten by zeros. Prints how many times the
# peer's speed the program has. md5sum of the image stands beside both.
# Usage: bench/columns.sh [MEBIBYTES]
# The peer is Debian's package dvdisaster; where it isn't installed, its columns say so.
. "$(dirname "$0")/common.sh"
. "$(dirname "$0")/peer.sh"

# Prints a line of the table: the parity, what was done, our time, that of md5sum, and that of the peer or nothing.
line() {
    awk -v r="$1" -v n="$2" -v b="$bytes" -v c="$3" -v d="$4" -v p="$5" 'BEGIN {
        peer = p == "" ? "not installed" : sprintf("%9.3f s %7.1f", p / 1e9, p / c)
        printf "%6d %12s %9.3f s %8.1f %9.3f s %7.2f %s\n", r, n, c / 1e9, b / (c / 1e3), d / 1e9, d / c, peer
    }'
}

make_images "${1:-256}"
echo "$mebibytes MiB, $(uname -m), $(nproc 2> /dev/null || echo '?') processors, the best of three runs; ratios above 1: faster than the peer"
printf '%6s %12s %11s %8s %11s %7s %11s %7s\n' parity work time MB/s md5sum ratio dvdisaster ratio
from=$original
clock 0 md5sum "$image" || { echo "md5sum failed"; exit 1; }
digest=$took
for parity in 32 64 100; do
    from=$original
    clock 0 "$program" create "$image" "$ecc" --parity "$parity" --workers 1 || { echo "create failed"; exit 1; }
    ours=$took
    peer -mRS01 -n "$parity" -c
    line "$parity" create "$ours" "$digest" "$took"
    clock 0 "$program" fix "$image" "$ecc" --workers 1 || { echo "fix failed"; exit 1; }
    ours=$took
    peer -f
    line "$parity" 'fix whole' "$ours" "$digest" "$took"
    from=$damaged
    peer -f
    theirs=$took
    clock 0 "$program" fix "$image" "$ecc" --workers 1 || { echo "fix failed"; exit 1; }
    cmp "$original" "$image" || { echo "fix gave another image"; exit 1; }
    line "$parity" 'fix damaged' "$took" "$digest" "$theirs"
done
