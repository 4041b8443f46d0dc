#!/bin/sh
# Times `create` and `fix` by 1, 2 and 4 workers on one random image, with 32 parity bytes: `create`, `fix` of the whole
# image, and `fix` with one sector in twenty, all in a row, overwritten by zeros. Prints how many times the speed of one
# worker each has, and of `create` how many times that of dvdisaster's method RS01, and of RS03 on four threads. md5sum
# of the image, the one chain that can't be shared, is told first.
# Usage: bench/workers.sh [MEBIBYTES]
# The peer is Debian's package dvdisaster; where it isn't installed, its columns say so.
. "$(dirname "$0")/common.sh"
. "$(dirname "$0")/peer.sh"

# Prints a line of the table: the workers, what was done, its time, that of one worker, and those of the peer or nothing.
line() {
    awk -v w="$1" -v n="$2" -v c="$3" -v o="$4" -v p="$5" -v q="$6" 'BEGIN {
        printf "%7d %12s %9.3f s %7.2f %9s %9s\n", w, n, c / 1e9, o / c, p == "" ? "-" : sprintf("%.2f", p / c), q == "" ? "-" : sprintf("%.2f", q / c)
    }'
}

make_images "${1:-256}"
from=$original
clock 0 md5sum "$image" || { echo "md5sum failed"; exit 1; }
echo "$mebibytes MiB, $(uname -m), $(nproc 2> /dev/null || echo '?') processors, the best of three runs; md5sum takes $(awk -v t="$took" 'BEGIN { printf "%.3f", t / 1e9 }') s"
peer -mRS01 -n 32 -c
one_thread=$took
peer -mRS03 -n 32 -x 4 -o file -c
four_threads=$took
printf '%7s %12s %11s %7s %9s %9s\n' workers work time 'to one' RS01 'RS03 by 4'
for workers in 1 2 4; do
    from=$original
    clock 0 "$program" create "$image" "$ecc" --workers "$workers" || { echo "create failed"; exit 1; }
    [ "$workers" -ne 1 ] || create=$took
    line "$workers" create "$took" "$create" "$one_thread" "$four_threads"
    clock 0 "$program" fix "$image" "$ecc" --workers "$workers" || { echo "fix failed"; exit 1; }
    [ "$workers" -ne 1 ] || whole=$took
    line "$workers" 'fix whole' "$took" "$whole"
    from=$damaged
    clock 0 "$program" fix "$image" "$ecc" --workers "$workers" || { echo "fix failed"; exit 1; }
    cmp "$original" "$image" || { echo "fix gave another image"; exit 1; }
    [ "$workers" -ne 1 ] || mended=$took
    line "$workers" 'fix damaged' "$took" "$mended"
done
