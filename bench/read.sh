#!/bin/sh
# Times `read` of a whole image file, taken as a drive, into a new image, with and without its error correction file,
# and `scan` of it. Beside each stands dd with blocks of 2048 bytes, which copies the same file in the same run. Prints
# how many times as long the program takes as dd, and the most memory that it held.
# Usage: bench/read.sh [MEBIBYTES]
. "$(dirname "$0")/common.sh"
mebibytes=${1:-256}
bytes=$((mebibytes * 1048576))
drive=$folder/drive
image=$folder/image
ecc=$folder/ecc

# Each run begins without the image.
prepare() {
    rm -f "$image"
}

# The most memory that a command of the program held, in MiB.
memory() {
    prepare || return 1
    held_by "$program" "$@"
}

# Prints a line of the table: what was done, its time, that of dd and the memory.
line() {
    awk -v n="$1" -v b="$bytes" -v c="$2" -v d="$3" -v h="$4" 'BEGIN {
        printf "%14s %9.3f s %8.1f %9.3f s %8.1f %8.2f %12s\n", n, c / 1e9, b / (c / 1e3), d / 1e9, b / (d / 1e3), c / d, h
    }'
}

head -c "$bytes" /dev/urandom > "$drive" || exit 1
"$program" create "$drive" "$ecc" > /dev/null || { echo "create failed"; exit 1; }
echo "$mebibytes MiB, $(uname -m), $(nproc 2> /dev/null || echo '?') processors, the best of three runs"
printf '%14s %11s %8s %11s %8s %8s %12s\n' work time MB/s dd MB/s times 'memory MiB'
clock 0 dd if="$drive" of="$image" bs=2048 status=none || { echo "dd failed"; exit 1; }
copy=$took
clock 0 "$program" read "$image" --drive "$drive" || { echo "read failed"; exit 1; }
cmp "$drive" "$image" || { echo "read gave another image"; exit 1; }
line 'read' "$took" "$copy" "$(memory read "$image" --drive "$drive")"
clock 0 "$program" read "$image" "$ecc" --drive "$drive" || { echo "read failed"; exit 1; }
cmp "$drive" "$image" || { echo "read gave another image"; exit 1; }
line 'read with ECC' "$took" "$copy" "$(memory read "$image" "$ecc" --drive "$drive")"
clock 0 "$program" scan "$ecc" --drive "$drive" || { echo "scan failed"; exit 1; }
line 'scan with ECC' "$took" "$copy" "$(memory scan "$ecc" --drive "$drive")"
