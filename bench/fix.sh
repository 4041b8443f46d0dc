#!/bin/sh
# Times `verify` and `fix` on random images of 4, 16 and 64 MiB in which one sector in twenty, all in a row, is
# overwritten by zeros, each beside md5sum of the same image in the same run. Each repaired image is compared with the
# original.
# Usage: bench/fix.sh [PARITY]
# PARITY is at least 13, since fewer parity bytes can't restore one sector in twenty.
. "$(dirname "$0")/common.sh"
parity=${1:-32}
original=$folder/original
damaged=$folder/damaged
image=$folder/image
ecc=$folder/ecc

# Each run has a fresh copy of the damaged image.
prepare() {
    cp "$damaged" "$image"
}

# The most memory that a command of the program held on the damaged image, in MiB.
memory() {
    prepare || return 1
    held_by "$program" "$1" "$image" "$ecc"
}

# Prints a line of the table: the size, the command, its time, that of md5sum and the memory.
line() {
    awk -v m="$1" -v b="$bytes" -v n="$2" -v c="$3" -v d="$4" -v h="$5" 'BEGIN {
        printf "%4d MiB %8s %9.3f s %8.1f %9.3f s %8.1f %8.1f %12s\n", m, n, c / 1e9, b / (c / 1e3), d / 1e9, b / (d / 1e3), c / d, h
    }'
}

echo "parity $parity, $(uname -m), $(nproc 2> /dev/null || echo '?') processors, the best of three runs"
printf '%8s %8s %11s %8s %11s %8s %8s %12s\n' image command time MB/s md5sum MB/s ratio 'memory MiB'
for mebibytes in 4 16 64; do
    bytes=$((mebibytes * 1048576))
    sectors=$((bytes / 2048))
    head -c "$bytes" /dev/urandom > "$original" || exit 1
    "$program" create "$original" "$ecc" --parity "$parity" > /dev/null || { echo "create failed"; exit 1; }
    cp "$original" "$damaged" || exit 1
    dd if=/dev/zero of="$damaged" bs=2048 seek=$((sectors / 2)) count=$((sectors / 20)) conv=notrunc 2> /dev/null || exit 1
    clock 0 md5sum "$image" || { echo "md5sum failed"; exit 1; }
    digest=$took
    clock 1 "$program" verify "$image" "$ecc" || { echo "verify failed"; exit 1; }
    verify=$took
    clock 0 "$program" fix "$image" "$ecc" || { echo "fix failed"; exit 1; }
    fix=$took
    cmp "$original" "$image" || { echo "fix gave another image"; exit 1; }
    line "$mebibytes" verify "$verify" "$digest" "$(memory verify)"
    line "$mebibytes" fix "$fix" "$digest" "$(memory fix)"
done
