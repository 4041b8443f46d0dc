#!/bin/sh
# Times `create` on random images of 4, 16 and 64 MiB, each beside md5sum of the same image in the same run.
# Usage: bench/create.sh [PARITY]
. "$(dirname "$0")/common.sh"
parity=${1:-32}

echo "parity $parity, $(uname -m), $(nproc 2> /dev/null || echo '?') processors, the best of three runs"
printf '%8s %11s %8s %11s %8s %8s %12s\n' image create MB/s md5sum MB/s ratio 'memory MiB'
for mebibytes in 4 16 64; do
    image=$folder/image
    ecc=$folder/ecc
    bytes=$((mebibytes * 1048576))
    head -c "$bytes" /dev/urandom > "$image" || exit 1
    clock 0 "$program" create "$image" "$ecc" --parity "$parity" || { echo "create failed"; exit 1; }
    create=$took
    clock 0 md5sum "$image" || { echo "md5sum failed"; exit 1; }
    digest=$took
    held=$(held_by "$program" create "$image" "$ecc" --parity "$parity")
    awk -v m="$mebibytes" -v b="$bytes" -v c="$create" -v d="$digest" -v h="$held" 'BEGIN {
        printf "%4d MiB %9.3f s %8.1f %9.3f s %8.1f %8.1f %12s\n", m, c / 1e9, b / (c / 1e3), d / 1e9, b / (d / 1e3), c / d, h
    }'
done
