#!/bin/sh
# What `create`, `verify` and `fix` hold and ask for as images grow: the most memory at several sizes by 1, 2 and 8 workers
# (images of zeros, which take no room on most file systems; their files take a seventh of the size), whether the time
# grows as the image does, and how many calls of the system are made for 64 MiB.
# Usage: bench/windows.sh [MEBIBYTES ..]
# The sizes are those at which memory is told: 512 and 8192, unless others are given; 32767 is the most. Memory wants GNU
# time, and calls want strace; what isn't installed is told as unknown.
# Wanted are at most 64 MiB up to an image of 8 GiB and 160 MiB at 32 GiB, at most 8.8 times the time where the image is 8
# times as long, and for 64 MiB at most 3,000 calls of `create` and 1,500 of `verify`.
. "$(dirname "$0")/common.sh"
image=$folder/image
ecc=$folder/ecc

# Makes an image of zeros of so many MiB.
sized() {
    rm -f "$image"
    truncate -s "$1M" "$image" || exit 1
}

# Damages it: its last MiB is gone, and in each of 64 parts 4 sectors are no zeros.
damaged() {
    sized "$1"
    truncate -s $(($1 - 1))M "$image" || exit 1
    for part in $(seq 0 63); do
        head -c 8192 /dev/urandom |
            dd of="$image" bs=2048 seek=$((512 * $1 / 64 * part)) conv=notrunc iflag=fullblock 2> /dev/null || exit 1
    done
}

# How many calls of the system a command makes.
calls_of() {
    if command -v strace > /dev/null 2>&1; then
        strace -f -c -U calls,name -o "$folder/calls" "$@" > /dev/null 2>&1
        awk '$2 == "total" { print $1 }' "$folder/calls"
    else
        echo unknown
    fi
}

echo "$(uname -m), $(nproc 2> /dev/null || echo '?') processors"
printf '%9s %8s %12s %12s %12s   most memory in MiB\n' image workers create verify fix
for mebibytes in ${*:-512 8192}; do
    for workers in 1 2 8; do
        sized "$mebibytes"
        create=$(held_by "$program" create "$image" "$ecc" --workers "$workers")
        damaged "$mebibytes"
        verify=$(held_by "$program" verify "$image" "$ecc")
        fix=$(held_by "$program" fix "$image" "$ecc" --workers "$workers")
        printf '%5d MiB %8d %12s %12s %12s\n' "$mebibytes" "$workers" "$create" "$verify" "$fix"
    done
done

printf '\n%9s %12s %12s %12s   time, the best of three runs\n' image create verify fix
for mebibytes in 64 512; do
    rm -f "$image"
    head -c $((mebibytes * 1048576)) /dev/urandom > "$image" || exit 1
    clock 0 "$program" create "$image" "$ecc" || { echo "create failed"; exit 1; }
    create=$took
    clock 0 "$program" verify "$image" "$ecc" || { echo "verify failed"; exit 1; }
    verify=$took
    clock 0 "$program" fix "$image" "$ecc" || { echo "fix failed"; exit 1; }
    fix=$took
    awk -v m="$mebibytes" -v c="$create" -v v="$verify" -v f="$fix" 'BEGIN {
        printf "%5d MiB %10.3f s %10.3f s %10.3f s\n", m, c / 1e9, v / 1e9, f / 1e9
    }'
    if [ "$mebibytes" -eq 64 ]; then
        of_create=$create of_verify=$verify of_fix=$fix
    fi
done
awk -v c="$create" -v v="$verify" -v f="$fix" -v oc="$of_create" -v ov="$of_verify" -v of="$of_fix" 'BEGIN {
    printf "%9s %12.2f %12.2f %12.2f   where the image is 8 times as long\n", "times", c / oc, v / ov, f / of
}'

rm -f "$image"
head -c $((64 * 1048576)) /dev/urandom > "$image" || exit 1
printf '\n%9s %12s %12s %12s   calls of the system\n' image create verify fix
create=$(calls_of "$program" create "$image" "$ecc")
verify=$(calls_of "$program" verify "$image" "$ecc")
dd if=/dev/zero of="$image" bs=2048 seek=16384 count=1638 conv=notrunc 2> /dev/null || exit 1
fix=$(calls_of "$program" fix "$image" "$ecc")
printf '%5d MiB %12s %12s %12s\n' 64 "$create" "$verify" "$fix"
