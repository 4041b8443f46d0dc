#!/usr/bin/env bash
# Runs `create`, `fix` and `read` with 1 to 8 workers on images with random damage, and compares what they leave and tell.
#
#   tests/soak.sh [ROUNDS [SEED]]
#
# Each of ROUNDS rounds (200) takes an image of random size, up to 2 MiB and each tenth time up to 40 MiB, a random number
# of parity bytes and a random damage, which some layers can't be restored from. Each command is run with one worker, and
# then with 2 to 8: files, lines and statuses are to be the same. A repaired image is to be the original where no sector
# is lost, and an image that is read is to be that of the drive. The rounds go by turns: as it is, beside a busy loop on
# each processor, on one processor by `taskset`, and both.
# About 15 minutes on a quiet machine of four processors. The sizes, damages and turns follow from SEED (1), the bytes
# are the system's random ones. Ends with 0 where all came out so, with 1 where something didn't (each such case is told,
# and its files kept), and with 2 where the program isn't built. The program is that of crates/dvdisaster_rs01/out, or the
# one that PROGRAM names.
set -u
. "$(dirname "$0")/common.sh"
rounds=${1:-200}
RANDOM=${2:-1}
loops=
trap 'quiet; rm -rf "$work"' EXIT

quiet() {
    # shellcheck disable=SC2086
    [ -z "$loops" ] || kill $loops 2>/dev/null
    # shellcheck disable=SC2086
    [ -z "$loops" ] || wait $loops 2>/dev/null
    loops=
}

busy() {
    for _ in $(seq "$(nproc)"); do
        (while :; do :; done) &
        loops="$loops $!"
    done
}

# One of the processors that this run may use.
first=
if command -v taskset >/dev/null; then
    first=$(taskset -cp $$ | sed 's/.*: //; s/[-,].*//')
else
    echo "taskset isn't there: all rounds use all processors"
fi
alone=
limited() {
    if [ -n "$alone" ]; then taskset -c "$first" "$program" "$@"; else "$program" "$@"; fi
}

# Runs a command with 1 to 8 workers, each on fresh files by `prepare`, and compares the file that it leaves, its lines
# and its status with those of one worker, which stay as one.file, one.txt and one.status.
with_workers() { # WHAT FILE WORDS..
    local what=$1 file=$2 workers
    shift 2
    for workers in 1 2 3 4 5 6 7 8; do
        prepare
        limited "$@" --workers $workers >out.txt 2>err.txt
        status=$?
        if [ $workers = 1 ]; then
            cp "$file" one.file
            cp out.txt one.txt
            one=$status
            [ "$one" = 0 ] || [ "$one" = 1 ] || wrong "$what: status $one" start.iso start.ecc
        else
            [ "$status" = "$one" ] || wrong "$what with $workers workers: status $status, and $one with one" start.iso start.ecc
            same "$file" one.file || wrong "$what with $workers workers left another file" start.iso start.ecc "$file" one.file
            same out.txt one.txt || wrong "$what with $workers workers told something else" start.iso start.ecc one.txt
        fi
        runs=$((runs + 1))
    done
}

# Damages start.iso: runs of random length anywhere, and sometimes its end.
damage() {
    local runs
    for runs in 1 2 3; do
        random_bytes "$(between 1 $((bytes / 16 + 1)))" |
            dd of=start.iso bs=64K oflag=seek_bytes seek="$(between 0 $((bytes - 1)))" conv=notrunc status=none
    done
    case $((RANDOM % 4)) in
        0) truncate -s "$(between 0 "$bytes")" start.iso ;;
        1) truncate -s $((bytes - bytes / 32)) start.iso ;;
        2) random_bytes "$(between 1 5000)" >>start.iso ;;
    esac
}

runs=0
lossless=0
for round in $(seq "$rounds"); do
    quiet
    alone=
    case $((round % 4)) in
        1) busy ;;
        2) alone=$first ;;
        3) busy; alone=$first ;;
    esac
    most=2048
    [ $((round % 10)) != 0 ] || most=40960
    bytes=$(($(between 0 $most) * 1024 + $(between 1 1024)))
    parity=$(between 8 100)
    [ $((round % 3)) != 0 ] || parity=32
    random_bytes "$bytes" >good.iso
    cp good.iso start.iso
    : >start.ecc
    turn="round $round ($bytes bytes, parity $parity)"

    prepare() { rm -f made.ecc; }
    with_workers "$turn, create" made.ecc create good.iso made.ecc --parity "$parity"
    cp one.file start.ecc
    run verify good.iso start.ecc
    [ "$status" = 0 ] || wrong "$turn: verify of what create made ended with status $status" good.iso start.ecc

    damage
    prepare() { cp start.iso made.iso; }
    with_workers "$turn, fix" made.iso fix made.iso start.ecc --cut
    if grep -qx 'lost 0: none' one.txt; then
        lossless=$((lossless + 1))
        same one.file good.iso || wrong "$turn: a repaired image isn't the original" start.iso start.ecc one.file
    fi

    for way in "" --adaptive; do
        with_workers "$turn, read $way" made.iso read made.iso start.ecc --drive good.iso $way
        head -c "$bytes" one.file | same - good.iso || wrong "$turn: an image that was read isn't that of the drive" start.iso start.ecc
        # A drive that has too few sectors, and the damaged image there already.
        if [ "$(stat -c %s start.iso)" -gt 0 ]; then
            with_workers "$turn, read $way of a part" made.iso read made.iso start.ecc --drive start.iso $way
        fi
    done
done
quiet
echo "$rounds rounds, $runs runs, $lossless repairs without a loss, $bad wrong"
finish
