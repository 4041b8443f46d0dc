#!/usr/bin/env bash
# Reads a file as a drive of which some sectors can't be read, as on a scratched disc, and repairs what was read.
#
#   tests/scratch.sh [MEBIBYTES [SEED]]
#
# An image of so many MiB (100) is protected by 32 parity bytes. Then its sectors fail in one run, in a ring (each 40th
# over a good part of the disc) and scattered at random, few enough that they can be restored. Each time the drive is read
# anew by `read`, by `read --adaptive` and by both with the error correction file, with 1 and with 4 workers where they
# share work. Without the file the sectors that are told as lost are to be exactly those that fail, or with --adaptive too,
# and `fix` is to restore the original. With it `read --adaptive` alone is to leave the original and to ask for fewer
# sectors than there are. After each, `verify` is to find nothing wrong.
# About a minute. It wants a C compiler, since the failures are made by a library that is preloaded (failing_drive.c). Ends
# with 0 where all came out so, with 1 where something didn't, and with 2 where program or compiler isn't there.
set -u
. "$(dirname "$0")/common.sh"
bytes=$((${1:-100} * 1048576))
RANDOM=${2:-1}
sectors=$((bytes / 2048))

if ! "${CC:-cc}" -O2 -shared -fPIC -o failing.so "$top/tests/failing_drive.c" -ldl; then
    echo "no C compiler: set CC" >&2
    exit 2
fi

# Runs the program on a drive of which the sectors in failing.txt can't be read.
scratched() {
    LD_PRELOAD=$work/failing.so FAILING_FILE=$work/drive.iso FAILING_SECTORS=$work/failing.txt \
        "$program" "$@" >out.txt 2>err.txt
    status=$?
}

# What the failing sectors are, as the report of `read` lists them: runs of neighbours with a dash.
listed() {
    awk 'function put() { text = text (text == "" ? "" : ",") (first == last ? first : first "-" last) }
        NR == 1 { first = last = $1; next }
        $1 == last + 1 { last = $1; next }
        { put(); first = last = $1 }
        END { put(); print "lost " NR ": " text }' failing.txt
}

# What an image that was read is to be after `fix`, and what `verify` then tells.
repaired() { # WHAT
    local what=$1
    run fix read.iso drive.ecc
    [ "$status" = 0 ] || wrong "$what: fix ended with status $status" read.iso
    same read.iso drive.iso || wrong "$what: the repaired image isn't the original" read.iso
    run verify read.iso drive.ecc
    [ "$status" = 0 ] || wrong "$what: verify ended with status $status" read.iso
}

random_bytes "$bytes" >drive.iso
"$program" create drive.iso drive.ecc >out.txt || { echo "create failed" >&2; exit 1; }

runs=0
for damage in run ring scattered; do
    case $damage in
        run) seq $((sectors / 3)) $((sectors / 3 + sectors / 20)) ;;
        ring) seq $((sectors / 4)) 40 $((sectors * 3 / 4)) ;;
        scattered) for _ in $(seq $((sectors / 100))); do between 0 $((sectors - 1)); done | sort -nu ;;
    esac >failing.txt
    for words in "" --adaptive "--adaptive --workers 4"; do
        what="$damage, read $words"
        rm -f read.iso
        # shellcheck disable=SC2086
        scratched read read.iso --drive drive.iso $words
        [ "$status" = 1 ] || wrong "$what: status $status" failing.txt
        listed | grep -qxFf - out.txt || wrong "$what: the lost sectors aren't those that fail" failing.txt out.txt
        repaired "$what"
        runs=$((runs + 1))
    done
    for words in "" --adaptive "--adaptive --workers 4"; do
        what="$damage, read by the file $words"
        rm -f read.iso
        # shellcheck disable=SC2086
        scratched read read.iso drive.ecc --drive drive.iso $words
        if [ -n "$words" ]; then
            [ "$status" = 0 ] || wrong "$what: status $status" failing.txt
            same read.iso drive.iso || wrong "$what: the image isn't the original" failing.txt read.iso
            asked=$(sed -n 's/^asked \([0-9]*\).*/\1/p' out.txt)
            [ -n "$asked" ] && [ "$asked" -lt "$sectors" ] || wrong "$what: asked for $asked of $sectors" failing.txt
        else
            [ "$status" = 1 ] || wrong "$what: status $status" failing.txt
        fi
        repaired "$what"
        runs=$((runs + 1))
    done
done
echo "$runs readings, $bad wrong"
finish
