#!/usr/bin/env bash
# Kills the program at random moments and runs the same command again.
#
#   tests/kill.sh [ROUNDS [MEBIBYTES]]
#
# `create`, `fix`, `read` and `read --adaptive` are each killed by SIGKILL in ROUNDS rounds (200), on an image of MEBIBYTES
# (32, which makes two windows of layers), with 1 to 4 workers. What is wanted:
# - After a killed `create` the file is the one that stood there before, or the finished one, or it is refused by
#   `verify` and by `fix` with status 3 and a line of the name, the header or the length, and `fix` leaves the image.
#   `create` again makes the file that an undisturbed run makes, with its report.
# - After a killed `fix` a second one leaves the image that an undisturbed run leaves, and loses the same sectors.
#   A lost sector that was absent may hold zeros in place of its marker, since the killed run may have written behind it.
# - After a killed `read` a second one leaves the image that an undisturbed run leaves, with the same sectors lost.
# - No other file changes.
# About 15 minutes with the numbers above. Wants GNU or BusyBox `sleep`, which knows parts of a second. Ends with 0 where
# all came out so, with 1 where something didn't (each such case is told, and its files kept), and with 2 where the
# program isn't built. The program is that of crates/dvdisaster_rs01/out, or the one that PROGRAM names.
set -u
. "$(dirname "$0")/common.sh"
rounds=${1:-200}
mebibytes=${2:-32}
parity=32
bytes=$((mebibytes * 1048576 + 1234))
sectors=$(((bytes + 2047) / 2048))
layers=$(((sectors + 254 - parity) / (255 - parity)))

random_bytes "$bytes" >good.iso
random_bytes $((bytes / 3)) >other.iso
run create good.iso good.ecc --parity $parity
[ "$status" = 0 ] || { echo "create failed"; exit 2; }
sed '1s/.*/created made.ecc/' out.txt >create.txt
run create other.iso other.ecc --parity $parity
[ "$status" = 0 ] || { echo "create failed"; exit 2; }
cp good.iso good.copy
cp good.ecc good.ecc.copy

# The time that a command takes undisturbed, in microseconds, after `prepare`: the longest of three.
measure() {
    local begin this
    longest=0
    for _ in 1 2 3; do
        prepare
        begin=$(now)
        "$program" "$@" >out.txt 2>err.txt
        this=$(($(now) - begin))
        [ "$this" -le "$longest" ] || longest=$this
    done
}

# Runs the program and kills it at a random moment of the time that it takes. `killed` says whether it was still there.
kill_at_random() {
    local wait pid
    wait=$(between 0 "$longest")
    "$program" "$@" >out.txt 2>err.txt &
    pid=$!
    sleep "$(printf '%d.%06d' $((wait / 1000000)) $((wait % 1000000)))"
    kill -KILL $pid 2>/dev/null
    { wait $pid; } 2>/dev/null
    [ $? = 137 ] && killed=1 || killed=0
    within=$((within + killed))
}

# That the files which no command may change are as they were.
check_others() { # WHAT
    same good.iso good.copy || { wrong "$1: the original image changed" good.iso; cp good.copy good.iso; }
    same good.ecc good.ecc.copy || { wrong "$1: the error correction file changed" good.ecc; cp good.ecc.copy good.ecc; }
}

row() { printf '%-28s %s rounds, %s killed while at work, %s wrong\n' "$1" "$rounds" "$within" "$((bad - before))"; }
begin_rows() { within=0 before=$bad; }

# The line of a file that isn't whole, as `verify` and `fix` tell it.
unwhole='^rs01: (no error correction file|header: (cookie|method|version|sectors|parity|last bytes)|the file has [0-9]+ bytes, [0-9]+ are expected)$'

# A command that is to refuse made.ecc for being unwhole.
refuses() { # WHAT WORDS..
    local what=$1
    shift
    run "$@"
    if [ "$status" != 3 ] || [ "$(wc -l <out.txt)" != 1 ] || ! grep -qE "$unwhole" out.txt; then
        wrong "$what: $1 of an unfinished file ended with status $status" made.ecc
    fi
}

begin_rows
prepare() { rm -f made.ecc; }
measure create good.iso made.ecc --parity $parity
for round in $(seq "$rounds"); do
    rm -f made.ecc
    [ $((round % 2)) = 0 ] || cp other.ecc made.ecc
    workers=$(between 1 4)
    kill_at_random create good.iso made.ecc --parity $parity --workers "$workers"
    what="round $round of create"
    if [ -e made.ecc ] && same made.ecc good.ecc; then
        run verify good.iso made.ecc
        [ "$status" = 0 ] || wrong "$what: a whole file is refused" made.ecc
    elif ! { [ -e made.ecc ] && same made.ecc other.ecc; }; then
        refuses "$what" verify good.iso made.ecc
        head -c 300000 good.iso >small.iso
        cp small.iso small.copy
        refuses "$what" fix small.iso made.ecc
        same small.iso small.copy || wrong "$what: a refused fix changed the image" small.iso
    fi
    run create good.iso made.ecc --parity $parity --workers "$workers"
    [ "$status" = 0 ] || wrong "$what: the second create ended with status $status" made.ecc
    same made.ecc good.ecc || wrong "$what: the second create made another file" made.ecc
    same out.txt create.txt || wrong "$what: the second create told something else"
    check_others "$what"
done
row create

# Damages a copy of the image: its end is gone, a run of sectors is overwritten, and single bytes elsewhere. Where the
# damage is to be repaired whole, that is a tenth of all sectors. Else half of the layers have more than can be restored.
damage() { # whole-or-lost
    local gone=$((sectors / 20)) run=$((sectors / 20))
    [ "$1" = whole ] || run=$((parity * layers + layers / 2 - gone))
    cp good.iso bad.iso
    random_bytes $((run * 2048)) |
        dd of=bad.iso bs=64K oflag=seek_bytes seek=$(($(between 0 $((sectors - gone - run))) * 2048)) conv=notrunc status=none
    for _ in 1 2 3 4; do
        random_bytes 700 | dd of=bad.iso bs=1K oflag=seek_bytes seek="$(between 0 $((bytes - 1000)))" conv=notrunc status=none
    done
    truncate -s $((bytes - gone * 2048)) bad.iso
}

# The sectors of a line `NAME C: LIST`, one a line.
listed() { # NAME FILE
    sed -n "s/^$1 [0-9]*: //p" "$2" | tr ',' '\n' | awk -F- '/^[0-9]/ { for (s = $1; s <= $NF; s++) print s }'
}

# Whether two images differ in no sector but those of a list.
same_but() { # LIST ONE OTHER
    same "$2" "$3" && return 0
    [ "$(stat -c %s "$2")" = "$(stat -c %s "$3")" ] || return 1
    cmp -l "$2" "$3" | awk 'NR == FNR { lost[$1] = 1; next } { s = int(($1 - 1) / 2048); if (!(s in lost)) bad = 1 }
        END { exit bad }' "$1" -
}

begin_rows
for kind in whole lost; do
    damage $kind
    prepare() { cp bad.iso made.iso; }
    measure fix made.iso good.ecc
    for round in $(seq $(((rounds + 1) / 2))); do
        if [ $((round % 10)) = 1 ]; then
            damage $kind
            cp bad.iso wanted.iso
            run fix wanted.iso good.ecc
            wanted=$status
            grep '^lost' out.txt >wanted.txt
            listed lost out.txt >lost.txt
            if [ $kind = whole ] && ! same wanted.iso good.iso; then wrong "fix of a damaged image" bad.iso; fi
        fi
        cp bad.iso made.iso
        workers=$(between 1 4)
        kill_at_random fix made.iso good.ecc --workers "$workers"
        what="round $round of fix ($kind)"
        cp made.iso between.iso
        run fix made.iso good.ecc --workers "$workers"
        [ "$status" = "$wanted" ] || wrong "$what: the second fix ended with status $status" bad.iso between.iso
        grep -qx 'strange layers 0' out.txt || wrong "$what: a layer is strange" bad.iso between.iso
        grep '^lost' out.txt | same - wanted.txt || wrong "$what: other sectors are lost" bad.iso between.iso
        same_but lost.txt made.iso wanted.iso || wrong "$what: the second fix left another image" bad.iso between.iso
        check_others "$what"
    done
done
row fix

# Reads, from a drive that has all sectors or too few, with and without the error correction file, into a name that
# isn't there or onto a damaged image.
head -c $((bytes - bytes / 8)) good.iso >short.iso
read_and_kill() { # WAY
    local way=$1
    begin_rows
    for round in $(seq "$rounds"); do
        words="--jump $(between 1 3)"
        [ "$way" = linear ] || words="--adaptive --workers $(between 1 4)"
        drive=good.iso
        [ $((round % 3)) != 0 ] || drive=short.iso
        ecc=good.ecc
        [ $((round % 4)) != 0 ] || ecc=
        start() {
            rm -f made.iso
            [ -z "$ecc" ] || [ $((round % 5)) != 0 ] || cp bad.iso made.iso
        }
        start
        begin=$(now)
        # shellcheck disable=SC2086
        run read made.iso $ecc --drive $drive $words
        longest=$(($(now) - begin))
        wanted=$status
        mv made.iso wanted.iso
        grep '^lost' out.txt >wanted.txt
        start
        # shellcheck disable=SC2086
        kill_at_random read made.iso $ecc --drive $drive $words
        what="round $round of read ($ecc $drive $words)"
        cp made.iso between.iso 2>/dev/null || : >between.iso
        # shellcheck disable=SC2086
        run read made.iso $ecc --drive $drive $words
        [ "$status" = "$wanted" ] || wrong "$what: the second read ended with status $status" between.iso
        grep '^lost' out.txt | same - wanted.txt || wrong "$what: other sectors are lost" between.iso
        same made.iso wanted.iso || wrong "$what: the second read left another image" between.iso
        if [ $drive = good.iso ] && ! head -c "$bytes" made.iso | same - good.iso; then
            wrong "$what: the image isn't that of the drive" between.iso
        fi
        check_others "$what"
    done
}
read_and_kill linear
row read
read_and_kill adaptive
row "read --adaptive"
finish
