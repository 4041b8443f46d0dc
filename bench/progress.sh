#!/bin/sh
# What it costs to tell at a terminal how far the work has come: runs `create`, `verify` and `fix` at a terminal that
# script(1) makes, with the line that is rewritten, and without it by RS01_QUIET, on a random image in which `fix` finds
# one sector in twenty overwritten by zeros. The runs take turns. Prints the best times, the lowest processor times where
# GNU time is there, and how much more is taken with the line: wanted is less than 1 %.
# Usage: bench/progress.sh [MEBIBYTES [RUNS]]
# The size is 512 and the runs of each kind are 7, unless others are given.
. "$(dirname "$0")/common.sh"
mebibytes=${1:-512}
runs=${2:-7}
original=$folder/original
image=$folder/image
ecc=$folder/ecc

if ! command -v script > /dev/null 2>&1; then
    echo "script isn't there"
    exit 0
fi
spent=
if /usr/bin/time -f %U true > /dev/null 2>&1; then
    spent="/usr/bin/time -f '%U %S' -a -o '$folder/spent'"
fi

# Runs a command at a terminal, after `prepare`. A line of the file TIMES gets the time in nanoseconds.
at_terminal() { # TIMES SETTING COMMAND
    prepare || return 1
    begin=$(now)
    script -qec "$2 $spent '$program' $3 '$image' '$ecc'" /dev/null > /dev/null < /dev/null || return 1
    end=$(now)
    echo $((end - begin)) >> "$folder/$1"
    if [ -n "$spent" ]; then
        tail -n 1 "$folder/spent" >> "$folder/$1.spent"
    fi
}

# The lowest sum of a line.
lowest() {
    awk '{ s = $1 + $2 } NR == 1 || s < low { low = s } END { print low + 0 }' "$1" 2> /dev/null
}

# Prints the line of a command.
line() {
    rm -f "$folder/told" "$folder/told.spent" "$folder/quiet" "$folder/quiet.spent"
    for _ in $(seq "$runs"); do
        at_terminal told '' "$1" && at_terminal quiet RS01_QUIET=1 "$1" || { echo "$1 failed"; exit 1; }
    done
    awk -v n="$1" -v t="$(lowest "$folder/told")" -v q="$(lowest "$folder/quiet")" \
        -v ts="$(lowest "$folder/told.spent")" -v qs="$(lowest "$folder/quiet.spent")" 'BEGIN {
        printf "%8s %9.3f s %9.3f s %7.2f %%", n, t / 1e9, q / 1e9, 100 * (t / q - 1)
        if (qs > 0) printf " %9.2f s %9.2f s %7.2f %%", ts, qs, 100 * (ts / qs - 1)
        print ""
    }'
}

echo "$mebibytes MiB, $(uname -m), $(nproc 2> /dev/null || echo '?') processors, the best of $runs runs"
printf '%8s %11s %11s %9s %11s %11s %9s\n' command told quiet more processor quiet more
head -c $((mebibytes * 1048576)) /dev/urandom > "$original" || exit 1
ln "$original" "$image" || exit 1
line create
line verify
prepare() {
    rm -f "$image"
    cp "$original" "$image" || return 1
    dd if=/dev/zero of="$image" bs=2048 seek=$((mebibytes * 256)) count=$((mebibytes * 512 / 20)) conv=notrunc 2> /dev/null
}
line fix
