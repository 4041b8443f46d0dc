# What the benches share: the program that they time, a folder of their own, and the clock. Read by `.`, not run.
# The program is crates/dvdisaster_rs01/out/dvdisaster_rs01, or the one that PROGRAM names.
top=$(cd "$(dirname "$0")/.." && pwd) || exit 1
program=${PROGRAM:-$top/crates/dvdisaster_rs01/out/dvdisaster_rs01}

if [ ! -x "$program" ]; then
    echo "The program isn't built: run 'rt run' in crates/dvdisaster_rs01 first."
    exit 0
fi

folder=$(mktemp -d) || exit 1
trap 'rm -rf "$folder"' EXIT
trap 'exit 1' INT TERM

# The time in nanoseconds.
now() {
    date +%s%N
}

# The most memory that a command held, in MiB, where GNU time is there.
held_by() {
    if [ -x /usr/bin/time ] && /usr/bin/time -v true > /dev/null 2>&1; then
        /usr/bin/time -v "$@" 2>&1 > /dev/null | awk -F': ' '/Maximum resident/ { printf "%.1f", $2 / 1024 }'
    else
        printf 'unknown'
    fi
}

# What stands before each timed run: nothing, or what a bench defines in its place.
prepare() {
    :
}

# Runs a command three times with its output thrown away, and leaves the best time in `took`, in nanoseconds. The first
# word is the status that each run is to end with, or `any`.
clock() {
    wanted=$1
    shift
    took=
    for _ in 1 2 3; do
        prepare || return 1
        begin=$(now)
        "$@" > /dev/null
        status=$?
        end=$(now)
        [ "$wanted" = any ] || [ "$status" -eq "$wanted" ] || return 1
        if [ -z "$took" ] || [ $((end - begin)) -lt "$took" ]; then
            took=$((end - begin))
        fi
    done
}
