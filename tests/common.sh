# What the trials share: the program, a folder of their own, and the rows that they print. Read by `.`, not run.
# The program is crates/dvdisaster_rs01/out/dvdisaster_rs01, or the one that PROGRAM names.
top=$(cd "$(dirname "$0")/.." && pwd) || exit 2
program=$(readlink -f "${PROGRAM:-$top/crates/dvdisaster_rs01/out/dvdisaster_rs01}")

if [ ! -x "$program" ]; then
    echo "The program isn't built: run 'rt run' in crates/dvdisaster_rs01 first, or name one by PROGRAM." >&2
    exit 2
fi

work=$(mktemp -d) || exit 2
trap 'rm -rf "$work"' EXIT
trap 'exit 2' INT TERM
cd "$work" || exit 2
bad=0

# A trial that came out otherwise than it should is told. The files of the first ten are kept in a folder beside that of
# this run, and with them what the program put last.
wrong() { # WHAT FILE..
    bad=$((bad + 1))
    local kept=$work.kept/$bad what=$1
    shift
    if [ "$bad" -le 10 ]; then
        mkdir -p "$kept"
        cp -- "$@" out.txt "$kept" 2>/dev/null
        what="$what (kept in $kept)"
    fi
    echo "WRONG $what"
}

same() { cmp -s -- "$1" "$2"; }

# Runs the program with its output in out.txt and what else it tells in err.txt, and leaves its status in `status`.
run() {
    "$program" "$@" >out.txt 2>err.txt
    status=$?
}

# A random number from the first one to the second.
between() {
    echo $(($1 + (RANDOM * 32768 + RANDOM) % ($2 - $1 + 1)))
}

# Writes so many bytes from the system's random numbers.
random_bytes() { head -c "$1" /dev/urandom; }

# The time in microseconds.
now() { echo $(($(date +%s%N) / 1000)); }

# Ends with 0 where nothing came out otherwise.
finish() {
    if [ "$bad" -gt 0 ]; then
        echo "$bad trials came out otherwise than they should"
        exit 1
    fi
    exit 0
}
