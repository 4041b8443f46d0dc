#!/bin/sh
# What reading by turns costs beside reading in rising order: 2,298,496 sectors, of which the drive reads 1,000 scattered
# ones never. Drive and image file are in memory, and the image file is a buffer that is written over and over. Told are
# the processor's time for both readings, and for the planning of the turns alone, without a drive: without an error
# correction file, and with one of 32 parity bytes, where sectors are spared. Then the memory that a reading by turns
# holds for each sector, by the system's own figure: of so many sectors, less that of one. A flag for each sector that
# the drive in memory has is among them.
# Usage: bench/planning.sh [FOLDER]
# The program that does it is bench/planning/main.rt.txt. It is no crate of the repository, so a copy of the crates is
# made in a folder of its own, and the program is proved, built and run there. The first run takes long, since the
# crates below are proved first; what the toolchain finds proved on this machine it takes over. The copy is deleted at
# the end, or kept as FOLDER/planning_bench where a folder is named, so that the next run with it takes seconds.
# PROGRAM names a program that was built of it already.
. "$(dirname "$0")/proved.sh"
sectors=2298496

take_folder planning_bench "$1"

# Proves and builds the program, and names it.
build() {
    add_program planning_bench "$top/bench/planning/main.rt.txt" \
        "rs01_adaptive rs01_layers rs01_linear rs01_outside rs01_rack rs01_reader"
    if ! rt run -- held 1 > "$folder/log" 2>&1; then
        tail -n 20 "$folder/log"
        echo "the program failed"
        exit 1
    fi
    PROGRAM=$folder/crates/planning_bench/out/planning_bench
}

# The most memory that a reading of so many sectors held, in KiB, where GNU time is there.
held_by() {
    if [ -x /usr/bin/time ] && /usr/bin/time -v true > /dev/null 2>&1; then
        /usr/bin/time -v "$PROGRAM" held "$1" 2>&1 > /dev/null | awk -F': ' '/Maximum resident/ { print $2 }'
    else
        echo unknown
    fi
}

[ -n "$PROGRAM" ] || build
"$PROGRAM" > "$folder/times" || exit 1
awk 'BEGIN {
    name["linear"] = "reading in rising order"
    name["adaptive"] = "reading by turns"
    name["plan"] = "planning, no file"
    name["plan_32"] = "planning, 32 parity bytes"
    wanted["adaptive"] = "3.00"
    printf "%-27s %9s %9s %7s %7s\n", "", "asked", "ns/sector", "ratio", "wanted"
} {
    if ($1 == "linear") whole = $3
    printf "%-27s %9d %9.1f %7.2f %7s\n", name[$1], $4, $3 / $2, $3 / whole, wanted[$1]
}' "$folder/times"
all=$(held_by "$sectors")
one=$(held_by 1)
if [ "$all" = unknown ]; then
    echo "memory: unknown, since GNU time isn't there"
else
    awk -v a="$all" -v o="$one" -v n="$sectors" 'BEGIN {
        printf "memory: %.1f bytes a sector, wanted at most 40\n", 1024 * (a - o) / n
    }'
fi
