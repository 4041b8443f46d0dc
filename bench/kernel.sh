#!/bin/sh
# Times the work on one layer that is held in memory, for 32, 64 and 100 parity bytes: encoding it, correcting it where
# nothing is erased, and where 12 of its sectors are; and the checksums of its blocks. Beside each stands MD5 of the
# same bytes in the same run, by the library that `create` uses. A layer is gone through 200 times, and this three
# times, of which the best counts. The times are those that the processor spent, so waiting for it doesn't count. Where
# a core is shared with other work, encoding and correcting still lose more speed than MD5: then look at several runs.
# Usage: bench/kernel.sh [FOLDER]
# The program that does it is bench/kernel/main.rt.txt. It is no crate of the repository, so a copy of the crates is
# made in a folder of its own, and the program is proved, built and run there. The first run takes some minutes, since
# the crates below are proved first; what the toolchain finds proved on this machine it takes over. The copy is deleted
# at the end, or kept as FOLDER/kernel_bench where a folder is named, so that the next run with it takes seconds.
. "$(dirname "$0")/proved.sh"

take_folder kernel_bench "$1"
add_program kernel_bench "$top/bench/kernel/main.rt.txt" "rs01_encode rs01_erase rs01_layers rs01_sums md5"
if ! rt run > "$folder/times" 2> "$folder/log"; then
    tail -n 20 "$folder/log"
    echo "the program failed"
    exit 1
fi

echo "one layer, $(uname -m), processor time, the best of three runs; ratio: how many times as fast as MD5"
printf '%6s %-18s %9s %9s %7s %7s\n' parity work MB/s 'MD5 MB/s' ratio wanted
awk 'BEGIN {
    wanted[32] = "2.50"
    wanted[64] = "1.10"
    wanted[100] = "0.50"
} {
    parity = $1 == 0 ? "" : $1
    aim = $2 == "encode" ? wanted[$1] : ""
    gsub("_", " ", $2)
    printf "%6s %-18s %9.1f %9.1f %7.2f %7s\n", parity, $2, $3 / ($4 / 1e3), $3 / ($5 / 1e3), $5 / $4, aim
}' "$folder/times"
