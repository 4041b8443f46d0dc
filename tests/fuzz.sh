#!/usr/bin/env bash
# Changes error correction files and command lines at random, and looks at what the program makes of them.
#
#   tests/fuzz.sh [COUNT [SEED [CASE]]]
#
# COUNT (20,000) error correction files with random changes of header, body and length are given to `verify`, `fix`,
# `scan` and `read`, in rising order and by turns, and a quarter as many random command lines to the program. No run may
# crash, hang, end with a status that there isn't or hold 64 MiB of memory, and none may succeed wrongly: the head of
# tests/wanted.py says what is wanted of each run. All follows from SEED (1): the same numbers give the same cases, and CASE repeats a single one. A
# case that comes out otherwise is named, and its files are kept.
# About 5 minutes on a quiet machine. Wants Python 3.9 or later. Ends with 0 where all came out so, with 1 where
# something didn't, and with 2 where the program isn't built or Python isn't there. The program is that of
# crates/dvdisaster_rs01/out, or the one that PROGRAM names.
set -u
here=$(cd "$(dirname "$0")" && pwd) || exit 2
. "$here/common.sh"
command -v python3 >/dev/null || { echo "python3 isn't there" >&2; exit 2; }
python3 -B "$here/fuzz.py" "$program" "$work" "${1:-20000}" "${2:-1}" ${3:+"$3"}
