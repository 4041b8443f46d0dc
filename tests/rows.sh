# What the trials of a program at the system's edge and at a terminal share: the program that the first word names, a
# folder of their own, the rows that they print, and a small image with its error correction file. Read by `.`, not run.
set -u
program=$(readlink -f "$1")
work=$(mktemp -d)
trap 'rm -rf "$work"' EXIT
cd "$work" || exit 1
bad=0

# A trial, with what is wanted and what was seen.
row() { # NAME WANT GOT
    local mark=ok
    if [ "$2" != "$3" ]; then mark=WRONG; bad=$((bad + 1)); fi
    printf '%-5s %-62s %s\n' "$mark" "$1" "$3"
}

# good.iso, an image of 700 sectors (4 layers), and good.ecc.
head -c $((700 * 2048)) /dev/urandom >good.iso
"$program" create good.iso good.ecc >/dev/null 2>&1 || { echo "create failed"; exit 1; }

# Makes a copy of it in which so many sectors from 100 on are others.
damage() { # COPY SECTORS
    cp good.iso "$1"
    dd if=/dev/urandom of="$1" bs=2048 seek=100 count="$2" conv=notrunc status=none
}
