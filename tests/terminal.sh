#!/usr/bin/env bash
# What a person sees: terminal.sh PROGRAM
# Runs the program at a terminal that script(1) makes, and with each kind of standard error. Prints a row for each trial,
# and ends with 0 only where each came out as it should.
. "$(dirname "$0")/rows.sh"

at_terminal() { script -qec "$(printf '%q ' "$@")" seen.txt >/dev/null 2>&1; }
seen() { grep -qa -- "$1" seen.txt && echo yes || echo no; }

# a copy of the image with 60 lost sectors, and one with more than can be restored
damage bad.iso 60
damage lost.iso 300
head -c 70000 good.ecc >cut.ecc
cp good.iso locked.iso; chmod 0 locked.iso

# the same lines and the same status, whatever the standard error is
lines() {
    cp bad.iso b.iso; cp lost.iso l.iso; rm -f r.iso n.ecc
    "$program"; echo "status $?"
    while read -r words; do
        # shellcheck disable=SC2086
        "$program" $words; echo "status $?"
    done <<'END'
--help
help fix
create --help
--version
burn
create good.iso
create good.iso n.ecc
create n.ecc --parity=64
verify good.iso good.ecc
verify b.iso good.ecc
verify l.iso good.ecc
verify good.iso cut.ecc
verify good.iso absent.ecc
verify good.iso .
fix b.iso good.ecc
fix l.iso good.ecc
scan good.ecc --drive bad.iso
read r.iso good.ecc --drive bad.iso
read q.iso --drive absent
demo 1 300 32 40
END
}

echo "== the standard output and the status"
lines >want.txt 2>err.txt
row "the usual standard error takes something" yes "$([ -s err.txt ] && echo yes || echo no)"
lines >got.txt 2>/dev/null; row "to /dev/null: the same" same "$(cmp -s want.txt got.txt && echo same || echo differs)"
lines >got.txt 2>&-; row "closed: the same" same "$(cmp -s want.txt got.txt && echo same || echo differs)"
lines >got.txt 2>/dev/full; row "full: the same" same "$(cmp -s want.txt got.txt && echo same || echo differs)"
lines >got.txt 2> >(exec true); row "a pipe that nobody reads: the same" same "$(cmp -s want.txt got.txt && echo same || echo differs)"

echo "== closed streams: what is told goes into no file"
works() { # the program's files after demo, create, a repair and a fault, whose standard streams are those of the call
    rm -f demo.iso demo.ecc c.ecc; cp bad.iso b.iso
    "$program" demo 1 300 32 66; "$program" create good.iso c.ecc; "$program" fix b.iso good.ecc
    "$program" fix absent.iso good.ecc; "$program" verify b.iso .; "$program" read b.iso --drive absent
    "$program" create --help; "$program" create c.ecc --parity
}
sums() { sha256sum demo.iso demo.ecc c.ecc b.iso good.iso good.ecc | sha256sum; }
works >/dev/null 2>&1; want=$(sums)
works </dev/null >/dev/null 2>&-; row "no standard error" same "$([ "$want" = "$(sums)" ] && echo same || echo differs)"
works </dev/null 2>/dev/null >&-; row "no standard output" same "$([ "$want" = "$(sums)" ] && echo same || echo differs)"
works <&- >&- 2>&-; row "none of the three" same "$([ "$want" = "$(sums)" ] && echo same || echo differs)"

echo "== where no terminal is"
"$program" verify good.iso good.ecc >out.txt 2>err.txt
row "all is well: nothing on the standard error" 0 "$(stat -c %s err.txt)"
"$program" verify bad.iso good.ecc >out.txt 2>err.txt
row "something is missing: nothing either" 0 "$(stat -c %s err.txt)"
"$program" verify good.iso . >out.txt 2>err.txt
row "a fault: the name" 1 "$(grep -c '^dvdisaster_rs01: \.: ' err.txt)"
"$program" scan --drive absent >out.txt 2>err.txt
row "a drive that isn't there: the system's reason" 1 "$(grep -c '^dvdisaster_rs01: absent: No such file' err.txt)"
"$program" create good.iso n.ecc --parity=64 >out.txt 2>err.txt
row "a fault in the words: the word" "word 3 is --parity=64" "$(head -1 err.txt)"
row "  and the usage" "usage: dvdisaster_rs01 create IMAGE ECC [--parity N] [--workers W]" "$(sed -n 2p err.txt)"
"$program" --help >out.txt 2>err.txt
row "--help: the first line" "dvdisaster_rs01: error correction files for the images of optical discs." "$(head -1 err.txt)"
row "  with no line longer than a page is wide" 0 "$(awk 'length > 110' err.txt | wc -l)"

echo "== at a terminal"
at_terminal "$program" verify good.iso good.ecc; row "all is well: no hint" no "$(seen 'hint:')"
at_terminal "$program" verify bad.iso good.ecc; row "it can be restored" yes "$(seen 'fix can restore every sector')"
row "  and what is lost is drawn" yes "$(seen '^image: \[\.*[#x]*\.*\]')"
row "  and each sign explained" yes "$(seen '# missing or unreadable   x altered   + restored   ? not asked')"
at_terminal "$program" verify lost.iso good.ecc; row "it can't" yes "$(seen 'read more of the disc first')"
row "  and isn't said to be" no "$(seen 'fix can restore every sector')"
at_terminal "$program" verify good.iso cut.ecc; row "a cut file: another copy" yes "$(seen 'use another copy')"

echo "== progress"
head -c 300000000 /dev/urandom >long.iso
at_terminal "$program" create long.iso long.ecc; row "create tells how far it is" yes "$(seen ' MB a second, ')"
row "  and takes the line away before the report" yes "$(tr -d '\r' <seen.txt | grep -qa $'\033\\[Kcreated long.ecc$' && echo yes || echo no)"
RS01_QUIET=1 at_terminal "$program" verify long.iso long.ecc; row "RS01_QUIET: no progress" no "$(seen ' MB a second, ')"
"$program" verify long.iso long.ecc >out.txt 2>err.txt; row "no terminal: no progress" 0 "$(stat -c %s err.txt)"

echo
if [ $bad -gt 0 ]; then echo "$bad WRONG"; exit 1; fi
echo "all as it should be"
