#!/usr/bin/env bash
# Hostile trials at the system's edge: edge.sh PROGRAM
# Prints a row for each trial, and ends with 0 only where each that was made came out as it should. What this machine
# doesn't allow (loop devices, mounts, strace, another user) is skipped with a row that says so.
. "$(dirname "$0")/rows.sh"
trap 'detach_all; rm -rf "$work"' EXIT
loops=""

skipped() { printf '%-5s %-62s %s\n' skip "$1" "$2"; }
status() { "$@" >out.txt 2>err.txt; echo $?; }
same() { cmp -s "$1" "$2" && echo same || echo changed; }
detach_all() { for l in $loops; do losetup -d "$l" 2>/dev/null; done; }
have_strace() { command -v strace >/dev/null && strace -qq -o /dev/null true 2>/dev/null; }

# a damaged copy of the image
damage bad.iso 60
damaged() { cp bad.iso d.iso; cp good.ecc d.ecc; }

echo "== devices"
for f in /dev/null /dev/zero; do
    row "fix $f: fault" 4 "$(status "$program" fix $f good.ecc)"
    row "create $f: fault" 4 "$(status "$program" create $f x.ecc)"
    row "create onto $f: fault" 4 "$(status "$program" create good.iso $f)"
    row "verify with $f as the file: fault" 4 "$(status "$program" verify good.iso $f)"
done
mkfifo pipe; mkdir folder
for f in pipe folder; do
    row "fix $f: fault" 4 "$(status timeout 10 "$program" fix $f good.ecc)"
    row "create onto $f: fault" 4 "$(status timeout 10 "$program" create good.iso $f)"
done
loop_for() { losetup -f --show "$1" 2>/dev/null; }
if [ -b /dev/loop0 ] && cp good.iso back.iso && head -c $((800 * 2048)) /dev/urandom >>back.iso && l=$(loop_for back.iso); then
    loops="$loops $l"
    row "fix --cut of a longer block device: fault" 4 "$(status "$program" fix "$l" good.ecc --cut)"
    row "  and doesn't say cut" 0 "$(grep -c 'cut' out.txt)"
    row "fix of a block device without --cut" 0 "$(status "$program" fix "$l" good.ecc)"
    row "create onto a block device: fault" 4 "$(status "$program" create good.iso "$l")"
    row "  and nothing on it has changed" same "$(cmp -s -n $((700 * 2048)) back.iso good.iso && echo same || echo changed)"
    head -c $((900 * 2048)) /dev/urandom >own.iso; cp own.iso own.copy; m=$(loop_for own.iso); loops="$loops $m"
    row "create onto the device that the image lies behind: fault" 4 "$(status "$program" create own.iso "$m")"
    row "  and the image stays" same "$(same own.iso own.copy)"
    row "create of the device onto the file behind it: fault" 4 "$(status "$program" create "$m" own.iso)"
    row "  and the image stays" same "$(same own.iso own.copy)"
else
    skipped "block devices" "no loop device can be set up"
fi

echo "== swapped words"
cp good.iso s.iso; cp good.ecc s.ecc
row "create s.ecc s.iso: fault" 4 "$(status "$program" create s.ecc s.iso)"
row "  and the image stays" same "$(same s.iso good.iso)"
row "  and the file stays" same "$(same s.ecc good.ecc)"
row "create s.iso s.ecc again" 0 "$(status "$program" create s.iso s.ecc)"
head -c 70000 /dev/zero >s.ecc
row "create onto what an unfinished run left" 0 "$(status "$program" create s.iso s.ecc)"
row "  and the file is whole" same "$(same s.ecc good.ecc)"
for other in ./s.iso folder/../s.iso; do
    row "create s.iso $other: fault" 4 "$(status "$program" create s.iso $other)"
    row "  and the image stays" same "$(same s.iso good.iso)"
done
ln s.iso hard.iso; ln -s s.iso soft.iso
for other in hard.iso soft.iso; do
    row "create s.iso $other: fault" 4 "$(status "$program" create s.iso $other)"
    row "  and the image stays" same "$(same s.iso good.iso)"
done

echo "== limits"
limited() { (ulimit -f "$1"; shift; "$@" >out.txt 2>err.txt; echo $?); }
row "create past ulimit -f: fault" 4 "$(limited 100 "$program" create good.iso l.ecc)"
damaged
row "fix past ulimit -f: fault" 4 "$(limited 100 "$program" fix d.iso d.ecc)"
head -c 300 /dev/urandom >small.iso
"$program" create small.iso small.ecc >/dev/null
head -c 102400 /dev/zero >long.txt
row "output that is appended to a file at the limit: status 6" 6 \
    "$( (ulimit -f 100; "$program" verify small.iso small.ecc >>long.txt; echo $?) )"
row "output from the start of a file that is long already" 0 \
    "$( (ulimit -f 100; "$program" verify small.iso small.ecc 3<>long.txt >&3; echo $?) )"
row "ulimit -n 4: fault" 4 "$( (ulimit -n 4; "$program" verify good.iso good.ecc >out.txt; echo $?) )"
row "output to /dev/full: status 6" 6 "$("$program" verify good.iso good.ecc >/dev/full; echo $?)"
as_nobody() { setpriv --reuid=65534 --regid=65534 --clear-groups "$@"; }
if [ "$(id -u)" = 0 ] && as_nobody true 2>/dev/null; then
    chmod 755 "$work"; mkdir nobody; chown 65534:65534 nobody
    cp good.ecc nobody/w.ecc; cp bad.iso nobody/r.iso; chown 65534:65534 nobody/*; chmod 200 nobody/w.ecc; chmod 400 nobody/r.iso
    row "create onto a file that may be written but not read" 0 "$(status as_nobody "$program" create good.iso nobody/w.ecc)"
    row "  and the file is whole" same "$(same nobody/w.ecc good.ecc)"
    row "fix of an image that may not be written: fault" 4 "$(status as_nobody "$program" fix nobody/r.iso good.ecc)"
    row "  and the image stays" same "$(same nobody/r.iso bad.iso)"
else
    skipped "rights" "another user can't be taken"
fi

echo "== file systems"
mkdir room
if [ "$(id -u)" = 0 ] && mount -t tmpfs -o size=1m tmpfs room 2>/dev/null; then
    head -c 950000 /dev/zero >room/filler
    row "create onto a file system that is full: fault" 4 "$(status "$program" create good.iso room/n.ecc)"
    rm -f room/*; head -c 300 /dev/urandom >room/s.iso; "$program" create room/s.iso room/s.ecc >/dev/null
    dd if=/dev/zero of=room/s.iso bs=1 count=9 conv=notrunc status=none; cp room/s.iso s.copy
    mount -o remount,ro room
    row "create onto a file system that is read-only: fault" 4 "$(status "$program" create good.iso room/n.ecc)"
    row "fix on a file system that is read-only: fault" 4 "$(status "$program" fix room/s.iso room/s.ecc)"
    row "  and the image stays" same "$(same room/s.iso s.copy)"
    row "verify on a file system that is read-only" 1 "$(status "$program" verify room/s.iso room/s.ecc)"
    umount room
else
    skipped "full and read-only file systems" "no file system can be mounted"
fi

echo "== memory"
for k in $(seq 2000 500 14000); do
    damaged
    s=$( (ulimit -v "$k"; "$program" fix d.iso d.ecc >out.txt 2>err.txt; echo $?) )
    case $s in 0 | 7 | 127 | 13[0-9]) ;; *) row "fix under ulimit -v $k: 0 or 7" "0 or 7" "$s" ;; esac
    [ "$s" = 0 ] && [ "$(same d.iso good.iso)" != same ] && row "fix under ulimit -v $k" same changed
    echo "$s"
done | sort | uniq -c | tr '\n' ';' | sed 's/^/      statuses of fix by ulimit -v: /'
echo

if ! have_strace; then
    skipped "files that change under the run, counts and errors of system calls" "strace isn't there"
    [ "$bad" = 0 ]; exit
fi
traced() { strace -qq -f -o trace.txt "$@"; }
calls() { grep -c -v '^[0-9]* *+++\|^[0-9]* *---' trace.txt; }

echo "== system calls"
head -c $((64 << 20)) /dev/urandom >large.iso
"$program" create large.iso large.ecc >/dev/null
traced "$program" verify large.iso large.ecc >out.txt
n=$(calls); row "verify of 64 MiB makes at most 36,000 calls ($n)" yes "$([ "$n" -le 36000 ] && echo yes || echo no)"
row "  and opens each file once" "1 1" "$(grep -c 'open.*large.iso' trace.txt) $(grep -c 'open.*large.ecc' trace.txt)"
damaged; traced "$program" fix d.iso d.ecc >out.txt
n=$(calls); skipped "fix with 60 restored sectors makes $n calls" ""
row "  and opens each file at most twice" yes \
    "$([ "$(grep -c 'open.*d.iso' trace.txt)" -le 2 ] && [ "$(grep -c 'open.*d.ecc' trace.txt)" -le 1 ] && echo yes || echo no)"

echo "== files that change under the run"
# The program's first read, which comes after those that load it.
traced "$program" create good.iso f.ecc >out.txt
first=$(grep pread64 trace.txt | grep -n ', 0) = \|, 0) *= ' | head -1 | cut -d: -f1)
# runs the program, slowed at the nth call of a kind, and another command meanwhile
during() { # CALL NTH COMMAND PROGRAM-WORDS..
    local call=$1 nth=$2 command=$3; shift 3
    strace -qq -f -o trace.txt -e trace="$call" -e inject="$call":delay_enter=1500000:when="$nth" "$program" "$@" >out.txt 2>err.txt &
    local id=$!
    sleep 0.7; eval "$command"
    wait $id; echo $?
}
damaged; row "fix, image moved away at the 5th write: fault" 4 "$(during pwrite64 5 'mv d.iso away.iso' fix d.iso d.ecc)"
row "  and no new file stands in its place" no "$([ -e d.iso ] && echo yes || echo no)"
damaged; cp good.iso other.iso; head -c 100000 /dev/urandom >other.iso; cp other.iso other.copy
row "fix, another file renamed onto the image at the 5th write: fault" 4 "$(during pwrite64 5 'mv other.iso d.iso' fix d.iso d.ecc)"
row "  and that file stays" same "$(same d.iso other.copy)"
damaged; row "fix, image cut to nothing at the 5th write: fault" 4 "$(during pwrite64 5 ': >d.iso' fix d.iso d.ecc)"
damaged; row "fix, image cut to nothing at the last write: fault" 4 "$(during pwrite64 60 ': >d.iso' fix d.iso d.ecc)"
damaged; row "fix, its file removed while it is read: fault" 4 "$(during pread64 12 'rm d.ecc' fix d.iso d.ecc)"
cp good.iso c.iso; rm -f c.ecc; row "create, image cut at its first read: fault" 4 "$(during pread64 "$first" ': >c.iso' create c.iso c.ecc)"
row "  and no file is made" no "$([ -e c.ecc ] && echo yes || echo no)"
cp good.iso c.iso; rm -f c.ecc; row "create, image removed at its first read: fault" 4 "$(during pread64 "$first" 'rm c.iso' create c.iso c.ecc)"
row "  and no file is made" no "$([ -e c.ecc ] && echo yes || echo no)"
# the fifth read of the large image, where verify is in the middle of it
traced "$program" verify large.iso large.ecc >out.txt
image=$(grep 'openat.*large.iso' trace.txt | sed 's/.*= //')
middle=$(grep pread64 trace.txt | grep -n "pread64($image," | sed -n 5p | cut -d: -f1)
cp large.iso c.iso; row "verify, image cut in the middle: fault" 4 "$(during pread64 "$middle" 'truncate -s 50000 c.iso' verify c.iso large.ecc)"
cp large.iso c.iso; cp large.iso c.copy; row "verify, image replaced in the middle: fault" 4 "$(during pread64 "$middle" 'mv c.copy c.iso' verify c.iso large.ecc)"

echo "== two runs at once"
rm -f t.ecc; cp good.iso t.iso
row "create onto a file that another create writes: fault" "4 0" \
    "$(during pwrite64 2 'second=$(status "$program" create t.iso t.ecc); echo $second >second.txt' create t.iso t.ecc >first.txt; echo "$(cat second.txt) $(cat first.txt)")"
row "  and the file of the first is whole" same "$(same t.ecc good.ecc)"
damaged
row "fix of an image that another fix repairs: fault" "4 0" \
    "$(during pwrite64 5 'second=$(status "$program" fix d.iso d.ecc); echo $second >second.txt' fix d.iso d.ecc >first.txt; echo "$(cat second.txt) $(cat first.txt)")"
row "  and the image of the first is whole" same "$(same d.iso good.iso)"
cp good.iso t.iso; cp good.ecc t.ecc
row "create onto a file that fix reads: fix ends with a fault or whole" yes \
    "$(cp bad.iso u.iso; s=$(during pread64 2 '"$program" create t.iso t.ecc >/dev/null' fix u.iso t.ecc); { [ "$s" = 4 ] || [ "$(same u.iso good.iso)" = same ] || [ "$s" = 3 ]; } && echo yes || echo "no: $s")"

echo "== an error at each system call, and a kill at each with a second run"
wrong=0; runs=0
check_run() { # STATUS WHAT: success means that the work is done
    runs=$((runs + 1))
    if [ "$1" = 0 ] && [ "$(same "$2" "$3")" != same ]; then wrong=$((wrong + 1)); echo "      wrong success: $4"; fi
    if [ -s err.txt ] && ! grep -q 'strace\|shared libraries' err.txt; then echo "      on standard error: $4: $(head -1 err.txt)"; fi
}
head -c $((30 * 2048 + 77)) /dev/urandom >tiny.iso; "$program" create tiny.iso tiny.ecc >/dev/null
tiny() { cp tiny.iso e.iso; dd if=/dev/urandom of=e.iso bs=2048 seek=5 count=6 conv=notrunc status=none; cp tiny.ecc e.ecc; rm -f n.ecc; }
for call in openat statx lseek pread64 pwrite64 ftruncate flock read write; do
    tiny; traced "$program" fix e.iso e.ecc >out.txt; most=$(grep -c "^[0-9]* *$call(" trace.txt)
    for error in EIO EINTR ENOSPC; do
        for k in $(seq 1 "$most"); do
            tiny; strace -qq -f -o /dev/null -e inject=$call:error=$error:when=$k "$program" fix e.iso e.ecc >out.txt 2>err.txt
            check_run $? e.iso tiny.iso "fix, $call $k $error"
        done
    done
    for k in $(seq 1 "$most"); do
        tiny; (strace -qq -f -o /dev/null -e inject=$call:signal=KILL:when=$k "$program" fix e.iso e.ecc >out.txt; true) 2>/dev/null
        "$program" fix e.iso e.ecc >out.txt 2>err.txt; check_run $? e.iso tiny.iso "second fix after a kill at $call $k"
    done
    tiny; traced "$program" create e.iso n.ecc >out.txt; most=$(grep -c "^[0-9]* *$call(" trace.txt)
    for error in EIO EINTR ENOSPC; do
        for k in $(seq 1 "$most"); do
            tiny; cp tiny.iso e.iso; strace -qq -f -o /dev/null -e inject=$call:error=$error:when=$k "$program" create e.iso n.ecc >out.txt 2>err.txt
            check_run $? n.ecc tiny.ecc "create, $call $k $error"
        done
    done
done
row "$runs runs, wrong successes" 0 "$wrong"
[ "$bad" = 0 ]
