#!/usr/bin/env bash
# Refuses the program its memory: each request in turn, one in each run.
#
#   tests/alloc.sh [SECTORS]
#   tests/alloc.sh tests CRATE [FIRST [LAST]]
#
# The first form runs each command on an image of SECTORS sectors (600, which are three layers) with one worker and with
# two, under a library that answers a request for memory with none, the first one in the first run, the second one in the
# second, and so on until none is left. It wants a C compiler, `cc`, that makes the library. Each run is to end in one of
# these ways:
# - It went on without: output, status and files are those of a run that was refused nothing. So it is where another
#   worker's request or start was refused, and the caller did that work.
# - Status 7, and the output is `rs01: memory ran out` or some first bytes of it. A file that `create` began is refused by
#   `verify`, and the same command again ends as the one that was refused nothing, and leaves what it left.
# - Of `demo` also status 4: its two names are kept nowhere before it begins, and where a file's name finds no memory this
#   is a fault of the file.
# A crash, a hang, another status, or on standard error anything but why a call on a name failed and what is told of
# refused words is wrong. About 2 minutes on a quiet machine.
#
# The second form does the same to the tests of a crate, such as rs01_fix, by `rt try --test --fail-alloc N`, for each N
# from FIRST (1) to LAST (200), until five in a row were refused nothing that a test needs. The toolchain takes one number
# a run and builds the tests for it anew, so a number takes one to two minutes, and a whole crate hours. Each test runs by
# itself, with its own count. It passes, or it fails for `AllocError` or `OutOfMemory`; any other reason is told, to be
# looked at, since a test may tell want of memory in its own way. A fault, a hang or a stop at a check is wrong.
#
# Ends with 0 where all came out so, with 1 where something didn't (the files are kept), and with 2 where something is
# missing. The program is that of crates/dvdisaster_rs01/out, or the one that PROGRAM names.
set -u

# The tests of a crate, under `rt try`.
try_tests() { # CRATE FIRST LAST
    cd "$(dirname "$0")/../crates/$1" || exit 2
    command -v rt >/dev/null || { echo "rt isn't there" >&2; exit 2; }
    local number said status bad=0 passed=0
    for number in $(seq "$2" "$3"); do
        said=$(rt try --test --seconds 600 --fail-alloc "$number" 2>&1)
        status=$?
        echo "request $number: $(grep '^test result' <<<"$said")"
        grep '^    error: ' <<<"$said" | grep -v 'AllocError\|OutOfMemory' | sort | uniq -c
        case $status in
            0) passed=$((passed + 1)) ;;
            1 | 101) passed=0 ;;
            *) echo "WRONG: $(tail -3 <<<"$said" | tr '\n' ' ')"; bad=1 ;;
        esac
        [ $passed -lt 5 ] || break
    done
    exit $bad
}
[ "${1:-}" != tests ] || try_tests "${2:?a crate}" "${3:-1}" "${4:-200}"

. "$(dirname "$0")/common.sh"
sectors=${1:-600}
command -v cc >/dev/null || { echo "cc isn't there" >&2; exit 2; }

# Counts the requests of the whole process, and refuses the one with the number in REFUSED. It then makes the file REACHED,
# so that a run which asked less often is told from one that was refused. What comes before `main` isn't counted, since it
# isn't the program's.
cat >refuse.c <<'END'
#define _GNU_SOURCE
#include <dlfcn.h>
#include <errno.h>
#include <fcntl.h>
#include <stdatomic.h>
#include <stdlib.h>
#include <unistd.h>

static atomic_long count;
static long refused = -1;
static void *(*next_malloc)(size_t);
static void *(*next_realloc)(void *, size_t);
static void *(*next_aligned)(size_t, size_t);
static int (*next_posix)(void **, size_t, size_t);

__attribute__((constructor)) static void start(void) {
    next_malloc = dlsym(RTLD_NEXT, "malloc");
    next_realloc = dlsym(RTLD_NEXT, "realloc");
    next_aligned = dlsym(RTLD_NEXT, "aligned_alloc");
    next_posix = dlsym(RTLD_NEXT, "posix_memalign");
    const char *number = getenv("REFUSED");
    atomic_store(&count, 0);
    if (number) refused = atol(number);
}

static int is_refused(void) {
    if (refused < 0 || atomic_fetch_add(&count, 1) + 1 != refused) return 0;
    int file = open("reached", O_WRONLY | O_CREAT, 0600);
    if (file >= 0) close(file);
    errno = ENOMEM;
    return 1;
}

void *malloc(size_t size) {
    if (!next_malloc) next_malloc = dlsym(RTLD_NEXT, "malloc");
    return is_refused() ? NULL : next_malloc(size);
}

void *realloc(void *block, size_t size) {
    if (!next_realloc) next_realloc = dlsym(RTLD_NEXT, "realloc");
    return is_refused() ? NULL : next_realloc(block, size);
}

void *aligned_alloc(size_t align, size_t size) { return is_refused() ? NULL : next_aligned(align, size); }

int posix_memalign(void **block, size_t align, size_t size) {
    return is_refused() ? ENOMEM : next_posix(block, align, size);
}
END
cc -shared -fPIC -O1 -o refuse.so refuse.c -ldl || { echo "cc failed" >&2; exit 2; }

random_bytes $((sectors * 2048 - 100)) >good.iso
run create good.iso good.ecc
[ "$status" = 0 ] || { echo "create failed"; exit 2; }
cp good.iso bad.iso
random_bytes $((sectors / 20 * 2048)) | dd of=bad.iso bs=2048 seek=$((sectors / 3)) conv=notrunc status=none
truncate -s $((sectors * 2048 - 9000)) bad.iso
line='rs01: memory ran out'

# Sets up the files of a command; those that it may change have names with `made`.
fresh() {
    rm -f made.* demo.* reached
    [ "$1" != fix ] || cp bad.iso made.iso
    [ "$1" != create ] || [ $((number % 2)) = 0 ] || cp other.ecc made.ecc
}

# What a command leaves, in one line.
left() { cat made.* demo.* 2>/dev/null | cksum; }

# A command with each of its requests refused in turn.
refuse_each() { # WORDS..
    local number=0 ways=0 ended=0 wanted left_wanted before=$bad again
    fresh "$1"
    run "$@"
    wanted=$status
    cp out.txt wanted.txt
    left_wanted=$(left)
    # With more workers the number of requests isn't the same in each run.
    local unreached=0
    while [ $unreached -lt 5 ]; do
        number=$((number + 1))
        fresh "$1"
        timeout 60 env REFUSED=$number LD_PRELOAD="$work/refuse.so" "$program" "$@" >out.txt 2>err.txt
        status=$?
        if [ ! -e reached ]; then
            unreached=$((unreached + 1))
        else
            unreached=0
        fi
        [ "$status" = 2 ] || ! grep -qvE '^dvdisaster_rs01: [^:]+: .' err.txt || wrong "$*, request $number: $(head -1 err.txt)" err.txt
        if [ "$status" = "$wanted" ] && same out.txt wanted.txt; then
            ways=$((ways + 1))
            [ "$(left)" = "$left_wanted" ] || wrong "$*, request $number: it ends as it should, and leaves another file" made.*
            continue
        fi
        ended=$((ended + 1))
        case $1-$status in
            demo-4) grep -qxE 'rs01: (reading|writing) a file failed' out.txt || wrong "$*, request $number: another line" ;;
            *-7) [ "$(head -c "$(stat -c %s out.txt)" <<<"$line")" = "$(cat out.txt)" ] || wrong "$*, request $number: another line" ;;
            *) wrong "$*, request $number: status $status" ;;
        esac
        if [ "$1" = create ] && [ -e made.ecc ] && ! same made.ecc other.ecc && ! same made.ecc good.ecc; then
            again=$("$program" verify good.iso made.ecc)
            [ $? = 3 ] || wrong "$*, request $number: a file that was begun isn't refused: $again" made.ecc
        fi
        run "$@"
        if [ "$status" != "$wanted" ] || [ "$(left)" != "$left_wanted" ]; then
            wrong "$*, request $number: the second run ended with status $status"
        fi
    done
    printf '%-60s %4s requests, %4s went on, %4s ended so, %s wrong\n' "$*" $((number - 5)) $((ways - 5)) $ended $((bad - before))
}

cp good.iso good.copy
cp good.ecc good.ecc.copy
head -c 5000 good.iso >other.iso
run create other.iso other.ecc --parity 8
number=0
for workers in 1 2; do
    refuse_each create good.iso made.ecc --workers $workers
    refuse_each fix made.iso good.ecc --workers $workers
    refuse_each read made.iso good.ecc --drive bad.iso --adaptive --workers $workers
done
refuse_each verify bad.iso good.ecc
refuse_each verify bad.iso none.ecc
refuse_each scan good.ecc --drive good.iso --drive bad.iso
refuse_each scan good.ecc --drive bad.iso
refuse_each read made.iso good.ecc --drive bad.iso
refuse_each read made.iso --drive good.iso
refuse_each read made.iso --drive good.iso --adaptive
refuse_each demo 7 300 16 20
refuse_each verify good.iso
same good.iso good.copy && same good.ecc good.ecc.copy || wrong "a file changed that no command was to change"
finish
