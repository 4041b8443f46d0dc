"""What tests/fuzz.sh does: fuzz.py PROGRAM FOLDER COUNT SEED [CASE]

Each case takes one of a few images with the file that `create` made of it, a damage of the image, a change of the file
and a command; or it is a list of words. tests/wanted.py says what is wanted of it.
"""

import hashlib
import os
import random
import resource
import select
import shutil
import signal
import struct
import sys
import time

from wanted import (
    HEADER,
    NAME,
    OPTIONS,
    PLAIN,
    SECTOR,
    VALUES,
    Opened,
    marker,
    opened,
    refused,
    size_of,
    wrong_errors,
    wrong_fix,
    wrong_read,
    wrong_scan,
    wrong_turns,
    wrong_verify,
    wrong_words,
)

SECONDS = 60
MEBIBYTES = 64


COMMANDS = {
    "verify": (["verify", "case.iso", "case.ecc"], wrong_verify),
    "fix": (["fix", "case.iso", "case.ecc"], wrong_fix),
    "fix --cut": (["fix", "case.iso", "case.ecc", "--cut", "--workers", "3"], wrong_fix),
    "fix alone": (["fix", "case.iso", "case.ecc", "--workers", "1"], wrong_fix),
    "scan": (["scan", "case.ecc", "--drive", "case.iso"], wrong_scan),
    "read": (["read", "new.iso", "case.ecc", "--drive", "case.iso"], wrong_read),
    "read on": (["read", "new.iso", "case.ecc", "--drive", "case.iso", "--jump", "3"], wrong_read),
    "turns": (["read", "new.iso", "case.ecc", "--drive", "case.iso", "--adaptive"], wrong_turns),
    "turns on": (["read", "new.iso", "case.ecc", "--drive", "case.iso", "--adaptive", "--workers", "3"], wrong_turns),
}
OFTEN = ["verify"] * 6 + ["fix"] * 6 + ["fix --cut"] * 2 + ["fix alone"] * 2 + ["scan", "read", "read on", "read on"]
OFTEN += ["turns"] + ["turns on"] * 3


# ---- the changes ----

FIELDS = (
    (0, 12),
    (12, 4),
    (16, 4),
    (20, 16),
    (36, 16),
    (52, 16),
    (68, 8),
    (76, 4),
    (80, 4),
    (84, 4),
    (88, 4),
    (92, 4),
    (96, 20),
    (116, 4),
    (120, 3976),
)
NUMBERS = (0, 1, 2, 7, 8, 32, 100, 101, 155, 223, 247, 248, 255, 256, 2047, 2048, 2049, 16_777_215, 16_777_216)
NUMBERS += (2**31 - 1, 2**31, 2**32 - 256, 2**32 - 1, 2**32, 2**32 + 1, 2**63 - 1, 2**63, 2**64 - 1)


def with_digest(data):
    """The file with the digest that its body has."""
    if len(data) >= HEADER:
        data[52:68] = hashlib.md5(data[HEADER:]).digest()
    return data


def change_field(rng, data):
    at, size = rng.choice(FIELDS)
    if size in (4, 8):
        number = rng.choice(NUMBERS) if rng.random() < 0.7 else rng.getrandbits(8 * size)
        data[at : at + size] = (number % 2 ** (8 * size)).to_bytes(size, "little")
    else:
        change_bytes(rng, data, at, at + size)
    return data


def change_bytes(rng, data, start, end):
    for _ in range(rng.choice((1, 1, 2, 5, 40))):
        at = rng.randrange(start, end)
        data[at] ^= rng.randrange(1, 256)


def change_header(rng, data):
    change_bytes(rng, data, 0, 120)
    return data


def change_body(rng, data):
    change_bytes(rng, data, HEADER, len(data))
    return data


def end_of_sums(data):
    """Where the checksums end, by the header, in the file with some bytes before it and behind it."""
    sectors = struct.unpack_from("<Q", data, 68)[0]
    return min(max(HEADER + 4, HEADER + 4 * sectors), len(data) - 1)


def change_sums(rng, data):
    change_bytes(rng, data, HEADER, end_of_sums(data))
    return with_digest(data)


def change_parity(rng, data):
    change_bytes(rng, data, end_of_sums(data), len(data))
    return with_digest(data)


def change_run(rng, data):
    """A run of bytes anywhere, zeros, copied or random, sometimes with the digest made to fit."""
    size = rng.randrange(1, 5000)
    at = rng.randrange(0, len(data))
    size = min(size, len(data) - at)
    source = rng.randrange(0, len(data) - size + 1)
    data[at : at + size] = rng.choice((bytes(size), rng.randbytes(size), bytes(data[source : source + size])))
    return with_digest(data) if rng.random() < 0.5 else data


def change_length(rng, data):
    lengths = (0, 1, 4095, 4096, 4097, 4100, len(data) - 1, rng.randrange(0, len(data)))
    if rng.random() < 0.6:
        del data[rng.choice(lengths) :]
    else:
        data += rng.randbytes(rng.choice((1, 4, 2048, rng.randrange(1, 5000))))
    return with_digest(data) if rng.random() < 0.5 else data


def change_shape(rng, data):
    """Other numbers of sectors, parity bytes and last bytes, in a file of the length and digest that they ask for."""
    sectors = max(1, rng.choice((1, 2, rng.randrange(1, 700), struct.unpack_from("<Q", data, 68)[0] + rng.randrange(-3, 4))))
    parity = rng.choice((8, 9, 31, 32, 33, 99, 100, struct.unpack_from("<I", data, 80)[0]))
    struct.pack_into("<QII", data, 68, sectors, 255 - parity, parity)
    struct.pack_into("<I", data, 116, rng.choice((0, 1, 30, 31, 2047, 2048, rng.randrange(0, 2049))))
    size = size_of(sectors, parity)
    del data[size:]
    data += bytes(size - len(data)) if rng.random() < 0.5 else rng.randbytes(size - len(data))
    return with_digest(data)


def change_nothing(rng, data):
    return data


def change_more(rng, data):
    for _ in range(rng.randrange(2, 5)):
        data = rng.choice((change_field, change_header, change_body, change_sums, change_run))(rng, data)
    return with_digest(data) if rng.random() < 0.5 else data


CHANGES = [change_field] * 4 + [change_header] * 2 + [change_body] * 2 + [change_sums] * 3 + [change_parity] * 4
CHANGES += [change_run] * 2 + [change_length] * 2 + [change_shape] * 4 + [change_more, change_nothing]


# ---- the images ----


class Sample:
    """An image with its file, as `create` made it, and copies with damages."""

    def __init__(self, fuzz, rng, sectors, last, parity):
        size = SECTOR * (sectors - 1) + last
        self.image = rng.randbytes(size)
        fuzz.write("case.iso", self.image)
        status, lines = fuzz.run(["create", "case.iso", "case.ecc", "--parity", "%d" % parity])[:2]
        self.file = fuzz.left("case.ecc")
        self.opened = opened(self.file) if status == 0 else lines
        if not isinstance(self.opened, Opened) or self.opened.erased(self.image) != ([], []):
            sys.exit("create made no file that can be opened: %s" % self.opened)
        layers = self.opened.layers
        self.damaged = [self.image, None, b"", self.image + rng.randbytes(3000), self.image[: size // 2]]
        for count in (1, 3, parity * layers, parity * layers - 1, parity * layers + 1):
            self.damaged.append(self.overwritten(rng, min(count, sectors)))
        self.damaged.append(self.damaged[-2][: max(1, size - 5000)])
        marked = bytearray(self.image)
        for sector in rng.sample(range(sectors), min(sectors, 5)):
            at = SECTOR * sector
            marked[at : at + SECTOR] = marker(sector)[: size - at]
        self.damaged.append(bytes(marked))

    def overwritten(self, rng, count):
        """A copy with so many sectors in a row overwritten."""
        image = bytearray(self.image)
        first = SECTOR * rng.randrange(0, self.opened.sectors - count + 1)
        last = min(len(image), first + SECTOR * count)
        image[first:last] = rng.randbytes(last - first)
        return bytes(image)


# ---- the words ----

FILES = ["disc.iso", "bad.iso", "disc.ecc", "other.ecc"]
NAMES = FILES * 3 + ["none", "./disc.iso", "folder", "", "-", "-x", "a b", "\u00fc\u20ac", "n" * 300, "--cut", "create"]
TEXTS = ["0", "1", "7", "8", "007", "32", "64", "100", "101", "16", "17", "33", "1048576", "1048577", "65537", "normal"]
TEXTS += ["high", "High", "-1", "+8", "8 ", "8x", "\u0663", "1e1", str(2**64 - 1), str(2**64), "0" * 90 + "9", "9" * 90]
WORDS = list(PLAIN) + sum(OPTIONS.values(), []) + ["--", "---", "--parity=8", "-parity", "--Cut", "Create", "help"]


def random_words(rng):
    verb = rng.choice(list(PLAIN))
    words = []
    for kind in PLAIN[verb][0]:
        words.append([rng.choice(NAMES if kind == NAME else TEXTS)])
    if OPTIONS[verb]:
        for option in rng.sample(OPTIONS[verb], rng.randrange(0, len(OPTIONS[verb]) + 1)):
            value = rng.choice(NAMES if option == "--drive" else TEXTS)
            words.append([option, value] if option in VALUES else [option])
    if rng.random() < 0.3:
        rng.shuffle(words)
    words = [verb] + sum(words, [])
    if rng.random() < 0.02:
        words += ["--drive", "disc.iso"] * rng.randrange(14, 19)
    for _ in range(rng.choice((0, 0, 0, 1, 1, 2, 4))):
        at = rng.randrange(0, len(words) + 1)
        how = rng.randrange(4)
        if how == 0 and at < len(words):
            del words[at]
        elif how == 1:
            words.insert(at, rng.choice(WORDS + NAMES + TEXTS))
        elif how == 2 and at < len(words):
            words[at] = rng.choice(WORDS + NAMES + TEXTS)
        elif words:
            words.insert(at, rng.choice(words))
    words = [word.encode() for word in words]
    if words and rng.random() < 0.03:
        at = rng.randrange(0, len(words))
        words[at] += rng.choice((b"\xff", b"\xc3", b"\xed\xa0\x80", b"\xf5\x80\x80\x80", b"\xc0\x80"))
    return words


# ---- the runs ----


class Fuzz:
    def __init__(self, program, folder, count, seed):
        self.program, self.folder, self.count, self.seed = program, folder, count, seed
        self.bad, self.most, self.statuses = 0, 0, {}
        os.chdir(folder)
        # The kept samples follow from the seed alone.
        rng = random.Random("samples %d" % seed)
        shapes = ((1, 3, 100), (40, 2048, 8), (240, 777, 32), (490, 1, 16))
        self.samples = [Sample(self, rng, *shape) for shape in shapes]

    def write(self, name, data):
        with open(name, "wb") as it:
            it.write(data)

    def left(self, name):
        if not os.path.exists(name):
            return None
        with open(name, "rb") as it:
            return it.read()

    def run(self, words):
        """Runs the program. Gives status, lines, the most memory in KiB, and what is wrong with any run."""
        words = [word if isinstance(word, bytes) else word.encode() for word in words]
        source, into = os.pipe()
        actions = [
            (os.POSIX_SPAWN_OPEN, 0, "/dev/null", os.O_RDONLY, 0),
            (os.POSIX_SPAWN_DUP2, into, 1),
            (os.POSIX_SPAWN_OPEN, 2, "errors.txt", os.O_WRONLY | os.O_CREAT | os.O_TRUNC, 0o600),
            (os.POSIX_SPAWN_CLOSE, source),
        ]
        name = self.program.encode()
        process = os.posix_spawn(name, [name, *words], os.environ, file_actions=actions)
        os.close(into)
        end, said, why = time.monotonic() + SECONDS, b"", None
        while True:
            ready = select.select([source], [], [], max(0, end - time.monotonic()))[0]
            if not ready:
                why = "it hangs"
                os.kill(process, signal.SIGKILL)
                break
            some = os.read(source, 65536)
            if not some:
                break
            said += some
        os.close(source)
        _, ended, used = os.wait4(process, 0)
        status = os.WEXITSTATUS(ended) if os.WIFEXITED(ended) else 128 + os.WTERMSIG(ended)
        self.most = max(self.most, used.ru_maxrss)
        self.statuses[status] = self.statuses.get(status, 0) + 1
        lines = said.decode("utf-8", "replace").split("\n")
        if not why and status > 8:
            why = "it ends with status %d" % status
        if not why and lines.pop() != "":
            why = "the last line has no end"
        why = why or wrong_errors(words, status, self.left("errors.txt"))
        if not why and used.ru_maxrss > MEBIBYTES * 1024:
            why = "it holds %d KiB" % used.ru_maxrss
        return status, lines, why

    def tell(self, number, words, status, lines, why, names):
        self.bad += 1
        kept = "%s.kept/seed-%d-case-%s" % (self.folder, self.seed, number)
        where = ""
        if self.bad <= 20:
            os.makedirs(kept, exist_ok=True)
            for name, data in names.items():
                if data is not None:
                    self.write("%s/%s" % (kept, name), data)
            where = ", files in %s" % kept
        print("WRONG case %s (seed %d%s): %s" % (number, self.seed, where, why))
        print("      words %s, status %d, lines %s" % (words, status, lines[:14]), flush=True)

    def one_change(self, number):
        rng = random.Random("change %d %d" % (self.seed, number))
        self.sample = rng.choice(self.samples)
        self.image = rng.choice(self.sample.damaged)
        command = rng.choice(OFTEN)
        self.words, judge = COMMANDS[command]
        self.start = rng.choice(self.sample.damaged) if command in ("read on", "turns on") else None
        how = rng.choice(CHANGES)
        data = bytes(how(rng, bytearray(self.sample.file)))
        names = {"case.ecc": data, "case.iso": self.image, "new.iso": self.start}
        for name in ("case.iso", "new.iso"):
            if os.path.exists(name):
                os.remove(name)
        for name, its in names.items():
            if its is not None:
                self.write(name, its)
        status, lines, why = self.run(self.words)
        ecc = opened(data)
        try:
            if not why and isinstance(ecc, str):
                why = refused(ecc, status, lines)
            elif not why:
                why = judge(self, ecc, status, lines)
        except (IndexError, ValueError) as error:
            why = "the report can't be read: %r" % error
        if not why and self.left("case.ecc") != data:
            why = "the error correction file has changed"
        changes = self.words[0] == "fix" and status in (0, 1)
        if not why and not changes and self.left("case.iso") != self.image:
            why = "the image has changed"
        if not why and self.left("new.iso") != self.start and not (self.words[0] == "read" and status in (0, 1)):
            why = "an image was made or changed"
        if why:
            self.tell(number, self.words, status, lines, "%s: %s" % (how.__name__, why), names)

    def one_line(self, number):
        rng = random.Random("words %d %d" % (self.seed, number))
        words = random_words(rng)
        sample = self.samples[1]
        files = [sample.image, sample.damaged[6], sample.file, self.samples[2].file]
        if not os.path.isdir("words/folder"):
            os.makedirs("words/folder")
            for name, data in zip(FILES, files):
                self.write("words/" + name, data)
        os.chdir("words")
        try:
            status, lines, why = self.run(words)
            os.remove("errors.txt")
            found = {name: self.left(name) for name in os.listdir() if os.path.isfile(name)}
        finally:
            os.chdir("..")
        is_same = found == dict(zip(FILES, files)) and os.listdir("words/folder") == []
        why = why or wrong_words(words, status, lines, is_same)
        if why:
            self.tell("w%d" % number, words, status, lines, why, {})
        if not is_same:
            shutil.rmtree("words")

    def all(self, only):
        if only:
            (self.one_line if only.startswith("w") else self.one_change)(int(only.lstrip("w")))
        else:
            for number in range(self.count):
                self.one_change(number)
            for number in range(self.count // 4):
                self.one_line(number)
        runs = sum(self.statuses.values())
        told = ", ".join("%d: %d" % it for it in sorted(self.statuses.items()))
        print("seed %d, %d runs, statuses {%s}, %d wrong" % (self.seed, runs, told, self.bad))
        # The system counts what this script held when it started a run as held by that run.
        own = resource.getrusage(resource.RUSAGE_SELF).ru_maxrss
        print("most memory of a run: %.1f MiB, of which the script itself may be %.1f" % (self.most / 1024, own / 1024))
        return 1 if self.bad else 0


if __name__ == "__main__":
    sys.exit(
        Fuzz(sys.argv[1], sys.argv[2], int(sys.argv[3]), int(sys.argv[4])).all("".join(sys.argv[5:]))
    )
