"""What is wanted of each run of tests/fuzz.sh, worked out a second time by docs/FORMAT.md, docs/REPORTS.md and
docs/COMMAND_LINE.md, but for the restoring itself.

- A file that isn't to be opened is refused with status 3 and exactly its line, by each command, and no file changes.
- A file that is to be opened isn't refused. Its header may record other numbers than the image's, and its checksums may
  be others, where the digest over them was made to fit. All that follows is then judged by what it records.
- `verify`, `scan` and `read` put exactly the report that file, image and drive ask for, `read` leaves exactly that image,
  and the status is 0 exactly where the report has nothing wrong. `read --adaptive` asks as often as its turns make it, of
  what it reads and keeps it leaves exactly that, and what is said of `fix` holds of the sectors that aren't good at its
  end. So `verify` ends with 0 only where the image has each
  checksum and the digest that the file records: that it is the original is claimed only where these weren't changed.
- `fix` restores or loses each erased sector. A restored sector has the recorded checksum, but for the last one where the
  header records another length of it than the original's: its block has the checksum, and of the block the image gets
  only so many bytes. A lost sector keeps its bytes, or has its marker where it was absent. All other sectors and what
  stands behind the image stay. A layer with more erased sectors than parity bytes is lost and not strange; each other
  layer is restored whole or is strange. The status is 0 exactly where no sector is lost and no layer is strange. So `fix`
  that ends with 0 leaves the original wherever the file still records the original's length and checksums, whatever else
  of it was changed.
- Where checksums and parity are those that `create` wrote, `fix` restores each layer that has no more erased sectors
  than parity bytes, and no layer is strange. Where parity bytes were changed, in no codeword of a layer more than could
  be erased there beside its sectors, this layer is strange, by its lowest codeword that was changed.
- Words are refused with status 2 and exactly the line of their first fault, or with status 8 and no output where one
  isn't UTF-8, and then no file changes. Words that are in the grammar aren't refused.
- On the standard error stands what is told of refused words, and else at most one line for each name: why a call failed.
"""

import hashlib
import struct
import zlib

SECTOR = 2048
HEADER = 4096
MOST_SECTORS = 16_777_215


# ---- the format ----


def marker(sector):
    return (b"rs01 missing sector %010d\n" % sector).ljust(SECTOR, b"\0")


def padded(data):
    return data.ljust(SECTOR, b"\0")


class Opened:
    """What an error correction file tells."""

    def __init__(self, data):
        self.fingerprint, self.image_sum = data[20:36], data[36:52]
        self.sectors = struct.unpack_from("<Q", data, 68)[0]
        self.parity = struct.unpack_from("<I", data, 80)[0]
        self.mark_sector = struct.unpack_from("<I", data, 92)[0]
        self.last = struct.unpack_from("<I", data, 116)[0] or SECTOR
        self.length = SECTOR * (self.sectors - 1) + self.last
        self.layers = layers_of(self.sectors, self.parity)
        self.sums = struct.unpack_from("<%dI" % self.sectors, data, HEADER)
        self.parity_bytes = data[HEADER + 4 * self.sectors :]

    def bytes_of(self, sector):
        return self.last if sector == self.sectors - 1 else SECTOR

    def is_usable(self, sector, block):
        return zlib.crc32(block) == self.sums[sector] and block != marker(sector)

    def block(self, image, sector):
        """The block of a sector, or None where the image is too short for it."""
        at, size = SECTOR * sector, self.bytes_of(sector)
        return padded(image[at : at + size]) if len(image) >= at + size else None

    def erased(self, image):
        """The missing and the altered sectors."""
        missing, altered = [], []
        for sector in range(self.sectors):
            block = self.block(image, sector)
            if block is None or block == marker(sector):
                missing.append(sector)
            elif not self.is_usable(sector, block):
                altered.append(sector)
        return missing, altered

    def by_layer(self, sectors):
        found = {}
        for sector in sectors:
            found.setdefault(sector % self.layers, []).append(sector)
        return found

    def fullest(self, sectors):
        counts = {layer: len(them) for layer, them in self.by_layer(sectors).items()}
        layer = min(counts, key=lambda it: (-counts[it], it), default=0)
        beyond = sum(count > self.parity for count in counts.values())
        return (
            "fullest layer %d: %d of %d" % (layer, counts.get(layer, 0), self.parity),
            "layers beyond %d" % beyond,
        )


def layers_of(sectors, parity):
    return -(-sectors // (255 - parity))


def size_of(sectors, parity):
    return HEADER + 4 * sectors + SECTOR * parity * layers_of(sectors, parity)


def opened(data):
    """What a file tells, or the line of its refusal."""
    if data is None:
        return "rs01: no error correction file"
    size = "rs01: the file has %d bytes, %d are expected"
    if len(data) < HEADER:
        return size % (len(data), HEADER)
    sectors = struct.unpack_from("<Q", data, 68)[0]
    rest, parity = struct.unpack_from("<II", data, 76)
    tests = (
        (data[:12] == b"*dvdisaster*", "cookie"),
        (data[12:16] == b"RS01", "method"),
        (struct.unpack_from("<I", data, 88)[0] <= 1, "version"),
        (1 <= sectors <= MOST_SECTORS, "sectors"),
        (8 <= parity <= 100 and rest + parity == 255, "parity"),
        (struct.unpack_from("<I", data, 116)[0] <= SECTOR, "last bytes"),
    )
    for fits, name in tests:
        if not fits:
            return "rs01: header: " + name
    if len(data) != size_of(sectors, parity):
        return size % (len(data), size_of(sectors, parity))
    body = hashlib.md5(data[HEADER:]).hexdigest()
    if body != data[52:68].hex():
        return "rs01: body md5 %s, recorded %s" % (body, data[52:68].hex())
    return Opened(data)


def listed(name, sectors):
    """The line of a list of sectors."""
    runs = []
    for sector in sectors:
        if runs and runs[-1][1] + 1 == sector:
            runs[-1][1] = sector
        else:
            runs.append([sector, sector])
    texts = ["%d" % a if a == b else "%d-%d" % (a, b) for a, b in runs]
    return "%s %d: %s" % (name, len(sectors), ",".join(texts) or "none")


def sectors_in(line):
    """The sectors that such a line lists."""
    text = line.split(": ")[1]
    found = []
    for run in [] if text == "none" else text.split(","):
        first, _, last = run.partition("-")
        found += range(int(first), int(last or first) + 1)
    return found


# ---- what is wanted of each command; each function gives what is wrong, or nothing ----


def refused(line, status, lines):
    if status != 3 or lines != [line]:
        return "the file isn't refused by: " + line


def wrong_verify(case, ecc, status, lines):
    image = case.image
    if image is None:
        return refused("rs01: no image", status, lines)
    missing, altered = ecc.erased(image)
    mark = "absent"
    if ecc.mark_sector < ecc.sectors and ecc.block(image, ecc.mark_sector) is not None:
        digest = hashlib.md5(ecc.block(image, ecc.mark_sector)).digest()
        mark = "matches" if digest == ecc.fingerprint else "differs"
    whole = "short"
    if len(image) >= ecc.length:
        digest = hashlib.md5(image[: ecc.length]).digest()
        whole = "matches" if digest == ecc.image_sum else "differs"
    wanted = [
        "checked case.iso",
        "sectors %d, layers %d, parity %d" % (ecc.sectors, ecc.layers, ecc.parity),
        listed("missing", missing),
        listed("altered", altered),
        *ecc.fullest(missing + altered),
        "surplus bytes %d" % max(0, len(image) - ecc.length),
        "fingerprint " + mark,
        "image md5 " + whole,
    ]
    return compared(wanted, bool(missing or altered or whole != "matches"), status, lines)


def compared(wanted, is_wrong, status, lines):
    if lines != wanted:
        return "the report isn't: " + " / ".join(wanted)
    if status != is_wrong:
        return "the status isn't %d" % is_wrong


class Reading:
    """A drive that is read onto an image, in rising order."""

    def __init__(self, ecc, drive, start=b"", jump=1):
        self.kept, self.read, self.unreadable, self.altered, self.passed = [], [], [], [], []
        blocks, after = [], 0
        for sector in range(ecc.sectors):
            block = ecc.block(start, sector)
            if block is not None and ecc.is_usable(sector, block):
                self.kept.append(sector)
            elif sector < after:
                self.passed.append(sector)
                block = marker(sector)
            else:
                block, found = self.ask(ecc, drive, sector)
                found.append(sector)
                if found is not self.read:
                    after = sector + jump
            blocks.append(block[: ecc.bytes_of(sector)])
        self.image = b"".join(blocks) + start[ecc.length :]

    def ask(self, ecc, drive, sector):
        """The block that the image gets, and the list that the sector comes to."""
        at = SECTOR * sector
        if at >= len(drive):
            return marker(sector), self.unreadable
        answer = padded(drive[at : at + ecc.bytes_of(sector)])
        if ecc.is_usable(sector, answer):
            return answer, self.read
        return marker(sector), self.altered


class Turns(Reading):
    """The same by turns, in which the sectors of a layer are spared once it can be restored."""

    def __init__(self, ecc, drive, start=b""):
        super().__init__(ecc, b"", start)
        self.read, self.unreadable, self.altered = [], [], []
        self.good = {sector: ecc.block(start, sector) for sector in self.kept}
        self.lacking = {layer: len(them) for layer, them in ecc.by_layer(range(ecc.sectors)).items()}
        self.unread = set(range(ecc.sectors)) - set(self.kept)
        for sector in self.kept:
            self.lacking[sector % ecc.layers] -= 1
        for layer in range(ecc.layers):
            self.spare(ecc, layer)
        place = None
        while self.unread:
            if place not in self.unread:
                place = self.turn(ecc)
            block, found = self.ask(ecc, drive, place)
            found.append(place)
            self.unread.remove(place)
            if found is not self.read:
                place = None
                continue
            self.good[place] = block
            self.lacking[place % ecc.layers] -= 1
            self.spare(ecc, place % ecc.layers)
            place += 1
        asked = set(self.read + self.unreadable + self.altered)
        self.passed = [it for it in range(ecc.sectors) if it not in asked and it not in set(self.kept)]
        self.bad = [it for it in range(ecc.sectors) if it not in self.good]
        blocks = [self.good.get(it, marker(it))[: ecc.bytes_of(it)] for it in range(ecc.sectors)]
        self.image = b"".join(blocks) + start[ecc.length :]

    def spare(self, ecc, layer):
        if self.lacking[layer] <= ecc.parity:
            self.unread -= set(range(layer, ecc.sectors, ecc.layers))

    def turn(self, ecc):
        """The middle of the first of the longest runs of unread sectors, or the start of the whole medium."""
        best, first = (0, 0), 0
        for sector in range(ecc.sectors + 1):
            if sector in self.unread:
                continue
            if sector - first > best[1] - best[0]:
                best = (first, sector)
            first = sector + 1
        return 0 if best == (0, ecc.sectors) else best[0] + (best[1] - best[0]) // 2


def wrong_scan(case, ecc, status, lines):
    if case.image is None:
        return drive_failed(status, lines)
    scan = Reading(ecc, case.image)
    wanted = [
        "scanned %d sectors" % ecc.sectors,
        listed("unreadable", scan.unreadable),
        listed("altered", scan.altered),
        *ecc.fullest(scan.unreadable + scan.altered),
    ]
    return compared(wanted, bool(scan.unreadable or scan.altered), status, lines)


def drive_failed(status, lines):
    if status != 5 or lines != ["rs01: drive 0: size failed"]:
        return "a drive that isn't there isn't told"


def read_lines(ecc, reading):
    """The first lines of a reading's report, whoever chose the order of the sectors."""
    return [
        "read new.iso",
        "sectors %d" % ecc.sectors,
        "asked %d" % len(reading.read + reading.unreadable + reading.altered),
        "kept %d" % len(reading.kept),
        "read %d" % len(reading.read),
        listed("unreadable", sorted(reading.unreadable)),
        listed("altered", sorted(reading.altered)),
        listed("not asked", reading.passed),
    ]


def wrong_read(case, ecc, status, lines):
    if case.image is None:
        return drive_failed(status, lines)
    start = case.start or b""
    jump = int(case.words[-1]) if "--jump" in case.words else 1
    reading = Reading(ecc, case.image, start, jump)
    lost = sorted(reading.unreadable + reading.altered + reading.passed)
    wanted = [
        *read_lines(ecc, reading),
        "restored 0: none",
        listed("lost", lost),
        "strange layers 0",
        "surplus bytes %d" % max(0, len(start) - ecc.length),
    ]
    if case.left("new.iso") != reading.image:
        return "the image that was read is another"
    return compared(wanted, bool(lost), status, lines)


def wrong_turns(case, ecc, status, lines):
    if case.image is None:
        return drive_failed(status, lines)
    start = case.start or b""
    reading = Turns(ecc, case.image, start)
    wanted = read_lines(ecc, reading)
    if lines[: len(wanted)] != wanted:
        return "the report doesn't begin: " + " / ".join(wanted)
    if lines[-1] != "surplus bytes %d" % max(0, len(start) - ecc.length):
        return "the surplus is another"
    restored, lost, strange, wrong = mended(ecc, lines[len(wanted) : -1], reading.bad)
    if wrong:
        return wrong
    if status != bool(lost or strange):
        return "the status isn't %d" % bool(lost or strange)
    after = case.left("new.iso")
    wrong = wrong_left(ecc, reading.image, after, set(restored), set(lost), False, untested(case, ecc))
    return wrong or wrong_layers(case, ecc, after, reading.bad, strange)


def mended(ecc, lines, erased):
    """The restored and the lost sectors and the strange layers of a report, and what is wrong with them."""
    restored, lost = sectors_in(lines[0]), sectors_in(lines[1])
    strange = {}
    for line in lines[3:]:
        words = line.split()
        strange[int(words[1].rstrip(":"))] = line
    return restored, lost, strange, wrong_lists(ecc, lines, erased, restored, lost, strange)


def wrong_lists(ecc, lines, erased, restored, lost, strange):
    if lines[0] != listed("restored", restored) or lines[1] != listed("lost", lost):
        return "a list isn't one"
    if sorted(restored + lost) != erased:
        return "erased are " + listed("", erased)
    if lines[2] != "strange layers %d" % len(strange) or list(strange) != sorted(strange):
        return "the strange layers aren't counted"
    for layer, sectors in ecc.by_layer(erased).items():
        kept = [sector for sector in sectors if sector in set(restored)]
        if kept and (len(sectors) > ecc.parity or kept != sectors or layer in strange):
            return "layer %d was restored" % layer
        if len(sectors) > ecc.parity and layer in strange:
            return "layer %d is strange, and has too many erased sectors" % layer
        if not kept and len(sectors) <= ecc.parity and layer not in strange:
            return "layer %d wasn't restored" % layer


def untested(case, ecc):
    """The sector whose restored bytes may be fewer than those that its checksum is of, if any."""
    made = case.sample.opened
    return ecc.sectors - 1 if (made.sectors, made.last) != (ecc.sectors, ecc.last) else None


def wrong_fix(case, ecc, status, lines):
    before = case.image
    if before is None:
        return refused("rs01: no image", status, lines)
    if status not in (0, 1) or lines[0] != "fixed case.iso" or not lines[-1].startswith("surplus bytes "):
        return "it isn't done"
    after = case.left("case.iso")
    missing, altered = ecc.erased(before)
    erased = sorted(missing + altered)
    restored, lost, strange, wrong = mended(ecc, lines[1:-1], erased)
    if wrong:
        return wrong
    surplus = max(0, len(before) - ecc.length)
    is_cut = surplus > 0 and "--cut" in case.words
    if lines[-1] != "surplus bytes %d%s" % (surplus, ", cut" * is_cut):
        return "the surplus is %d" % surplus
    if status != bool(lost or strange):
        return "the status isn't %d" % bool(lost or strange)
    wrong = wrong_left(ecc, before, after, set(restored), set(lost), is_cut, untested(case, ecc))
    return wrong or wrong_layers(case, ecc, after, erased, strange)


def wrong_left(ecc, before, after, restored, lost, is_cut, untested):
    """What is wrong with a repaired image. The checksum of one restored sector may be untested."""
    if after[ecc.length :] != (b"" if is_cut else before[ecc.length :]) or len(after) < ecc.length:
        return "the length or the surplus is another"
    for sector in range(ecc.sectors):
        old, new = ecc.block(before, sector), ecc.block(after, sector)
        if sector in restored:
            if sector != untested and not ecc.is_usable(sector, new):
                return "sector %d was restored to another checksum" % sector
        elif sector in lost and old is None:
            if new != padded(marker(sector)[: ecc.bytes_of(sector)]):
                return "sector %d has no marker" % sector
        elif new != old:
            return "sector %d has changed" % sector


def wrong_layers(case, ecc, after, erased, strange):
    """What is wrong with the layers that are told to be strange, or aren't, where it is known which are to be."""
    made = case.sample.opened
    same = ("sectors", "parity", "last", "sums")
    if any(getattr(made, name) != getattr(ecc, name) for name in same):
        return None
    changed = {}
    if made.parity_bytes != ecc.parity_bytes:
        pairs = zip(made.parity_bytes, ecc.parity_bytes)
        for codeword in (at // ecc.parity for at, (a, b) in enumerate(pairs) if a != b):
            changed[codeword] = changed.get(codeword, 0) + 1
    by_layer = ecc.by_layer(erased)
    for layer in range(ecc.layers):
        count = len(by_layer.get(layer, []))
        codewords = [it for it in changed if it // SECTOR == layer]
        if count > ecc.parity or any(changed[it] + count > ecc.parity for it in codewords):
            continue
        wanted = None
        if codewords:
            wanted = "layer %d: codeword %d disagrees" % (layer, min(codewords) % SECTOR)
        if strange.get(layer) != wanted:
            return "of layer %d is wanted: %s" % (layer, wanted or "nothing")
        if not codewords and any(
            ecc.block(after, sector) != made.block(case.sample.image, sector)
            for sector in range(layer, ecc.sectors, ecc.layers)
        ):
            return "layer %d isn't the original" % layer


# ---- the words ----

NAME, DRIVE, PARITY = "name", "drive", "parity"
PLAIN = {
    "create": ([NAME, NAME], 2),
    "fix": ([NAME, NAME], 2),
    "verify": ([NAME, NAME], 2),
    "scan": ([NAME], 0),
    "read": ([NAME, NAME], 1),
    "demo": ([(0, 2**64 - 1), (1, 65_536), PARITY, (0, 65_536)], 4),
}
OPTIONS = {
    "create": ["--parity", "--workers"],
    "fix": ["--workers", "--cut"],
    "verify": [],
    "scan": ["--drive"],
    "read": ["--drive", "--adaptive", "--jump", "--tries", "--workers"],
    "demo": [],
}
VALUES = {"--parity": PARITY, "--workers": (1, 32), "--drive": DRIVE, "--jump": (1, 1_048_576), "--tries": (1, 16)}
PRESETS = {"normal": 32, "high": 64}


def value_fault(kind, word):
    if kind in (NAME, DRIVE):
        return None
    low, high = (8, 100) if kind == PARITY else kind
    if kind == PARITY and word in PRESETS:
        return None
    if not word or any(it not in "0123456789" for it in word):
        return "not a number"
    return None if low <= int(word) <= high else "out of range"


def words_fault(words):
    """The place and the fault of words, or None."""
    if not words:
        return 0, "no command"
    if words[0] not in PLAIN:
        return 0, "unknown command"
    kinds, needed = PLAIN[words[0]]
    plain, names, given, at = [], [], [], 1
    while at < len(words):
        word, kind, place = words[at], None, at
        if word.startswith("--"):
            if word not in OPTIONS[words[0]]:
                return at, "not known here"
            if given.count(word) == (16 if word == "--drive" else 1):
                return at, "given twice"
            given.append(word)
            if word in VALUES:
                if at + 1 == len(words):
                    return at, "needs a value"
                at += 1
                place, kind = at, VALUES[word]
        else:
            if len(plain) == len(kinds):
                return at, "not known here"
            kind = kinds[len(plain)]
            plain.append((at, word))
        if kind is not None:
            fault = value_fault(kind, words[place])
            if fault:
                return place, fault
            if kind in (NAME, DRIVE):
                names.append((place, words[place], kind))
        at += 1
    if len(plain) < needed:
        return len(words), "something is missing"
    if words[0] == "demo" and int(plain[3][1]) > int(plain[1][1]):
        return plain[3][0], "out of range"
    for i, (place, name, kind) in enumerate(names):
        if any(name == other and DRIVE != kind or name == other and DRIVE != its for _, other, its in names[:i]):
            return place, "the same name twice"
    return None


def wrong_errors(words, status, errors):
    """What is wrong with what was put on the standard error, where it isn't a terminal."""
    if status in (2, 8):
        return None if errors else "nothing is told of the refused words"
    told = []
    for line in errors.splitlines():
        program, name, reason = (line.split(b": ", 2) + [b"", b""])[:3]
        if program != b"dvdisaster_rs01" or not reason or name not in [*words, b"demo.iso", b"demo.ecc"] or name in told:
            return "it puts something on standard error"
        told.append(name)


REPORTS = {"create": "created ", "fix": "fixed ", "verify": "checked ", "scan": "scanned ", "read": "read ", "demo": "demo "}


def wrong_words(words, status, lines, is_same):
    try:
        texts = [word.decode() for word in words]
    except UnicodeDecodeError:
        return None if status == 8 and not lines and is_same else "a word isn't UTF-8"
    fault = words_fault(texts)
    if fault:
        wanted = ["rs01: word %d: %s" % fault]
        return None if status == 2 and lines == wanted and is_same else "wanted is: %s" % wanted[0]
    if status in (0, 1) and lines and lines[0].startswith(REPORTS[texts[0]]):
        return None
    if status in (3, 4, 5) and len(lines) == 1 and lines[0].startswith("rs01: ") and "word" not in lines[0]:
        return None if is_same or status == 4 else "a refused command changed a file"
    return "the words are in the grammar"
