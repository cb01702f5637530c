"""The table of cases for the program `vectors`: jobs and scripts, with the answers of tools/reference.py.

    python3 tools/reference.py table > crates/vectors/stdin

writes it, the same on every run. A job is a line `job PLACE RECORD ANSWER`: the length of the place for the answer, the
record and the answer in hexadecimal (`-` for no bytes), or `refused 14` as the answer. A script is a block: `script NAME`,
then for each command a line `> COMMAND` and a line `< ANSWER`, then `end`.
"""
import random

from reference import (
    ALPHA, CIPHERS, CIPHER_CODES, FAULTS, JOB, KINDS, LONGEST, MODES, MODE_CODES, PLACE, RECORD, Refused, STORY, WORKED,
    bytes_of, checked_by_law, inverse, job, key_length, multiply, script, written)

# ---- Jobs

MODE_CODE = {name: code for code, name in MODE_CODES.items()}
CIPHER_CODE = {name: code for code, name in CIPHER_CODES.items()}


def with_length(data):
    return len(data).to_bytes(2, "big") + data


def record(*fields):
    """The record of six fields, in the order of the bits: codes and bytes, None where a field is absent."""
    bits = sum(1 << bit for bit, value in enumerate(fields) if value is not None)
    codes = [bytes([code]) for code in fields[:3] if code is not None]
    rows = [with_length(row) for row in fields[3:] if row is not None]
    return bytes([bits]) + b"".join(codes + rows)


class Source:
    """Bytes and choices that are the same on every run."""

    def __init__(self, seed):
        self.bits = random.Random(seed).getrandbits

    def some(self, count):
        return bytes(self.bits(8) for _ in range(count))

    def below(self, limit):
        return self.bits(24) % limit

    def pick(self, row):
        return row[self.below(len(row))]

    def key(self, mode, cipher):
        return self.some(key_length(mode, cipher))

    def tweak(self, mode, cipher):
        return self.some(8 if mode == "tet" else CIPHERS[cipher].w)

    def job(self, mode, cipher, back, size, key=None, tweak=None):
        """A record of this kind, its sector of this size; key and tweak fit where they are not given."""
        key = self.key(mode, cipher) if key is None else key
        tweak = self.tweak(mode, cipher) if tweak is None else tweak
        return record(MODE_CODE[mode], CIPHER_CODE[cipher], int(back), key, tweak, self.some(size))


def takes(mode, cipher, size):
    w = CIPHERS[cipher].w
    return w <= size <= LONGEST[w] and (mode == "tet" or size % w == 0)


def worked_jobs(source):
    yield bytes.fromhex(JOB[0])
    for mode, cipher, _, *rows in WORKED:
        key, tweak, plain, enciphered = map(bytes.fromhex, rows)
        yield record(MODE_CODE[mode], CIPHER_CODE[cipher], None, key, tweak, plain)
        yield record(MODE_CODE[mode], CIPHER_CODE[cipher], 1, key, tweak, enciphered)
    yield record(1, 3, 0, b"\xf6\x10", None, b"\x57")


def length_jobs(source):
    for mode, cipher in KINDS:
        w = CIPHERS[cipher].w
        sizes = {w, w + 1, 2 * w - 1, 2 * w, 2 * w + 1, 3 * w - 1, 3 * w, 3 * w + w // 2, 5 * w, 7 * w + 1, 30, 31, 512, 520}
        for size in sorted(sizes):
            for back in (False, True):
                if takes(mode, cipher, size):
                    yield source.job(mode, cipher, back, size)


def longest_jobs(source):
    for mode, cipher in KINDS:
        if CIPHERS[cipher].w > 1:
            yield source.job(mode, cipher, mode == "heh", 4096)
    yield source.job("tet", "aes-128", True, 4095)
    yield source.job("tet", "xtea", True, 4089)
    yield source.job("tet", "mask-16", True, 4081)
    yield source.job("heh", "xtea", False, 4096)


def tweak_jobs(source):
    for mode, cipher in KINDS:
        w = CIPHERS[cipher].w
        for length in sorted({0, 1, w - 1, w, w + 1, 8, 2 * w - 1, 2 * w, 2 * w + 1, 40}):
            for back in (False, True):
                size = 2 * w + (w // 2 if mode == "tet" and back else 0)
                yield source.job(mode, cipher, back, size, None, source.some(length))
        for back in (0, 1):
            yield record(MODE_CODE[mode], CIPHER_CODE[cipher], back, source.key(mode, cipher), None, source.some(2 * w))


def longest_tweak_jobs(source):
    for cipher in CIPHERS:
        for length in (4096, 4097):
            yield source.job("tet", cipher, length == 4096, CIPHERS[cipher].w, None, source.some(length))
    yield source.job("tet", "aes-128", False, 17, None, source.some(4095))
    yield source.job("heh", "aes-128", False, 16, None, source.some(4096))
    yield source.job("heh", "mask-1", False, 1, None, source.some(4097))


def key_jobs(source):
    for mode, cipher in KINDS:
        length, w = key_length(mode, cipher), CIPHERS[cipher].w
        for wrong in sorted({0, length - 1, length + 1, 2 * length, length // 2, 3 * length}):
            yield source.job(mode, cipher, wrong % 2, 2 * w, source.some(wrong))


def size_jobs(source):
    for mode, cipher in KINDS:
        w = CIPHERS[cipher].w
        sizes = {0, w - 1, LONGEST[w] + 1}
        sizes |= {w + 1, 2 * w - 1, 3 * w + w // 2, 520} if mode == "heh" and w > 1 else set()
        sizes |= {33, 512} if w == 1 else set()
        for size in sorted(sizes):
            if not takes(mode, cipher, size):
                yield source.job(mode, cipher, size % 2, size)


def power(w, a, exponent):
    result = 1
    for bit in f"{exponent:b}":
        result = multiply(w, result, result)
        if bit == "1":
            result = multiply(w, result, a)
    return result


def root_of_one(w, order):
    """A τ of this order, a prime: 1 + τ + … + τ^(order − 1) = 0."""
    candidates = (power(w, a, ((1 << 8 * w) - 1) // order) for a in range(2, 256))
    return next(root for root in candidates if root != 1)


def mask_key(w, tau):
    """A TET key under the mask with this τ: τ = α·K1 + K1, K2 = K1 + 1."""
    one = multiply(w, tau, inverse(w, ALPHA ^ 1))
    return bytes_of([one, one ^ 1], w)


def sigma_jobs(source):
    for cipher in ("mask-1", "mask-8", "mask-16"):
        w = CIPHERS[cipher].w
        for tau in (0, 1, root_of_one(w, 3), root_of_one(w, 5), root_of_one(w, 17)):
            for m in (1, 2, 3, 4, 5, 16):
                yield source.job("tet", cipher, m % 2, m * w + m % w, mask_key(w, tau))


def order_jobs(source):
    """Two reasons at once: the lower place in the order 13, 5, 6, 7, 12 is answered."""
    for mode, cipher in KINDS:
        length, w = key_length(mode, cipher), CIPHERS[cipher].w
        short = source.some(length - 1)
        yield source.job(mode, cipher, False, w, short) + b"\x00"
        yield source.job(mode, cipher, False, 0) + b"\x00"
        yield source.job(mode, cipher, True, 0, short)
        yield source.job(mode, cipher, True, w, short, source.some(w + 1))
        yield source.job(mode, cipher, False, w - 1, None, source.some(w + 1))
    sigma, long = b"\xf6\x10", bytes(4097)
    yield source.job("tet", "mask-1", False, 1, sigma + b"\x00")
    yield source.job("tet", "mask-1", False, 1, sigma) + b"\x00"
    yield source.job("tet", "mask-1", False, 1, sigma, long)
    yield source.job("tet", "mask-1", False, 33, sigma, long)
    yield source.job("tet", "mask-1", False, 32, sigma)
    yield source.job("tet", "mask-1", False, 1, b"\xf6", long)


def cut_jobs(source):
    """Every front of a record, and more than a record."""
    for whole in (source.job("tet", "mask-1", False, 3, b"\x01\x10", b"\x05\x06"), source.job("heh", "mask-8", True, 8)):
        for end in range(len(whole) + 1):
            yield whole[:end]
        yield whole + b"\x00"
        yield whole + source.some(3)
    example = bytes.fromhex(JOB[0])
    for end in range(len(example)):
        yield example[:end]
    yield record(1, 3, 0, b"\x01\x10", b"", None)[:-2] + b"\xff\xff"
    yield record(1, 3, 0, b"\x01\x10", b"", b"\x57")[:-3] + b"\x00\x02\x57"
    yield record(1, 3, 0, b"\x01\x10", b"", b"\x57")[:-3] + b"\x00\x00\x57"


def code_jobs(source):
    for code in (0, 3, 4, 128, 255):
        yield record(code, 3, 0, b"\x01\x10", b"", b"\x57")
    for code in (0, 6, 7, 128, 255):
        yield record(1, code, 0, b"\x01\x10", b"", b"\x57")
    for code in (2, 3, 128, 255):
        yield record(1, 3, code, b"\x01\x10", b"", b"\x57")


def map_jobs(source):
    """Every set of fields; then the bits without a field."""
    for bits in range(64):
        mode = "heh" if bits & 1 else "tet"
        cipher = "xtea" if bits & 2 else "aes-128"
        fields = [2, 2, 1, source.key(mode, cipher), source.tweak(mode, cipher), source.some(32)]
        yield record(*[value if bits >> bit & 1 else None for bit, value in enumerate(fields)])
    good = source.job("tet", "mask-1", False, 5)
    for bits in (64, 128, 192):
        yield bytes([good[0] | bits]) + good[1:]
        yield bytes([good[0] | bits]) + good[1:] + b"\x00\x00"
        yield bytes([bits])


def size_of_record_jobs(source):
    """16,384 bytes and one more, the bulk in the tweak, the key or the sector."""
    bulk = RECORD - len(record(1, 2, 0, bytes(32), b"", bytes(9)))
    yield record(1, 2, 0, source.some(32), source.some(bulk), source.some(9))
    yield record(1, 2, 0, source.some(32), source.some(bulk + 1), source.some(9))
    yield record(1, 2, 0, source.some(32 + bulk), b"", source.some(9))
    yield record(1, 2, 0, source.some(32), b"", source.some(9 + bulk))


def random_jobs(source):
    for _ in range(150):
        mode, cipher = source.pick(KINDS)
        w = CIPHERS[cipher].w
        size = w * (1 + source.below(6)) + (source.below(w) if mode == "tet" else 0)
        tweak = source.some(source.below(4 * w + 2)) if mode == "tet" else None
        yield source.job(mode, cipher, source.below(2), size, None, tweak)


def place_jobs(source):
    """Places of other lengths: 14 comes before all else, and a longer place changes nothing."""
    good, bad = bytes.fromhex(JOB[0]), bytes.fromhex(JOB[0])[:-1]
    for place in (0, 1, 4, PLACE - 1, PLACE, PLACE + 1, 5000):
        for text in (good, bad, b""):
            yield place, text
    yield PLACE - 1, source.job("heh", "xtea", False, 8)
    yield PLACE - 1, source.job("heh", "xtea", False, 8, b"")
    yield PLACE + 1, source.job("heh", "xtea", False, 8)


JOBS = [
    worked_jobs, length_jobs, longest_jobs, tweak_jobs, longest_tweak_jobs, key_jobs, size_jobs, sigma_jobs, order_jobs, cut_jobs,
    code_jobs, map_jobs, size_of_record_jobs, random_jobs]


def job_line(place, record):
    try:
        answer = job(record, place).hex()
    except Refused as refused:
        answer = f"refused {refused.args[0]}"
    return f"job {place} {written(record)} {answer}"


def job_lines(source):
    for jobs in JOBS:
        for text in jobs(source):
            yield job_line(PLACE, text)
    for place, text in place_jobs(source):
        yield job_line(place, text)


# ---- Scripts

class Draft:
    """A script in the making: a volume of one kind over an image of random bytes, with some left over and some sectors dead."""

    def __init__(self, source, mode, cipher, size, count, over=0, dead=()):
        self.source, self.kind, self.size, self.count, self.lines = source, (mode, cipher), size, count, []
        self.add(f"image {size} {written(source.some(size * count + over))}")
        self.add(*[f"fault {n}" for n in dead], f"volume {mode} {cipher}")

    def add(self, *lines):
        self.lines += lines

    def keys(self, word, *keys):
        """The command with each of the keys, or with one that fits."""
        self.add(*[f"{word} {written(key)}" for key in keys or [self.source.key(*self.kind)]])

    def write(self, n, length=None):
        self.add(f"write {n} {written(self.source.some(self.size if length is None else length))}")

    def read(self, *sectors):
        self.add(*[f"read {n}" for n in sectors])

    def state(self):
        """All that can be seen of a volume."""
        self.add("report", "show")
        self.read(*range(self.count))

    def around(self, mark):
        """Reads and writes below, at and above the mark; odd sectors are not written before they are swept."""
        sectors = [n for n in (mark - 1, mark, mark + 1) if 0 <= n < self.count]
        for n in sectors if self.size <= 31 else [sectors[mark % len(sectors)]]:
            self.read(n)
            if n < mark or n % 2 == 0:
                self.write(n)
                self.read(n)

    def sweep(self):
        """A sweep stopped at every mark."""
        self.keys("begin")
        for mark in range(self.count):
            self.add("report")
            self.around(mark)
            self.add("step")
            if self.size <= 31 or mark == 0:
                self.add("show")

    def edges(self):
        """Reads and writes with every reason to be sent back, alone and together."""
        for n in (0, self.count - 1, self.count, 4294967295):
            self.read(n)
            for length in (0, self.size - 1, self.size, self.size + 1):
                if length != self.size or n >= self.count:
                    self.write(n, length)


def story_script(source):
    yield "story", [line for line, _ in STORY]
    yield "faults", [line for line, _ in FAULTS]


SWEPT_SIZES = {
    ("tet", "aes-128"): [16, 31, 512, 520], ("heh", "aes-128"): [16, 512],
    ("tet", "xtea"): [16, 31, 512, 520], ("heh", "xtea"): [16, 512, 520],
    ("tet", "mask-1"): [1, 16, 31], ("heh", "mask-1"): [1, 16, 31],
    ("tet", "mask-8"): [16, 31, 520], ("heh", "mask-8"): [16, 520],
    ("tet", "mask-16"): [16, 31, 512], ("heh", "mask-16"): [16, 512],
}


def sweep_scripts(source):
    for (mode, cipher), sizes in SWEPT_SIZES.items():
        for size in sizes:
            draft = Draft(source, mode, cipher, size, 4 if size <= 31 else 3)
            draft.keys("open")
            draft.read(*range(draft.count))
            draft.write(1)
            draft.sweep()
            draft.state()
            draft.add("step")
            yield f"sweep-{mode}-{cipher}-{size}", draft.lines


IN_A_ROW = [("tet", "mask-1", 5, 3), ("heh", "xtea", 8, 3), ("tet", "aes-128", 20, 2), ("heh", "mask-16", 32, 2)]


def sweeps_in_a_row_scripts(source):
    for mode, cipher, size, count in IN_A_ROW:
        draft = Draft(source, mode, cipher, size, count)
        draft.keys("open")
        for _ in range(3):
            draft.sweep()
            draft.add("step")
            draft.state()
        yield f"three-sweeps-{mode}-{cipher}", draft.lines


def same_key_script(source):
    draft, key = Draft(source, "tet", "xtea", 11, 2), source.key("tet", "xtea")
    draft.keys("open", key)
    draft.keys("begin", key)
    draft.add("step", "show")
    draft.write(0)
    draft.add("show", "step")
    draft.state()
    yield "sweep-to-the-same-key", draft.lines


def step_count_scripts(source):
    for count, steps in ((1, [1]), (4, [4]), (4, [2, 1, 1]), (4, [3, 5]), (4, [9])):
        draft = Draft(source, "heh", "mask-1", 2, count)
        draft.keys("open")
        draft.keys("begin")
        for number in steps:
            draft.add(f"step {number}")
            draft.state()
        yield f"steps-{count}-{'-'.join(map(str, steps))}", draft.lines


DEAD = [
    ("tet", "aes-128", 16, [0]), ("heh", "xtea", 16, [3]), ("tet", "mask-1", 1, [1, 2]), ("heh", "mask-1", 3, [0, 2]),
    ("tet", "mask-8", 9, [3, 1, 0, 3]), ("heh", "mask-16", 16, [0, 1, 2, 3]),
]


def dead_scripts(source):
    for mode, cipher, size, dead in DEAD:
        draft = Draft(source, mode, cipher, size, 4, 0, dead)
        draft.read(*range(4))
        draft.write(dead[0])
        draft.keys("open")
        for n in range(4):
            draft.read(n)
            draft.write(n)
            draft.write(n, size + 1)
        for _ in range(2):
            draft.sweep()
            draft.state()
        yield f"dead-{mode}-{cipher}", draft.lines


def refused_when_closed(draft, wrong):
    draft.keys("open", *wrong)
    draft.keys("begin")
    draft.keys("begin", wrong[0])
    draft.add("step", "step 3")
    draft.edges()
    draft.state()


def refused_when_open(draft, wrong):
    draft.keys("open")
    draft.keys("open", wrong[0])
    draft.keys("begin", *wrong)
    draft.add("step")
    draft.edges()
    draft.state()


def refused_when_sweeping(draft, wrong):
    draft.keys("open")
    draft.keys("open", wrong[0])
    draft.keys("begin")
    draft.keys("begin", wrong[0])
    draft.edges()
    draft.state()


def phase_scripts(source):
    """Every call in every phase with every reason to be sent back; then it is seen that nothing changed."""
    for mode, cipher in KINDS:
        length = key_length(mode, cipher)
        wrong = [source.some(count) for count in (0, length - 1, length + 1, 2 * length)]
        draft = Draft(source, mode, cipher, 2 * CIPHERS[cipher].w, 3, 1, [2])
        refused_when_closed(draft, wrong)
        draft.keys("open")
        draft.write(0)
        refused_when_open(draft, wrong)
        draft.keys("begin")
        draft.add("step")
        draft.write(0)
        refused_when_sweeping(draft, wrong)
        draft.add("step 2")
        draft.add("step")
        draft.state()
        yield f"phases-{mode}-{cipher}", draft.lines


def sigma_scripts(source):
    """Keys whose σ has no inverse, for open and for begin; with a byte too many, the length comes first."""
    for cipher, order, m in (("mask-1", 3, 2), ("mask-1", 5, 9), ("mask-8", 3, 2), ("mask-16", 5, 4)):
        w = CIPHERS[cipher].w
        bad, draft = mask_key(w, root_of_one(w, order)), Draft(source, "tet", cipher, m * w, 2)
        draft.keys("open", bad, bad + b"\x00")
        draft.state()
        draft.keys("open")
        draft.keys("begin", bad, bad + b"\x00")
        draft.state()
        draft.keys("begin")
        draft.add("step")
        draft.keys("begin", bad)
        draft.keys("open", bad)
        draft.state()
        yield f"sigma-{cipher}-{m}", draft.lines


UNTAKEN = [
    ("tet", "aes-128", 15), ("tet", "xtea", 7), ("tet", "mask-1", 32), ("tet", "mask-16", 1), ("heh", "aes-128", 31),
    ("heh", "xtea", 31), ("heh", "mask-1", 32), ("heh", "mask-8", 9), ("heh", "mask-16", 520),
]


def untaken_size_scripts(source):
    """Sizes that no key of the mode fits: 5, then 6, and the volume stays closed."""
    for mode, cipher, size in UNTAKEN:
        draft = Draft(source, mode, cipher, size, 2)
        draft.keys("open")
        draft.keys("open", source.some(key_length(mode, cipher) + 1))
        draft.write(1)
        draft.keys("begin")
        draft.add("step")
        draft.state()
        yield f"untaken-{mode}-{cipher}-{size}", draft.lines


NO_SECTORS = [("tet", "aes-128", 16, 0), ("heh", "mask-1", 1, 0), ("tet", "xtea", 16, 15), ("heh", "mask-8", 9, 8)]


def no_sector_scripts(source):
    for mode, cipher, size, over in NO_SECTORS:
        draft = Draft(source, mode, cipher, size, 0, over)
        draft.keys("open")
        draft.keys("open", b"")
        draft.keys("begin")
        draft.add("step")
        draft.read(0, 1, 4294967295)
        draft.write(0)
        draft.write(0, 0)
        draft.state()
        yield f"no-sectors-{mode}-{cipher}-{over}", draft.lines


def left_over_scripts(source):
    for mode, cipher, size, over in (("tet", "aes-128", 31, 30), ("heh", "xtea", 16, 1), ("tet", "mask-1", 7, 6)):
        draft = Draft(source, mode, cipher, size, 2, over)
        draft.keys("open")
        draft.read(0, 1, 2)
        draft.write(2, over)
        draft.write(1)
        draft.state()
        draft.sweep()
        draft.state()
        yield f"left-over-{mode}-{cipher}", draft.lines


def image_size_scripts(source):
    draft = Draft(source, "heh", "mask-1", 0, 0, 3)
    draft.keys("open")
    draft.read(0, 2, 3)
    draft.write(2, 1)
    draft.write(2, 0)
    draft.state()
    yield "size-0-counts-as-1", draft.lines
    draft = Draft(source, "tet", "mask-8", 5000, 0, 4099)
    draft.keys("open")
    draft.read(0, 1)
    draft.write(0, 4096)
    draft.write(0, 4097)
    draft.keys("begin")
    draft.add("step", "show")
    yield "size-5000-counts-as-4096", draft.lines


def fault_list_scripts(source):
    """A list with 64 places, entered to the last; and a new image, whose list is empty."""
    lines = [f"image 1 {source.some(70).hex()}"]
    lines += [f"fault {n}" for n in (70, 4294967295, *range(69, 5, -1), 5, 0, 69, 6, 70)]
    lines += ["volume tet mask-1", "open 0110", "read 5", "read 6", "read 69", "read 70", "write 0 57", "write 69 57"]
    lines += ["write 69 -", "begin 0210", "step 6", "report", "show", "step 63", "report", "read 0", "read 69", "step", "report"]
    lines += ["step", "show"]
    yield "fault-list-full", lines
    lines = []
    for dead in ([1, 1, 0], []):
        draft = Draft(source, "heh", "mask-8", 8, 3, 0, dead)
        draft.state()
        draft.keys("open")
        draft.state()
        lines += draft.lines
    yield "fault-list-anew", lines


def sector_number_scripts(source):
    """HEH takes a sector's number modulo 2^8 where a block is one byte; TET takes it whole."""
    for mode, cipher, size in (("heh", "mask-1", 1), ("tet", "mask-1", 1), ("tet", "xtea", 8)):
        draft = Draft(source, mode, cipher, size, 259)
        draft.keys("open")
        draft.read(0, 1, 2, 3, 127, 128, 255, 256, 257, 258, 259)
        draft.write(1)
        draft.write(257)
        draft.read(1, 257)
        draft.keys("begin")
        draft.add("step 257", "report")
        draft.read(0, 1, 256, 257)
        draft.add("step 2", "report", "show")
        draft.read(1, 257)
        yield f"sector-numbers-{mode}-{cipher}", draft.lines


REOPENED = [("tet", "aes-128", 17, 3), ("heh", "mask-8", 16, 3), ("tet", "mask-1", 4, 2), ("heh", "xtea", 24, 1)]


def reopened_scripts(source):
    """What was stored, under a volume made anew: after a sweep or in the midst of one, with the old key and with the new."""
    for mode, cipher, size, steps in REOPENED:
        keys, draft = [source.key(mode, cipher) for _ in range(2)], Draft(source, mode, cipher, size, 3)
        draft.keys("open", keys[0])
        draft.write(1)
        draft.keys("begin", keys[1])
        draft.add(f"step {steps}")
        draft.read(0, 1, 2)
        draft.add("show")
        stored = script(draft.lines)[-1].split()[1]
        for key in keys:
            draft.add(f"image {size} {stored}", f"volume {mode} {cipher}")
            draft.keys("open", key)
            draft.state()
        yield f"reopened-{mode}-{cipher}-{steps}", draft.lines


def random_command(draft):
    source, n = draft.source, draft.source.below(draft.count + 1)
    choice = source.below(12)
    if choice < 3:
        draft.read(n)
    elif choice < 6:
        draft.write(n, None if choice < 5 else source.below(draft.size + 2))
    elif choice < 9:
        draft.add("step" if choice < 8 else f"step {1 + source.below(draft.count)}")
    elif choice < 11:
        draft.keys("begin" if choice == 9 else "open")
    else:
        draft.add("report", "show")


def random_scripts(source):
    for number in range(20):
        mode, cipher = KINDS[number % len(KINDS)]
        w, count = CIPHERS[cipher].w, 2 + source.below(4)
        size = w * (1 + source.below(3)) + (source.below(w) if mode == "tet" else 0)
        dead = [n for n in range(count) if source.below(5) == 0]
        draft = Draft(source, mode, cipher, size, count, source.below(size), dead)
        for turn in range(40):
            random_command(draft)
            if turn == 3:
                draft.keys("open")
        draft.state()
        yield f"random-{number}-{mode}-{cipher}", draft.lines


SCRIPTS = [
    story_script, sweep_scripts, sweeps_in_a_row_scripts, same_key_script, step_count_scripts, dead_scripts, phase_scripts,
    sigma_scripts, untaken_size_scripts, no_sector_scripts, left_over_scripts, image_size_scripts, fault_list_scripts,
    sector_number_scripts, reopened_scripts, random_scripts]


def script_lines(source):
    for scripts in SCRIPTS:
        for name, lines in scripts(source):
            answers = script(lines)
            assert not any(answer.startswith("?") for answer in answers)
            checked_by_law(lines, answers)
            yield f"script {name}"
            for line, answer in zip(lines, answers):
                yield f"> {line}"
                yield f"< {answer}"
            yield "end"


def table():
    source = Source(2)
    for line in job_lines(source):
        print(line)
    for line in script_lines(source):
        print(line)
