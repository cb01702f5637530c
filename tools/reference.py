#!/usr/bin/env python3
"""An independent reference for the whole subject: rings, ciphers, modes, jobs, devices and volumes.

    python3 tools/reference.py job < RECORD         answers one job record, bytes in and bytes out
    python3 tools/reference.py script < COMMANDS    answers the console's commands, a line each
    python3 tools/reference.py table > crates/vectors/stdin    writes the table of cases (tools/vectors.py)
    python3 tools/reference.py check                only checks itself

Python's standard library alone, written from the published algorithms, slow and plain. Every run first checks itself on
published vectors and on cases worked by hand.
"""
import collections
import functools
import sys

# ---- Block rings: a block is a number, its first byte the highest

MODULUS = {1: (1 << 8) | 0x1B, 8: (1 << 64) | 0x1B, 16: (1 << 128) | 0x87}
LONGEST = {1: 31, 8: 4096, 16: 4096}
ALPHA = 2


def carryless(a, b):
    product = 0
    while b:
        if b & 1:
            product ^= a
        a <<= 1
        b >>= 1
    return product


def divided(a, b):
    """Quotient and remainder of polynomials."""
    quotient = 0
    while a.bit_length() >= b.bit_length():
        shift = a.bit_length() - b.bit_length()
        quotient ^= 1 << shift
        a ^= b << shift
    return quotient, a


def multiply(w, a, b):
    return divided(carryless(a, b), MODULUS[w])[1]


def inverse(w, a):
    """By Euclid's algorithm; None where there is none."""
    r0, r1, s0, s1 = MODULUS[w], a, 0, 1
    while r1:
        quotient, rest = divided(r0, r1)
        r0, r1, s0, s1 = r1, rest, s1, s0 ^ carryless(quotient, s1)
    return divided(s0, MODULUS[w])[1] if r0 == 1 else None


def hash_sum(w, tau, blocks):
    """H(τ; B_1..B_m) = B_1·τ^m + B_2·τ^(m−1) + … + B_m·τ"""
    total, power = 0, tau
    for block in reversed(blocks):
        total ^= multiply(w, block, power)
        power = multiply(w, power, tau)
    return total


def power_sum(w, tau, m):
    """σ = 1 + τ + … + τ^m"""
    total, power = 1, 1
    for _ in range(m):
        power = multiply(w, power, tau)
        total ^= power
    return total


def block_of(data):
    return int.from_bytes(data, "big")


def blocks_of(data, w):
    """The whole blocks, and the bytes left over."""
    m = len(data) // w
    return [block_of(data[i * w:(i + 1) * w]) for i in range(m)], data[m * w:]


def bytes_of(blocks, w):
    return b"".join(block.to_bytes(w, "big") for block in blocks)


def xor(a, b):
    """Of two rows, as far as the shorter goes."""
    return [x ^ y for x, y in zip(a, b)]


# ---- Block ciphers

@functools.lru_cache(maxsize=None)
def byte_product(a, b):
    return multiply(1, a, b)


def substitution(a):
    """FIPS 197, 5.1.1: the inverse, with 00 kept, then the affine map."""
    b = inverse(1, a) or 0
    rotated = [((b << k) | (b >> (8 - k))) & 255 for k in range(5)]
    return rotated[0] ^ rotated[1] ^ rotated[2] ^ rotated[3] ^ rotated[4] ^ 0x63


SBOX = [substitution(a) for a in range(256)]
INVERSE_SBOX = [SBOX.index(a) for a in range(256)]


@functools.lru_cache(maxsize=None)
def round_keys(key):
    """FIPS 197, 5.2: the key expansion, as eleven keys of sixteen bytes."""
    words = [list(key[4 * i:4 * i + 4]) for i in range(4)]
    rcon = 1
    for i in range(4, 44):
        word = words[i - 1]
        if i % 4 == 0:
            word = [SBOX[b] for b in word[1:] + word[:1]]
            word[0] ^= rcon
            rcon = byte_product(rcon, 2)
        words.append(xor(words[i - 4], word))
    return [sum(words[4 * r:4 * r + 4], []) for r in range(11)]


def shift_rows(state, places):
    """Row r goes r columns to the left (places 1) or to the right (places −1)."""
    return [state[(i + 4 * places * (i % 4)) % 16] for i in range(16)]


def mix_columns(state, row):
    out = []
    for i in range(16):
        r, column = i % 4, state[i - i % 4:i - i % 4 + 4]
        products = [byte_product(row[(k - r) % 4], column[k]) for k in range(4)]
        out.append(products[0] ^ products[1] ^ products[2] ^ products[3])
    return out


def aes_encipher(key, block):
    keys = round_keys(key)
    state = xor(block, keys[0])
    for r in range(1, 11):
        state = shift_rows([SBOX[a] for a in state], 1)
        if r < 10:
            state = mix_columns(state, [2, 3, 1, 1])
        state = xor(state, keys[r])
    return bytes(state)


def aes_decipher(key, block):
    keys = round_keys(key)
    state = list(block)
    for r in range(10, 0, -1):
        state = xor(state, keys[r])
        if r < 10:
            state = mix_columns(state, [14, 11, 13, 9])
        state = [INVERSE_SBOX[a] for a in shift_rows(state, -1)]
    return bytes(xor(state, keys[0]))


WORD = 1 << 32
DELTA = 0x9E3779B9


def words_of(data):
    return [block_of(data[i:i + 4]) for i in range(0, len(data), 4)]


def xtea_term(v, s, k):
    """F(v) xor (s + k), F(v) = ((v << 4) xor (v >> 5)) + v"""
    return ((((v << 4) % WORD ^ v >> 5) + v) ^ (s + k)) % WORD


def xtea_encipher(key, block):
    k, (v0, v1), s = words_of(key), words_of(block), 0
    for _ in range(32):
        v0 = (v0 + xtea_term(v1, s, k[s % 4])) % WORD
        s = (s + DELTA) % WORD
        v1 = (v1 + xtea_term(v0, s, k[(s >> 11) % 4])) % WORD
    return bytes_of([v0, v1], 4)


def xtea_decipher(key, block):
    k, (v0, v1), s = words_of(key), words_of(block), 32 * DELTA % WORD
    for _ in range(32):
        v1 = (v1 - xtea_term(v0, s, k[(s >> 11) % 4])) % WORD
        s = (s - DELTA) % WORD
        v0 = (v0 - xtea_term(v1, s, k[s % 4])) % WORD
    return bytes_of([v0, v1], 4)


def mask(key, block):
    return bytes(xor(key, block))


Cipher = collections.namedtuple("Cipher", "encipher decipher key_length w")

CIPHERS = {
    "aes-128": Cipher(aes_encipher, aes_decipher, 16, 16),
    "xtea": Cipher(xtea_encipher, xtea_decipher, 16, 8),
    "mask-1": Cipher(mask, mask, 1, 1),
    "mask-8": Cipher(mask, mask, 8, 8),
    "mask-16": Cipher(mask, mask, 16, 16),
}


class Keyed:
    """A cipher under a key: E_K and D_K on blocks."""

    def __init__(self, cipher, key):
        self.cipher, self.key = cipher, key

    def encipher(self, block):
        return block_of(self.cipher.encipher(self.key, block.to_bytes(self.cipher.w, "big")))

    def decipher(self, block):
        return block_of(self.cipher.decipher(self.key, block.to_bytes(self.cipher.w, "big")))


# ---- Wide modes

class Refused(Exception):
    """A call sent back; its argument is the number."""


def pad(data, w):
    """The bytes, 80, then zeros up to w bytes."""
    return block_of(data + b"\x80" + bytes(w - 1 - len(data)))


def doubles(w, block, count):
    """The block times α^0, α^1, …"""
    out = []
    for _ in range(count):
        out.append(block)
        block = multiply(w, block, ALPHA)
    return out


class Tet:
    """Blank, or with a key for one sector size."""

    keys = 2

    def __init__(self, cipher):
        self.cipher, self.w, self.size = cipher, cipher.w, None

    def set_key(self, key, size):
        w, length = self.w, self.cipher.key_length
        if len(key) != 2 * length:
            raise Refused(5)
        if not w <= size <= LONGEST[w]:
            raise Refused(6)
        one, two = Keyed(self.cipher, key[:length]), Keyed(self.cipher, key[length:])
        tau = one.encipher(multiply(w, ALPHA, one.encipher(0)))  # τ = E_K1(α·E_K1(0))
        sigma = power_sum(w, tau, size // w)
        if inverse(w, sigma) is None:
            raise Refused(7)
        self.size, self.one, self.two, self.tau = size, one, two, tau
        self.sigma, self.inverse_sigma = sigma, inverse(w, sigma)

    def tweak_of(self, sector_number):
        return sector_number.to_bytes(8, "big")

    def offset(self, tweak):
        """β, from V_i = E_K1(V_(i−1) + T_i) and E_K1(α·X + V + T_k) or E_K1(α²·X + V + pad(T_k))"""
        w, encipher = self.w, self.one.encipher
        x1 = multiply(w, ALPHA, encipher(8 * self.size))
        x2 = multiply(w, ALPHA, x1)
        parts = [tweak[i:i + w] for i in range(0, len(tweak), w)] or [b""]
        v = 0
        for part in parts[:-1]:
            v = encipher(v ^ block_of(part))
        whole = len(parts[-1]) == w
        return encipher(x1 ^ v ^ block_of(parts[-1]) if whole else x2 ^ v ^ pad(parts[-1], w))

    def padded(self, tail):
        return pad(tail, self.w) if tail else 0

    def blended(self, blocks, tail):
        """P_i + H(τ;P)·(1/σ) + p"""
        h = hash_sum(self.w, self.tau, blocks)
        added = multiply(self.w, h, self.inverse_sigma) ^ self.padded(tail)
        return [block ^ added for block in blocks]

    def unblended(self, blocks, tail):
        """C_i + H(τ;C) + σ·q"""
        h = hash_sum(self.w, self.tau, blocks)
        added = h ^ multiply(self.w, self.sigma, self.padded(tail))
        return [block ^ added for block in blocks]

    def through(self, maps, blocks, tail):
        """The map on each block; with a tail, twice on the last, and the first of the two is added to the tail."""
        blocks = [maps(block) for block in blocks]
        if tail:
            u = blocks[-1]
            blocks[-1] = maps(u)
            tail = bytes(xor(tail, u.to_bytes(self.w, "big")))
        return blocks, tail

    def worked(self, tweak, sector, back):
        """Blend, offset, cipher, offset, blend."""
        if self.size != len(sector):
            raise Refused(2)
        if len(tweak) > 4096:
            raise Refused(12)
        blend, maps = (self.unblended, self.two.decipher) if back else (self.blended, self.two.encipher)
        blocks, tail = blocks_of(sector, self.w)
        offsets = doubles(self.w, self.offset(tweak), len(blocks))  # α^(i−1)·β
        blocks, tail = self.through(maps, xor(blend(blocks, tail), offsets), tail)
        return bytes_of(blend(xor(blocks, offsets), tail), self.w) + tail

    def encipher(self, tweak, sector):
        return self.worked(tweak, sector, False)

    def decipher(self, tweak, sector):
        return self.worked(tweak, sector, True)


class Heh:
    """Blank, or with a key for one sector size."""

    keys = 1

    def __init__(self, cipher):
        self.cipher, self.w, self.size = cipher, cipher.w, None

    def set_key(self, key, size):
        if len(key) != self.cipher.key_length:
            raise Refused(5)
        if not self.w <= size <= LONGEST[self.w] or size % self.w:
            raise Refused(6)
        self.size, self.keyed = size, Keyed(self.cipher, key)

    def tweak_of(self, sector_number):
        return (sector_number % (1 << 8 * self.w)).to_bytes(self.w, "big")

    def hash_keys(self, tweak, sector):
        """τ = E_K(T), β_1 = E_K(τ + L), β_2 = α·β_1"""
        if self.size != len(sector):
            raise Refused(2)
        if len(tweak) != self.w:
            raise Refused(12)
        tau = self.keyed.encipher(block_of(tweak))
        beta1 = self.keyed.encipher(tau ^ 8 * self.size)
        return tau, beta1, multiply(self.w, ALPHA, beta1)

    def psi(self, tau, beta, x):
        """Y = X_m + H(τ; X_1..X_(m−1)), Z_i = X_i + Y + α^i·β for i < m, Z_m = Y + β"""
        y = x[-1] ^ hash_sum(self.w, tau, x[:-1])
        return [b ^ y ^ o for b, o in zip(x[:-1], doubles(self.w, beta, len(x))[1:])] + [y ^ beta]

    def psi_back(self, tau, beta, z):
        """Y = Z_m + β, X_i = Z_i + Y + α^i·β for i < m, X_m = Y + H(τ; X_1..X_(m−1))"""
        y = z[-1] ^ beta
        front = [b ^ y ^ o for b, o in zip(z[:-1], doubles(self.w, beta, len(z))[1:])]
        return front + [y ^ hash_sum(self.w, tau, front)]

    def encipher(self, tweak, sector):
        tau, beta1, beta2 = self.hash_keys(tweak, sector)
        middle = [self.keyed.encipher(b) for b in self.psi(tau, beta1, blocks_of(sector, self.w)[0])]
        return bytes_of(self.psi_back(tau, beta2, middle), self.w)

    def decipher(self, tweak, sector):
        tau, beta1, beta2 = self.hash_keys(tweak, sector)
        middle = [self.keyed.decipher(b) for b in self.psi(tau, beta2, blocks_of(sector, self.w)[0])]
        return bytes_of(self.psi_back(tau, beta1, middle), self.w)


MODES = {"tet": Tet, "heh": Heh}


KINDS = [(mode, cipher) for mode in MODES for cipher in CIPHERS]


def key_length(mode, cipher):
    return MODES[mode].keys * CIPHERS[cipher].key_length


def new_mode(mode, cipher):
    return MODES[mode](CIPHERS[cipher])


def ciphered(mode, cipher, back, size, key, tweak, sector):
    """One sector by a mode that is new."""
    wide = new_mode(mode, cipher)
    wide.set_key(key, size)
    return (wide.decipher if back else wide.encipher)(tweak, sector)


# ---- Jobs

PLACE, RECORD = 4099, 16384
MODE_CODES = {1: "tet", 2: "heh"}
CIPHER_CODES = {1: "aes-128", 2: "xtea", 3: "mask-1", 4: "mask-8", 5: "mask-16"}
DIRECTION_CODES = {0: False, 1: True}
CODES = [MODE_CODES, CIPHER_CODES, DIRECTION_CODES]


def cut(data, count):
    """The first bytes and the rest; 13 if there are fewer."""
    if len(data) < count:
        raise Refused(13)
    return data[:count], data[count:]


def field(bit, data):
    """The field of this bit at the front of the data, and the rest."""
    if bit < 3:
        code, data = cut(data, 1)
        if code[0] not in CODES[bit]:
            raise Refused(13)
        return CODES[bit][code[0]], data
    length, data = cut(data, 2)
    return cut(data, block_of(length))


def parsed(record):
    """The six fields of a record, or 13."""
    if len(record) > RECORD:
        raise Refused(13)
    (bits,), data = cut(record, 1)
    fields = ["tet", "aes-128", False, None, b"", None]
    for bit in range(6):
        if bits >> bit & 1:
            fields[bit], data = field(bit, data)
    if bits > 63 or data or fields[3] is None or fields[5] is None:
        raise Refused(13)
    return fields


def worked_job(record):
    mode, cipher, back, key, tweak, sector = parsed(record)
    return ciphered(mode, cipher, back, len(sector), key, tweak, sector)


def job(record, place=PLACE):
    """The answer's bytes; refused with 14 if the place for them is short."""
    if place < PLACE:
        raise Refused(14)
    try:
        sector = worked_job(record)
    except Refused as refused:
        return bytes([1, refused.args[0]])
    return b"\x02" + len(sector).to_bytes(2, "big") + sector


# ---- Sector devices

class Fault(Exception):
    """A read or write sent back; its arguments are the number, the sector and the depth."""


def passed_up(fault):
    """A standing fault, seen one layer higher."""
    if fault is None:
        return None
    number, sector, depth = fault.args
    return Fault(number, sector, min(depth + 1, 255))


class Device:
    """A device has a size, a count, the standing fault of each sector or None, and the bytes of live ones."""

    def check(self, n, length):
        if n >= self.count:
            raise Fault(1, n, 0)
        if length != self.size:
            raise Fault(2, n, 0)
        if self.standing(n):
            raise self.standing(n)

    def read(self, n, length):
        self.check(n, length)
        return self.fetch(n)

    def write(self, n, data):
        self.check(n, len(data))
        self.store(n, data)


class Image(Device):
    def __init__(self, size, data):
        self.size, self.data = min(max(size, 1), 4096), bytearray(data)
        self.count = min(len(data) // self.size, 4294967295)

    def standing(self, n):
        return None

    def fetch(self, n):
        return bytes(self.data[n * self.size:(n + 1) * self.size])

    def store(self, n, data):
        self.data[n * self.size:(n + 1) * self.size] = data


class FaultList(Device):
    def __init__(self, device):
        self.device, self.size, self.count, self.dead = device, device.size, device.count, []

    def enter(self, n):
        if n >= self.count:
            raise Refused(1)
        if n not in self.dead:
            if len(self.dead) == 64:
                raise Refused(15)
            self.dead.append(n)

    def standing(self, n):
        return Fault(3, n, 0) if n in self.dead else passed_up(self.device.standing(n))

    def fetch(self, n):
        return self.device.read(n, self.size)

    def store(self, n, data):
        self.device.write(n, data)


CLOSED, OPEN, SWEEPING = 0, 1, 2


class Volume(Device):
    """A device enciphered by the current mode; during a sweep, below the mark by the next one."""

    def __init__(self, device, current, following):
        self.device, self.size, self.count = device, device.size, device.count
        self.current, self.following, self.phase, self.mark = current, following, CLOSED, 0

    def standing(self, n):
        return Fault(4, n, 0) if self.phase == CLOSED else passed_up(self.device.standing(n))

    def mode_at(self, n):
        return self.following if self.phase == SWEEPING and n < self.mark else self.current

    def fetch(self, n):
        mode = self.mode_at(n)
        return mode.decipher(mode.tweak_of(n), self.device.read(n, self.size))

    def store(self, n, data):
        mode = self.mode_at(n)
        self.device.write(n, mode.encipher(mode.tweak_of(n), data))

    def open(self, key):
        if self.phase != CLOSED:
            raise Refused(8)
        if self.count == 0:
            raise Refused(11)
        self.current.set_key(key, self.size)
        self.phase = OPEN

    def begin(self, key):
        if self.phase == CLOSED:
            raise Refused(4)
        if self.phase == SWEEPING:
            raise Refused(10)
        self.following.set_key(key, self.size)
        self.phase, self.mark = SWEEPING, 0

    def step(self):
        if self.phase == CLOSED:
            raise Refused(4)
        if self.phase == OPEN:
            raise Refused(9)
        n, new = self.mark, self.following
        if self.standing(n) is None:
            self.device.write(n, new.encipher(new.tweak_of(n), self.fetch(n)))
        self.mark = n + 1
        if self.mark == self.count:
            self.current, self.following = self.following, self.current
            self.phase, self.mark = OPEN, 0

    def report(self):
        return self.phase, self.mark


# ---- The console

class Unreadable(Exception):
    """A line that is no command here; its argument says why."""


def read_number(word):
    if not (word.isascii() and word.isdigit() and int(word) < WORD):
        raise Unreadable(f"{word} is no number below {WORD}")
    return int(word)


def read_bytes(word):
    if word == "-":
        return b""
    if len(word) % 2 or any(c not in "0123456789abcdefABCDEF" for c in word):
        raise Unreadable(f"{word} is not in hexadecimal")
    return bytes.fromhex(word)


def read_name(table):
    def read(word):
        if word not in table:
            raise Unreadable(f"{word} is none of {' '.join(table)}")
        return word
    return read


def written(data):
    return data.hex() or "-"


# each command with how its arguments are read
COMMANDS = {
    "image": [read_number, read_bytes],
    "load": [read_number, str],
    "fault": [read_number],
    "volume": [read_name(MODES), read_name(CIPHERS)],
    "open": [read_bytes],
    "read": [read_number],
    "write": [read_number, read_bytes],
    "begin": [read_bytes],
    "step": [read_number],
    "report": [],
    "show": [],
    "save": [str],
    "help": [],
}

HELP = """image SIZE HEX
load SIZE PATH
fault N
volume tet|heh aes-128|xtea|mask-1|mask-8|mask-16
open KEY
read N
write N HEX
begin KEY
step [COUNT]
report
show
save PATH"""


def command(line):
    """The word of a command and its arguments."""
    word, *words = line.split() or [""]
    if word not in COMMANDS:
        raise Unreadable("no such command; try help")
    if word == "step" and not words:
        words = ["1"]
    if len(words) != len(COMMANDS[word]):
        raise Unreadable(f"{word} is followed by {len(COMMANDS[word])} words")
    return word, [read(argument) for read, argument in zip(COMMANDS[word], words)]


class Console:
    """An image, the fault list over it and the volume over that, as far as they were made."""

    def __init__(self):
        self.base = self.faults = self.top = None

    def answer(self, line):
        try:
            word, arguments = command(line)
            return getattr(self, word)(*arguments)
        except Unreadable as unreadable:
            return f"? {unreadable.args[0]}"
        except Refused as refused:
            return f"refused {word} {refused.args[0]}"
        except Fault as fault:
            return "fault {} sector {} depth {}".format(*fault.args)

    def device(self):
        if self.base is None:
            raise Unreadable("there is no image")
        return self.base

    def made(self):
        if self.top is None:
            raise Unreadable("there is no volume")
        return self.top

    def image(self, size, data):
        self.base, self.top = Image(size, data), None
        self.faults = FaultList(self.base)
        return "ok"

    def load(self, size, path):
        try:
            with open(path, "rb") as file:
                return self.image(size, file.read())
        except OSError as error:
            raise Unreadable(f"{path}: {error.strerror}")

    def fault(self, n):
        self.device()
        if self.top is not None:
            raise Unreadable("faults come before the volume")
        self.faults.enter(n)
        return "ok"

    def volume(self, mode, cipher):
        self.device()
        self.top = Volume(self.faults, new_mode(mode, cipher), new_mode(mode, cipher))
        return "ok"

    def open(self, key):
        self.made().open(key)
        return "ok"

    def read(self, n):
        return f"ok {written(self.made().read(n, self.top.size))}"

    def write(self, n, data):
        self.made().write(n, data)
        return "ok"

    def begin(self, key):
        self.made().begin(key)
        return "ok"

    def step(self, count):
        self.made()
        for _ in range(count):
            self.top.step()
        return "ok"

    def report(self):
        return "report {} {}".format(*self.made().report())

    def show(self):
        return f"ok {written(self.device().data)}"

    def save(self, path):
        try:
            with open(path, "wb") as file:
                file.write(self.device().data)
        except OSError as error:
            raise Unreadable(f"{path}: {error.strerror}")
        return "ok"

    def help(self):
        return HELP


def script(lines):
    """The answers to the lines, one after the other."""
    console = Console()
    return [console.answer(line) for line in lines]


# ---- The law of a volume, over what was asked and answered

class Law:
    """What the accepted calls say of a volume, without its steps: a sector's bytes are those of its last accepted write, else
    what the opening key deciphers from those stored at first. A sweep's key serves below its mark, the number of its accepted
    steps; elsewhere that of the last sweep which is over, else the opening key."""

    def __init__(self):
        self.dead, self.opening, self.sweeps, self.writes = set(), None, [], {}

    def ciphered(self, key, n, data, back):
        wide = new_mode(self.mode, self.cipher)
        wide.set_key(key, self.image.size)
        return (wide.decipher if back else wide.encipher)(wide.tweak_of(n), data)

    def mark(self):
        """None unless a sweep is under way."""
        steps = self.sweeps[-1][1] if self.sweeps else self.image.count
        return steps if steps < self.image.count else None

    def key_of(self, n):
        if self.mark() is not None and n < self.mark():
            return self.sweeps[-1][0]
        over = [key for key, steps in self.sweeps if steps == self.image.count]
        return over[-1] if over else self.opening

    def live(self, n):
        return self.opening is not None and n < self.image.count and n not in self.dead

    def plain(self, n):
        return self.writes.get(n) or self.ciphered(self.opening, n, self.image.fetch(n), True)

    def stored(self, n):
        if n in self.dead or self.opening is None:
            return self.image.fetch(n)
        return self.ciphered(self.key_of(n), n, self.plain(n), False)

    def shown(self):
        image = self.image
        return b"".join(self.stored(n) for n in range(image.count)) + image.data[image.count * image.size:]

    def reported(self):
        if self.opening is None:
            return "report 0 0"
        return "report 1 0" if self.mark() is None else f"report 2 {self.mark()}"

    def accept(self, word, arguments):
        if word == "image":
            self.__init__()
            self.image = Image(*arguments)
        elif word == "fault":
            self.dead.add(*arguments)
        elif word == "volume":
            self.mode, self.cipher = arguments
        elif word == "open":
            self.opening, = arguments
        elif word == "write":
            self.writes[arguments[0]] = arguments[1]
        elif word == "begin":
            self.sweeps.append([arguments[0], 0])

    def stepped(self, count, answer):
        """Of a count of steps, those are accepted that the sweep still has."""
        left = 0 if self.mark() is None else self.image.count - self.mark()
        if left:
            self.sweeps[-1][1] += min(count, left)
        assert (answer == "ok") == (count <= left)

    def check(self, line, answer):
        word, arguments = command(line)
        if word == "step":
            self.stepped(*arguments, answer)
        elif word == "report":
            assert answer == self.reported()
        elif word == "show":
            assert answer == f"ok {written(self.shown())}"
        elif word == "read":
            live = self.live(*arguments)
            assert answer == f"ok {written(self.plain(*arguments))}" if live else answer.startswith("fault")
        elif answer == "ok":
            self.accept(word, arguments)


def checked_by_law(lines, answers):
    law = Law()
    for line, answer in zip(lines, answers):
        law.check(line, answer)


# ---- Published vectors and cases worked by hand

COUNTING = bytes(range(16)).hex()

# FIPS 197, appendices B and C.1, and the vectors that are published for XTEA
PUBLISHED = [
    ("aes-128", "2b7e151628aed2a6abf7158809cf4f3c", "3243f6a8885a308d313198a2e0370734", "3925841d02dc09fbdc118597196a0b32"),
    ("aes-128", COUNTING, "00112233445566778899aabbccddeeff", "69c4e0d86a7b0430d8cdb78070b4c55a"),
    ("xtea", COUNTING, "4142434445464748", "497df3d072612cb5"),
    ("xtea", COUNTING, "4141414141414141", "e78f2d13744341d8"),
    ("xtea", COUNTING, "5a5b6e278948d77f", "4141414141414141"),
    ("xtea", "00" * 16, "4142434445464748", "a0390589f8b8efa5"),
    ("xtea", "00" * 16, "4141414141414141", "ed23375a821a8c2d"),
    ("xtea", "00" * 16, "70e1225d6e4e7655", "4141414141414141"),
]

# mode, cipher, size, key, tweak, plain, enciphered
WORKED = [
    ("tet", "mask-1", 1, "0110", "", "57", "5b"),
    ("tet", "mask-1", 2, "f610", "00", "0102", "1112"),
    ("tet", "mask-8", 9, "0000000000000001" + "00" * 8, "00" * 8, "000000000000000200", "80c000000000000d00"),
    ("heh", "mask-1", 2, "01", "05", "0102", "4023"),
]

# the same, each turned by a slip: α and α² exchanged, a length in bytes. With zero keys τ = 0, σ = 1, X = L = 0078; then
# β = 80000000000001E0 for no tweak and 00000000000000F0 for eight zero bytes, and U = β + 0080 is added to the tail
TOLD_APART = [
    ("tet", "mask-8", 15, "00" * 16, "", "00" * 15, "8000000000000100" + "80000000000001"),
    ("tet", "mask-8", 15, "00" * 16, "00" * 8, "00" * 15, "00" * 15),
]

# a key changed during use
STORY = [
    ("image 1 000000", "ok"), ("volume tet mask-1", "ok"), ("open 0110", "ok"),
    ("write 1 57", "ok"), ("show", "ok 005b00"),
    ("begin 0210", "ok"), ("step", "ok"), ("show", "ok a85b00"),
    ("write 0 01", "ok"), ("show", "ok 945b00"), ("read 1", "ok 57"), ("report", "report 2 1"),
    ("step 2", "ok"), ("show", "ok 94c6a8"), ("read 2", "ok 20"), ("step", "refused step 9"), ("report", "report 1 0"),
]

# refusals and a dead sector
FAULTS = [
    ("image 1 000000ee", "ok"), ("fault 4", "refused fault 1"), ("fault 1", "ok"), ("fault 3", "ok"), ("volume tet mask-1", "ok"),
    ("read 1", "fault 4 sector 1 depth 0"), ("step", "refused step 4"), ("begin 0210", "refused begin 4"), ("report", "report 0 0"),
    ("open 01", "refused open 5"), ("open f610", "refused open 7"), ("open 0110", "ok"), ("open -", "refused open 8"),
    ("read 1", "fault 3 sector 1 depth 1"), ("write 3 -", "fault 2 sector 3 depth 0"), ("write 4 -", "fault 1 sector 4 depth 0"),
    ("begin -", "refused begin 5"), ("begin 0210", "ok"), ("begin -", "refused begin 10"), ("step 2", "ok"), ("report", "report 2 2"),
    ("show", "ok a80000ee"), ("step 3", "refused step 9"), ("show", "ok a800a8ee"), ("read 3", "fault 3 sector 3 depth 1"),
]

# a record and its answer
JOB = "2a0300020110000157", "0200015b"


def refusal(call, *arguments):
    """The number that a call is refused with, or None."""
    try:
        call(*arguments)
    except Refused as refused:
        return refused.args[0]


def check_rings():
    assert multiply(1, 0x57, 0x83) == 0xC1
    assert inverse(1, 0x02) == 0x8D and inverse(1, 0x00) is None
    for w in MODULUS:
        a = block_of(bytes(range(0x91, 0x91 + w)))
        assert multiply(w, a, inverse(w, a)) == 1
        assert hash_sum(w, a, [1, 1, 1]) ^ 1 == power_sum(w, a, 3)
        assert hash_sum(w, ALPHA, [1, 0, 0]) == 8 and hash_sum(w, ALPHA, [0, 0, 1]) == 2


def check_ciphers():
    for name, *rows in PUBLISHED:
        key, plain, enciphered = map(bytes.fromhex, rows)
        assert CIPHERS[name].encipher(key, plain) == enciphered
        assert CIPHERS[name].decipher(key, enciphered) == plain


def check_modes():
    for mode, cipher, size, *rows in WORKED + TOLD_APART:
        key, tweak, plain, enciphered = map(bytes.fromhex, rows)
        assert ciphered(mode, cipher, False, size, key, tweak, plain) == enciphered
        assert ciphered(mode, cipher, True, size, key, tweak, enciphered) == plain
    assert refusal(new_mode("tet", "mask-1").set_key, b"\xf6\x10", 1) == 7
    assert new_mode("tet", "mask-1").tweak_of(258) == bytes([0, 0, 0, 0, 0, 0, 1, 2])
    assert new_mode("heh", "mask-1").tweak_of(258) == bytes([2])
    for cipher, (_, _, length, w) in CIPHERS.items():
        for size in (0, 1, 31, 32, 4095, 4096, 4097):
            tet, heh = new_mode("tet", cipher), new_mode("heh", cipher)
            taken = w <= size <= LONGEST[w]
            assert refusal(tet.set_key, bytes(2 * length), size) == (None if taken else 6)
            assert refusal(heh.set_key, bytes(length), size) == (None if taken and size % w == 0 else 6)


def check_round_trips():
    for mode, cipher in KINDS:
        w = CIPHERS[cipher].w
        key, tweak, sector = bytes(range(1, key_length(mode, cipher) + 1)), bytes(range(w)), bytes(range(5 * w))
        for data in (sector, sector[:4 * w + w // 2]) if mode == "tet" else (sector,):
            there = ciphered(mode, cipher, False, len(data), key, tweak, data)
            assert there != data and ciphered(mode, cipher, True, len(data), key, tweak, there) == data


def check():
    check_rings()
    check_ciphers()
    check_modes()
    check_round_trips()
    for story in (STORY, FAULTS):
        lines, answers = zip(*story)
        assert script(lines) == list(answers)
        checked_by_law(lines, answers)
    assert job(bytes.fromhex(JOB[0])).hex() == JOB[1]
    assert refusal(job, bytes.fromhex(JOB[0]), PLACE - 1) == 14


# ---- The program

def main(arguments):
    check()
    if arguments == ["job"]:
        sys.stdout.buffer.write(job(sys.stdin.buffer.read()))
    elif arguments == ["script"]:
        console = Console()
        for line in sys.stdin:
            print(console.answer(line))
    elif arguments == ["table"]:
        import vectors
        vectors.table()
    elif arguments != ["check"]:
        sys.exit(__doc__)


if __name__ == "__main__":
    main(sys.argv[1:])
