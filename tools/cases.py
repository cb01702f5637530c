#!/usr/bin/env python3
"""Writes the table of cases for the block rings, the block ciphers and the wide modes, with answers worked out independently:

    python3 tools/cases.py

makes crates/cases/stdin and crates/cases/stdout again. The answers are those of tools/reference.py, which checks itself first.
"""
import os
import random

from reference import (
    CIPHERS, MODES, MODULUS, PUBLISHED, Refused, WORKED, blocks_of, check, ciphered, hash_sum, inverse, multiply, power_sum, written)


def ring_cases(rng):
    for w in (1, 8, 16):
        bits = 8 * w
        block = lambda a: a.to_bytes(w, "big").hex()
        sample = [rng.getrandbits(bits) for _ in range(4)]
        edges = [0, 1, 2, 1 << (bits - 1), (1 << bits) - 1, MODULUS[w] ^ (1 << bits)] + sample
        for i, a in enumerate(edges):
            for b in edges[i:]:
                yield f"ring {w} multiply {block(a)} {block(b)}", block(multiply(w, a, b))
            yield f"ring {w} add {block(a)} {block(edges[-1])}", block(a ^ edges[-1])
        for a in range(256) if w == 1 else edges + [rng.getrandbits(bits) for _ in range(8)]:
            found = inverse(w, a)
            yield f"ring {w} inverse {block(a)}", "none" if found is None else block(found)
        for length in (0, 1, w - 1, w, w + 1, 2 * w + 3):
            data = bytes(rng.getrandbits(8) for _ in range(length))
            number = int.from_bytes(data, "big") % (1 << bits)
            for count in (0, 1, w - 1, w, w + 1, 2 * w + 3):
                out = (number % (1 << (8 * count))).to_bytes(count, "big")
                yield f"ring {w} bytes {written(data)} {count}", out.hex()
        for length in (0, w - 1, w, w + 1, 3 * w, 3 * w + w // 2, 5 * w):
            sector = bytes(rng.getrandbits(8) for _ in range(length))
            for tau in edges[:5] + sample[:1]:
                yield f"ring {w} hash {block(tau)} {written(sector)}", block(hash_sum(w, tau, blocks_of(sector, w)[0]))
        for m in (0, 1, 2, 31, 32, 256):
            for tau in edges[:5] + sample[:1]:
                yield f"ring {w} powers {block(tau)} {m}", block(power_sum(w, tau, m))


def cipher_cases(rng):
    for name, key, plain, enciphered in PUBLISHED:
        yield f"cipher {name} encipher {key} {plain}", enciphered
        yield f"cipher {name} decipher {key} {enciphered}", plain
    for name, (encipher, decipher, key_length, width) in CIPHERS.items():
        block = bytes(rng.getrandbits(8) for _ in range(width))
        for maps, direction in ((encipher, "encipher"), (decipher, "decipher")):
            yield f"cipher {name} {direction} new {block.hex()}", maps(bytes(key_length), block).hex()
            for _ in range(12):
                key = bytes(rng.getrandbits(8) for _ in range(key_length))
                block = bytes(rng.getrandbits(8) for _ in range(width))
                yield f"cipher {name} {direction} {key.hex()} {block.hex()}", maps(key, block).hex()
            for length in (0, key_length - 1, key_length + 1, 2 * key_length, 3 * key_length):
                if length != key_length:
                    yield f"cipher {name} {direction} {written(bytes(length))} {block.hex()}", "refused 5"


def mode_line(mode, name, back, size, key, tweak, sector):
    direction = "decipher" if back else "encipher"
    try:
        answer = ciphered(mode, name, back, size, key, tweak, sector).hex()
    except Refused as refused:
        answer = f"refused {refused.args[0]}"
    return f"mode {mode} {name} {direction} {size} {written(key)} {written(tweak)} {written(sector)}", answer


def mode_cases(rng):
    some = lambda count: bytes(rng.getrandbits(8) for _ in range(count))
    for mode, name, size, key, tweak, plain, enciphered in WORKED:
        key, tweak = bytes.fromhex(key), bytes.fromhex(tweak)
        yield mode_line(mode, name, False, size, key, tweak, bytes.fromhex(plain))
        yield mode_line(mode, name, True, size, key, tweak, bytes.fromhex(enciphered))
    for mode in MODES:
        for name, (_, _, key_length, w) in CIPHERS.items():
            longest = 31 if w == 1 else 4096
            keys = 2 * key_length if mode == "tet" else key_length
            plain_tweak = some(8) if mode == "tet" else some(w)
            slow = name == "aes-128"
            sizes = {0, w - 1, w, w + 1, 2 * w - 1, 2 * w, 3 * w + w // 2, longest + 1}
            sizes |= {512, 520} if w > 1 else {31, 30}
            sizes |= {longest} if not slow or mode == "tet" else set()
            sizes |= {longest - 1} if name in ("xtea", "mask-1") else set()
            for size in sorted(sizes):
                for back in (False, True):
                    if size <= 520 or back == (name == "xtea"):
                        yield mode_line(mode, name, back, size, some(keys), plain_tweak, some(size) if size <= longest else b"")
            for length in (0, 1, w - 1, w, w + 1, 4096, 4097):
                yield mode_line(mode, name, length % 2 == 0, 2 * w, some(keys), some(length), some(2 * w))
            for key in (b"", some(keys - 1), some(keys + 1), some(2 * keys)):
                yield mode_line(mode, name, False, longest + 1, key, plain_tweak, some(w))
            for length in (0, w, 2 * w - 1, 2 * w + 1, 3 * w):
                yield mode_line(mode, name, False, 2 * w, some(keys), some(w + 1 if mode == "heh" else 4097 if length == 0 else 8), some(length))
    yield mode_line("tet", "mask-1", False, 1, bytes.fromhex("f610"), b"", b"\x00")


def main():
    check()
    folder = os.path.join(os.path.dirname(os.path.abspath(__file__)), "..", "crates", "cases")
    rng = random.Random(1)
    rows = list(ring_cases(rng)) + list(cipher_cases(rng)) + list(mode_cases(rng))
    for name, column in (("stdin", 0), ("stdout", 1)):
        with open(os.path.join(folder, name), "w") as file:
            file.writelines(row[column] + "\n" for row in rows)


if __name__ == "__main__":
    main()
