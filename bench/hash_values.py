"""The values of the hash functions, computed apart from the program.

The stream is the block function of RFC 8439 with a 64-bit block counter, at stream 0, under the seed in
eight little-endian bytes and 24 zero bytes. Running the file first checks the block function against the
RFC's own vector (section 2.3.2), and then prints the rows of the tables in the tests of hash_family.
"""

import struct

PRIME = 2**61 - 1
MASK = 0xFFFFFFFF

KEY_V4 = [4, 0x0A000001, 0, 0, 0, 0x0A010002, 0, 0, 0, 1000 * 65536 + 53, 17]
KEY_V6 = [6, 0x20010DB8, 0, 0, 1, 0x20010DB8, 0, 0, 2, 1000 * 65536 + 53, 17]
SEEDS = [0, 1, 2**64 - 1]
EVEN_SEEDS = [2, 4, 1000, 2**32, 2**63]


def rotated(x, k):
    return (x << k | x >> (32 - k)) & MASK


def quarter_round(s, a, b, c, d):
    for x, y, z, k in ((a, b, d, 16), (c, d, b, 12), (a, b, d, 8), (c, d, b, 7)):
        s[x] = (s[x] + s[y]) & MASK
        s[z] = rotated(s[z] ^ s[x], k)


def block(key, tail):
    start = list(struct.unpack("<4I", b"expand 32-byte k")) + key + tail
    s = list(start)
    for _ in range(10):
        for i in range(4):
            quarter_round(s, i, 4 + i, 8 + i, 12 + i)
        for i in range(4):
            quarter_round(s, i, 4 + (i + 1) % 4, 8 + (i + 2) % 4, 12 + (i + 3) % 4)
    return [(x + y) & MASK for x, y in zip(s, start)]


def word(seed, n):
    key = list(struct.unpack("<8I", struct.pack("<Q", seed) + bytes(24)))
    counter = n // 16
    return block(key, [counter & MASK, counter >> 32, 0, 0])[n % 16]


def hash_value(seed, function, key):
    def coefficient(i):
        at = 24 * function + 2 * i
        return (word(seed, at) + 2**32 * word(seed, at + 1)) % PRIME

    return (coefficient(0) + sum(coefficient(i + 1) * key[i] for i in range(11))) % PRIME


def sample(seed, level, key):
    return hash_value(seed, level - 1, key) % 2 == 1


def bucket(seed, level, row, width, key):
    return hash_value(seed, 16 + 2 * (7 * level + row), key) % width


def sign(seed, level, row, key):
    return 1 if hash_value(seed, 17 + 2 * (7 * level + row), key) % 2 == 1 else -1


def live(seed, level, key):
    return all(sample(seed, j, key) for j in range(1, level + 1))


def check_rfc_vector():
    key = list(struct.unpack("<8I", bytes(range(32))))
    found = block(key, [1, 0x09000000, 0x4A000000, 0])
    assert found[:2] == [0xE4E7F110, 0x15593BD1] and found[15] == 0x4E3C50A2, "not ChaCha20"


def text(value):
    return str(value).lower() if isinstance(value, bool) else str(value)


def main():
    check_rfc_vector()
    for seed in SEEDS:
        for name, key in (("IPv4", KEY_V4), ("IPv6", KEY_V6)):
            top = max(j for j in range(17) if live(seed, j, key))
            samples = [sample(seed, j, key) for j in (1, 2, 9, 16)]
            buckets = [bucket(seed, j, r, w, key) for j, r, w in ((0, 0, 16), (3, 4, 1024), (16, 6, 2048))]
            signs = [sign(seed, j, r, key) for j, r in ((0, 0), (3, 4), (16, 6))]
            lives = [live(seed, j, key) for j in (0, 1, 2, 3)]
            print(seed, name, "highest live level", top)
            for values in (samples, buckets, signs, lives):
                print("   [" + ", ".join(text(v) for v in values) + "]")
    for seed in EVEN_SEEDS:
        places = [bucket(seed, 0, 0, 2048, KEY_V4), bucket(seed, 16, 6, 2048, KEY_V4)]
        print(seed, "IPv4", places, text(sample(seed, 1, KEY_V4)))


if __name__ == "__main__":
    main()
