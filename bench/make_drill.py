#!/usr/bin/env python3
"""Writes the trace and the topology that the program makes, apart from the program:
make_drill.py TRACE TOPOLOGY [SEED [PACKETS [FLOWS]]], with 1, 200000 and 20000 where they are not given.

The words of the trace are those of ChaCha20 (RFC 8439) at stream 0, under the seed in eight little-endian bytes, a
byte of 1 and 23 zero bytes. The file first checks its block function against the RFC's own vector (section 2.3.2).
"""

import struct
import sys

MASK = 0xFFFFFFFF

HEADER = bytes.fromhex("d4c3b2a1 0200 0400 00000000 00000000 ffff0000 01000000")
ETHERNET = bytes.fromhex("020000000002 020000000001 0800")


def rotated(x, k):
    return (x << k | x >> (32 - k)) & MASK


def quarter_round(s, a, b, c, d):
    s[a] = (s[a] + s[b]) & MASK
    s[d] = rotated(s[d] ^ s[a], 16)
    s[c] = (s[c] + s[d]) & MASK
    s[b] = rotated(s[b] ^ s[c], 12)
    s[a] = (s[a] + s[b]) & MASK
    s[d] = rotated(s[d] ^ s[a], 8)
    s[c] = (s[c] + s[d]) & MASK
    s[b] = rotated(s[b] ^ s[c], 7)


def block(key, tail):
    """The sixteen words of a block: of a key of 32 bytes, and of the last four words of the state."""
    start = [0x61707865, 0x3320646E, 0x79622D32, 0x6B206574, *struct.unpack("<8I", key), *tail]
    s = list(start)
    for _ in range(10):
        quarter_round(s, 0, 4, 8, 12)
        quarter_round(s, 1, 5, 9, 13)
        quarter_round(s, 2, 6, 10, 14)
        quarter_round(s, 3, 7, 11, 15)
        quarter_round(s, 0, 5, 10, 15)
        quarter_round(s, 1, 6, 11, 12)
        quarter_round(s, 2, 7, 8, 13)
        quarter_round(s, 3, 4, 9, 14)
    return [(x + y) & MASK for x, y in zip(s, start)]


def check_rfc_vector():
    found = block(bytes(range(32)), [1, 0x09000000, 0x4A000000, 0])
    wanted = (
        "e4e7f110 15593bd1 1fdd0f50 c47120a3 c7f4d1c7 0368c033 9aaa2204 4e6cd4c3"
        " 466482d2 09aa9f07 05d7c214 a2028bd9 d19c12b5 b94e16de e883d0cb 4e3c50a2"
    )
    assert found == [int(word, 16) for word in wanted.split()], "not ChaCha20"


def words(seed):
    key = struct.pack("<Q", seed) + bytes([1]) + bytes(23)
    counter = 0
    while True:
        yield from block(key, [counter & MASK, counter >> 32, 0, 0])
        counter += 1


def record(number, first, second, flows):
    flow = (first % flows) * (second % flows) // flows
    network, host = flow % 30, flow // 30
    original = 64 + second % 1437
    head = struct.pack("<IIII", 1600000000 + number // 50000, number % 50000 * 20, 42, original)
    protocol = 6 if flow % 2 == 1 else 17
    source = bytes([10, network, host // 256, host % 256])
    destination = bytes([10, 100 + network, 0, 1])
    ipv4 = struct.pack(">BBHHHBBH4s4s", 0x45, 0, original - 14, 0, 0, 0x40, protocol, 0, source, destination)
    return head + ETHERNET + ipv4 + struct.pack(">HHI", 1024 + flow % 50000, 443, 0)


def trace(seed, packets, flows):
    stream = words(seed)
    yield HEADER
    for number in range(packets):
        first, second = next(stream), next(stream)
        yield record(number, first, second, flows)


def topology():
    for switch in range(12):
        yield "[[switch]]"
        yield f'name = "s{switch}"'
        yield "capacity = 400"
        yield f"open = {100 + 10 * switch}"
        yield f"unit = {1 + switch % 3}"
    for path in range(30):
        via = ", ".join(f'"s{(path + step) % 12}"' for step in (0, 1, 5))
        yield "[[path]]"
        yield f'name = "p{path}"'
        yield f'from = "10.{path}.0.0/16"'
        yield f'to = "10.{100 + path}.0.0/16"'
        yield f"load = {20 + 7 * path % 41}"
        yield f"via = [{via}]"


def main():
    check_rfc_vector()
    seed, packets, flows = [int(word) for word in sys.argv[3:]] + [1, 200000, 20000][len(sys.argv) - 3 :]
    with open(sys.argv[1], "wb") as file:
        file.writelines(trace(seed, packets, flows))
    with open(sys.argv[2], "w", encoding="ascii") as file:
        file.writelines(line + "\n" for line in topology())


if __name__ == "__main__":
    main()
