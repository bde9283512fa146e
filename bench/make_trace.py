#!/usr/bin/env python3
"""Writes a classic pcap trace: make_trace.py FILE [PACKETS [FLOWS [SHAPE]]].

Each record has a head of 16 bytes and a captured frame of 42 bytes (Ethernet, IPv4, UDP). The flow of a packet is
drawn by a shape: `skewed` (some flows have more packets than others), `heavy` (of which a few have some hundredths of
all), `flat`, or `own` (packet N is of flow N).
"""
import random
import struct
import sys

HEADER = bytes.fromhex("d4c3b2a1020004000000000000000000ffff000001000000")
ETHERNET = bytes.fromhex("0200000000020200000000010800")
IPV4 = bytes.fromhex("4500001c0000000040110000")
UDP_END = bytes.fromhex("003500080000")


def record(number, flow):
    source = bytes([10, flow % 30, flow // 30 // 256 % 256, flow // 30 % 256])
    destination = bytes([10, 100 + flow % 30, 0, 1])
    port = struct.pack(">H", 1024 + flow % 50000)
    head = struct.pack("<IIII", 1600000000 + number // 50000, number % 50000 * 20, 42, 42)
    return head + ETHERNET + IPV4 + source + destination + port + UDP_END


def flow_of(shape, draw, flows, number):
    if shape == "skewed":
        return draw.randrange(flows) * draw.randrange(flows) // flows
    if shape == "heavy":
        return int(flows * draw.random() ** 3)
    if shape == "flat":
        return draw.randrange(flows)
    return number


def write_trace(name, packets, flows, shape):
    draw = random.Random(1)
    with open(name, "wb") as trace:
        trace.write(HEADER)
        for number in range(packets):
            trace.write(record(number, flow_of(shape, draw, flows, number)))


def main():
    packets = int(sys.argv[2]) if len(sys.argv) > 2 else 1048576
    flows = int(sys.argv[3]) if len(sys.argv) > 3 else 20000
    shape = sys.argv[4] if len(sys.argv) > 4 else "skewed"
    write_trace(sys.argv[1], packets, flows, shape)


if __name__ == "__main__":
    main()
