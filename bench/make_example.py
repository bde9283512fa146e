#!/usr/bin/env python3
"""Writes the trace and the topology of the examples: make_example.py TRACE TOPOLOGY.

Two minutes of a small site with three switches: name lookups, a few web clients of which one is much heavier in the
second minute, a backup, and packets that no path takes.
"""

import struct
import sys

TOPOLOGY = """\
# Three switches. A switch that sketches anything costs `open`, and `unit` more for each unit of load.
[[switch]]
name = "edge"
capacity = 60
open = 20
unit = 1

[[switch]]
name = "core"
capacity = 100
open = 30
unit = 1

[[switch]]
name = "rack"
capacity = 40
open = 10
unit = 2

# What each path takes, how much it loads a switch, and the switches that see its packets.
[[path]]
name = "lookups"
from = "10.1.0.0/16"
to = "10.9.0.53/32"
load = 10
via = ["edge", "core"]

[[path]]
name = "web"
from = "10.1.0.0/16"
to = "10.9.0.0/16"
load = 35
via = ["edge", "core", "rack"]

[[path]]
name = "backup"
from = "10.2.0.0/16"
to = "10.9.0.0/16"
load = 25
via = ["core", "rack"]
"""


def frame(source, destination, source_port, destination_port, protocol):
    ethernet = bytes.fromhex("020000000002 020000000001 0800")
    ipv4 = struct.pack(">BBHHHBBH", 0x45, 0, 28, 0, 0, 64, protocol, 0)
    return ethernet + ipv4 + bytes(source) + bytes(destination) + struct.pack(">HHHH", source_port, destination_port, 8, 0)


def packets():
    """Seconds, original length and frame."""
    for second in range(120):
        minute = second // 60
        for client in range(1, 7):
            if second % client == 0:
                yield second, 74, frame((10, 1, 0, client), (10, 9, 0, 53), 40000 + client, 53, 17)
            for _ in range(1 if client != 4 or minute == 0 else 6):
                yield second, 1100 + client, frame((10, 1, 0, client), (10, 9, 3, 80), 50000 + client, 443, 6)
        if second % 2 == 0:
            yield second, 1514, frame((10, 2, 0, 9), (10, 9, 7, 7), 33000, 873, 6)
        if second % 10 == 0:
            yield second, 90, frame((10, 5, 0, 1), (10, 1, 0, 1), 123, 123, 17)


def main():
    with open(sys.argv[1], "wb") as trace:
        trace.write(struct.pack("<IHHiIII", 0xA1B2C3D4, 2, 4, 0, 0, 65535, 1))
        for second, original, captured in packets():
            trace.write(struct.pack("<IIII", 1700000000 + second, 0, len(captured), original) + captured)
    with open(sys.argv[2], "w", encoding="ascii") as topology:
        topology.write(TOPOLOGY)


main()
