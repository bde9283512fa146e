#!/usr/bin/env python3
"""Writes a replay job of the packets of a trace that make_trace.py wrote: make_job.py TRACE JOB [PACKETS].

The numbers of the sketch are the program's defaults, with a heap of 64.
"""

import struct
import sys

FRAME = 4096


def items_of(trace, most):
    data = memoryview(trace)
    at, items = 24, []
    while at < len(data) and len(items) < most:
        _, _, captured, _ = struct.unpack_from("<4I", data, at)
        frame = data[at + 16 : at + 16 + captured]
        source, destination = struct.unpack_from(">II", frame, 26)
        ports = struct.unpack_from(">I", frame, 34)[0]
        items.append(struct.pack("<12I", 4, source, 0, 0, 0, destination, 0, 0, 0, ports, frame[23], 1))
        at += 16 + captured
    return items


def main():
    most = int(sys.argv[3]) if len(sys.argv) > 3 else 1 << 20
    with open(sys.argv[1], "rb") as file:
        items = items_of(file.read(), most)
    with open(sys.argv[2], "wb") as file:
        file.write(b"UMJB\x01\x00" + struct.pack("<IBBHHQ", 0, 12, 5, 1024, 64, 1))
        for at in range(0, len(items), FRAME):
            frame = items[at : at + FRAME]
            file.write(struct.pack("<H", len(frame)) + b"".join(frame))
        file.write(b"\0\0")


if __name__ == "__main__":
    main()
