#!/usr/bin/env python3
"""Compares `univmon child` with a child of its own on random jobs, some of them spoiled: child_model.py [CASES [SEED]].

It makes jobs, reads them by the tables of docs/USAGE.md apart from the program, works out the reply to a replay job, and
tests that to a solve job: its head, that its placement fits, and that it finds one only where there is one. Wants the
program, which `rt run` in crates/univmon leaves at crates/univmon/out/univmon. Stops at the first difference.
"""

import functools
import itertools
import pathlib
import random
import struct
import subprocess
import sys

import hash_values

PROGRAM = pathlib.Path(__file__).parent / "../crates/univmon/out/univmon"
hash_values.word = functools.lru_cache(None)(hash_values.word)
hash_values.hash_value = functools.lru_cache(None)(hash_values.hash_value)


class Refused(Exception):
    pass


class Reader:
    def __init__(self, data):
        self.data, self.at = data, 0

    def take(self, size):
        if len(self.data) - self.at < size:
            raise Refused("short")
        self.at += size
        return self.data[self.at - size : self.at]

    def number(self, size):
        return int.from_bytes(self.take(size), "little")

    def wants(self, right):
        if not right:
            raise Refused("shape")


def is_key(words):
    unused = words[2:5] + words[6:9]
    return words[10] <= 255 and (words[0] == 6 or words[0] == 4 and not any(unused))


def read_items(reader):
    items, weight = [], 0
    while True:
        count = reader.number(2)
        if count == 0:
            return items
        reader.wants(count <= 4096 and len(items) % 4096 == 0 and len(items) < 1048576)
        for _ in range(count):
            key = struct.unpack("<11I", reader.take(44))
            reader.wants(is_key(key))
            weight += (one := reader.number(4))
            reader.wants(weight <= 2**44)
            items.append((key, one))


def read_replay(reader, number):
    levels = reader.number(1)
    reader.wants(levels <= 16)
    rows = reader.number(1)
    reader.wants(rows in (1, 3, 5, 7))
    width = reader.number(2)
    reader.wants(width in (16, 32, 64, 128, 256, 512, 1024, 2048))
    heap = reader.number(2)
    reader.wants(1 <= heap <= 1024)
    seed = reader.number(8)
    return "replay", number, (levels, rows, width, heap, seed), read_items(reader)


def read_solve(reader, number):
    nodes = reader.number(2)
    reader.wants(1 <= nodes <= 4096)
    reader.wants(1 <= (sites := reader.number(1)) <= 32)
    switches = [struct.unpack("<IIH", reader.take(10)) for _ in range(sites)]
    reader.wants(1 <= (needs := reader.number(1)) <= 64)
    paths = []
    for _ in range(needs):
        reader.wants((load := reader.number(2)) >= 1)
        reader.wants(1 <= (hops := reader.number(1)) <= 8)
        via = []
        for _ in range(hops):
            site = reader.number(1)
            reader.wants(site < sites and site not in via)
            via.append(site)
        paths.append((load, via))
    return "solve", number, nodes, (switches, paths)


def read_job(data):
    """The job, or its first breach."""
    reader = Reader(data)
    try:
        if reader.take(4) != b"UMJB":
            raise Refused("magic")
        if reader.number(1) != 1:
            raise Refused("version")
        reader.wants((kind := reader.number(1)) <= 1)
        number = reader.number(4)
        job = read_solve(reader, number) if kind else read_replay(reader, number)
        if reader.at < len(data):
            raise Refused("extra")
        return job
    except Refused as fault:
        return str(fault)


def offered(kept, key, score, size):
    kept[key] = score
    ranked = sorted(kept, key=lambda k: (-kept[k], k))
    for last in ranked[size:]:
        del kept[last]


def reply_to(job):
    _, number, (levels, rows, width, heap, seed), items = job
    counters = [[[0] * width for _ in range(rows)] for _ in range(levels + 1)]
    kept = [{} for _ in range(levels + 1)]
    seen = [set() for _ in range(levels + 1)]
    for key, weight in items:
        for level in range(levels + 1):
            if level > 0 and not hash_values.sample(seed, level, key):
                break
            said = []
            for row in range(rows):
                place = hash_values.bucket(seed, level, row, width, key)
                sign = hash_values.sign(seed, level, row, key)
                counters[level][row][place] += sign * weight
                said.append(sign * counters[level][row][place])
            seen[level].add(key)
            offered(kept[level], key, sorted(said)[rows // 2], heap)
    out = b"UMRP\x02\x00" + struct.pack("<IBBHHIQ", number, levels, rows, width, heap, len(items), sum(w for _, w in items))
    for level in counters:
        for row in level:
            entries = [(bucket, value) for bucket, value in enumerate(row) if value]
            out += struct.pack("<H", len(entries)) + b"".join(struct.pack("<Hq", *entry) for entry in entries)
    for keys, all_keys in zip(kept, seen):
        out += struct.pack("<H", len(keys) + 32768 * (len(all_keys) > heap))
        out += b"".join(struct.pack("<11I", *key) for key in sorted(keys))
    return out


def fits(problem, sites):
    switches, paths = problem
    loads = [0] * len(switches)
    for (load, via), site in zip(paths, sites):
        if site not in via:
            return False
        loads[site] += load
    return len(sites) == len(paths) and all(load <= switch[0] for load, switch in zip(loads, switches))


def is_answer(job, reply):
    """Whether the reply answers a solve job as far as this is tested."""
    _, number, _, problem = job
    if reply[:10] != b"UMRP\x02\x01" + struct.pack("<I", number):
        return False
    some = any(fits(problem, sites) for sites in itertools.product(*(via for _, via in problem[1])))
    if reply[10] == 0:
        return fits(problem, list(reply[12 : 12 + reply[11]]))
    return reply[10] == 2 or reply[10] == 1 and not some


def made_key(draw, hosts):
    if draw.random() < 0.7:
        return (4, draw.randrange(hosts), 0, 0, 0, draw.randrange(2), 0, 0, 0, draw.randrange(3), draw.choice((6, 17)))
    return (6, *(draw.randrange(hosts) for _ in range(8)), draw.getrandbits(32), draw.randrange(256))


def made_replay(draw):
    count = draw.choice((0, 1, 2, 5, 30, 60, 4095, 4096, 4097) if draw.random() < 0.01 else (0, 1, 3, 10, 40))
    hosts = draw.choice((1, 3, 20, 1000))
    keys = [made_key(draw, hosts) for _ in range(min(count, 60))]
    items = [(draw.choice(keys), draw.choice((0, 1, 1, 7, 1500, 2**32 - 1))) for _ in range(count)]
    shape = (draw.choice((0, 1, 2, 5, 12, 16)), draw.choice((1, 3, 5, 7)), draw.choice((16, 32, 128)), draw.choice((1, 2, 8, 64)))
    out = b"UMJB\x01\x00" + struct.pack("<IBBHHQ", draw.getrandbits(32), *shape, draw.choice((0, 1, 7, 2**64 - 1)))
    for at in range(0, count, 4096):
        frame = items[at : at + 4096]
        out += struct.pack("<H", len(frame)) + b"".join(struct.pack("<11II", *key, weight) for key, weight in frame)
    return out + b"\0\0"


def made_solve(draw):
    sites, needs = draw.randrange(1, 5), draw.randrange(1, 6)
    out = b"UMJB\x01\x01" + struct.pack("<IHB", draw.getrandbits(32), draw.choice((1, 3, 1024, 4096)), sites)
    for _ in range(sites):
        out += struct.pack("<IIH", draw.randrange(20), draw.randrange(50), draw.randrange(5))
    out += bytes([needs])
    for _ in range(needs):
        via = draw.sample(range(sites), draw.randrange(1, sites + 1))
        out += struct.pack("<HB", draw.randrange(1, 12), len(via)) + bytes(via)
    return out


def spoiled(draw, data):
    data = bytearray(data)
    for _ in range(draw.randrange(1, 3)):
        at = draw.randrange(min(len(data), 400) if draw.random() < 0.8 else len(data)) if data else 0
        way = draw.randrange(4)
        if way == 0:
            del data[at:]
        elif way == 1:
            data[at:at] = draw.randbytes(draw.randrange(1, 5))
        elif way == 2 and data:
            data[at] = draw.choice((0, 1, 2, 255, data[at] ^ 1 << draw.randrange(8)))
        elif data:
            del data[at]
    return bytes(data)


def compare(data):
    ran = subprocess.run([PROGRAM, "child"], input=data, capture_output=True)
    job = read_job(data)
    if isinstance(job, str):
        same = (ran.returncode, ran.stdout, ran.stderr.decode()) == (12, b"", f"univmon: job: {job}\n")
    elif job[0] == "replay":
        same = (ran.returncode, ran.stdout, ran.stderr) == (0, reply_to(job), b"")
    else:
        same = ran.returncode == 0 and is_answer(job, ran.stdout)
    if not same:
        pathlib.Path("difference.job").write_bytes(data)
        sys.exit(f"differs at the job in difference.job: model {job if isinstance(job, str) else job[0]}, {ran}")
    return job if isinstance(job, str) else job[0]


def main():
    cases = int(sys.argv[1]) if len(sys.argv) > 1 else 1000
    draw = random.Random(int(sys.argv[2]) if len(sys.argv) > 2 else 1)
    counts = {}
    for _ in range(cases):
        data = made_replay(draw) if draw.random() < 0.7 else made_solve(draw)
        data = spoiled(draw, data) if draw.random() < 0.5 else data
        kind = compare(data)
        counts[kind] = counts.get(kind, 0) + 1
    print(" ".join(f"{kind} {count}" for kind, count in sorted(counts.items())), "no difference")


if __name__ == "__main__":
    main()
