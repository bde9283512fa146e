#!/usr/bin/env python3
"""Measures the program beside plain programs for the same work, and prints the ratios: ratios.py [ROUNDS].

Each line gives processor time (the median of so many rounds, 5 if none are named, in turns) and peak memory, on traces
of 1,048,576 packets: 20,000 flows, 60,000 flows of which some are heavy, 63 flows, and each packet a flow of its own.
Wants a C compiler and the program, which `rt run` in crates/univmon leaves at crates/univmon/out/univmon; another one is
named by the variable UNIVMON.
"""

import os
import statistics
import subprocess
import sys
import tempfile

from make_trace import write_trace

HERE = os.path.dirname(os.path.abspath(__file__))
PROGRAM = os.path.abspath(os.environ.get("UNIVMON", os.path.join(HERE, "../crates/univmon/out/univmon")))
PACKETS = 1 << 20
TRACES = {
    "skewed": (PACKETS, 20000, "skewed"),
    "heavy": (PACKETS, 60000, "heavy"),
    "few": (PACKETS, 63, "flat"),
    "own": (PACKETS, PACKETS, "own"),
    "many": (PACKETS, 500000, "flat"),
}


def cost(words, stdin=None):
    """Processor time in seconds, and peak memory in bytes."""
    source = open(stdin, "rb") if stdin else subprocess.DEVNULL
    process = subprocess.Popen(words, stdin=source, stdout=subprocess.DEVNULL)
    _, status, usage = os.wait4(process.pid, 0)
    process.returncode = os.waitstatus_to_exitcode(status)
    if stdin:
        source.close()
    if process.returncode != 0:
        sys.exit(f"{words}: status {process.returncode}")
    return usage.ru_utime + usage.ru_stime, usage.ru_maxrss * 1024


def compare(name, rounds, first, second):
    """Runs two calls in turns, each words with or without a file as standard input."""
    costs = ([], [])
    for _ in range(rounds):
        for found, call in zip(costs, (first, second)):
            found.append(cost(*call))
    times = [statistics.median(time for time, _ in found) for found in costs]
    rooms = [max(room for _, room in found) / 1e6 for found in costs]
    print(f"{name}: {times[0]:.3f} s {rooms[0]:.1f} MB, against {times[1]:.3f} s {rooms[1]:.1f} MB: "
          f"ratio {times[0] / times[1]:.2f}", flush=True)


def central(trace, heap, *more):
    return ([PROGRAM, "central", trace, "--heap", str(heap), *more],)


def plain_rows(work, rounds, traces):
    total, plain = os.path.join(work, "total"), os.path.join(work, "central")
    subprocess.check_call(["cc", "-O2", "-o", total, os.path.join(HERE, "total.c")])
    subprocess.check_call(["cc", "-O2", "-o", plain, os.path.join(HERE, "central.c")])
    for name in ("skewed", "heavy", "few", "own"):
        trace = traces[name]
        compare(f"total, {name}, plain", rounds, ([PROGRAM, "total", trace],), ([total, trace],))
    for heap, names in ((0, ("skewed", "heavy", "few", "own")), (64, ("skewed", "heavy")), (1024, ("heavy",))):
        for name in names:
            trace = traces[name]
            compare(f"central --heap {heap}, {name}, plain", rounds, central(trace, heap), ([plain, trace, str(heap)],))


def own_rows(work, rounds, traces):
    for name in ("skewed", "heavy"):
        compare(f"--heap 1024 against 64, {name}", rounds, central(traces[name], 1024), central(traces[name], 64))
    job = os.path.join(work, "job")
    subprocess.check_call([sys.executable, os.path.join(HERE, "make_job.py"), traces["skewed"], job])
    compare("child against central --heap 64", rounds, ([PROGRAM, "child"], job), central(traces["skewed"], 64))
    for name in ("skewed", "many"):
        compare(f"--heap 0 against 64, {name}", 1, central(traces[name], 0), central(traces[name], 64))
    topology, trace = os.path.join(work, "topology.toml"), os.path.join(work, "made.pcap")
    for part, file in (("topology", topology), ("trace", trace)):
        with open(file, "wb") as out:
            subprocess.check_call([PROGRAM, "generate", part, *(["--packets", str(PACKETS)] * (part == "trace"))], stdout=out)
    compare("measure against central --topology --heap 64", rounds, ([PROGRAM, "measure", topology, trace],),
            central(trace, 64, "--topology", topology))


def main():
    rounds = int(sys.argv[1]) if len(sys.argv) > 1 else 5
    with tempfile.TemporaryDirectory() as work:
        traces = {}
        for name, numbers in TRACES.items():
            traces[name] = os.path.join(work, name)
            write_trace(traces[name], *numbers)
        plain_rows(work, rounds, traces)
        own_rows(work, rounds, traces)


if __name__ == "__main__":
    main()
