#!/usr/bin/env python3
"""Refuses each allocation of the built program in turn, a run for each: refuse.py [TESTS].

Each command, on small files, ends with the status and the whole text of a run without a refusal, or with status 13 and
nothing on standard output; with children, of which each is refused the same number, also with status 8 and nothing there.
Prints for each how many runs there were and how many ended out of memory, and each run that ended otherwise. With the built tests of `memory_rows`, which `rt ci` leaves at crates/memory_rows/out/memory_rows_tests, the same of each
row there, whose last allocation but for the command's own is a probe. Wants a C compiler and the program, which `rt run` in
crates/univmon leaves at crates/univmon/out/univmon; another one is named by the variable UNIVMON.
"""

import os
import subprocess
import sys
import tempfile

from make_trace import write_trace

HERE = os.path.dirname(os.path.abspath(__file__))
PROGRAM = os.path.abspath(os.environ.get("UNIVMON", os.path.join(HERE, "../crates/univmon/out/univmon")))
SPENT, MEMORY = 8, 13
TOPOLOGY = """switch = [
    {name='s0',capacity=10,open=10,unit=1},
    {name='s1',capacity=10,open=10,unit=1},
]
path = [{name='p0',from='10.0.0.0/16',to='10.100.0.0/16',load=5,via=['s0']}]
"""
CROWDED = """switch = [{name='s0',capacity=8,open=0,unit=0}]
path = [
    {name='p0',from='10.0.0.0/16',to='10.1.0.0/16',load=5,via=['s0']},
    {name='p1',from='10.2.0.0/16',to='10.3.0.0/16',load=5,via=['s0']},
]
"""
TREE = "univmon tree 1\nhall 2 0 1\nend\n"
CALLS = {
    "measure": (["measure", "T", "A"], None),
    "measure with children": (["--worker", "-", "measure", "T", "A"], None),
    "place": (["place", "C"], None),
    "central": (["central", "A", "--topology", "T"], None),
    "central with heaps": (["central", "A", "--heap", "8", "--epoch", "60"], None),
    "check": (["check", "C", "TREE"], None),
    "child": (["child"], "JOB"),
    "total": (["total", "A"], None),
    "drill": (["drill", "--packets", "100"], None),
}


def run(work, program, words, stdin, refused):
    """Status and standard output, and whether an allocation was refused."""
    told = os.path.join(work, "told")
    environment = {"REFUSE": str(refused), "LD_PRELOAD": os.path.join(work, "refuse.so")}
    with open(os.path.join(work, stdin) if stdin else os.devnull, "rb") as source, open(told, "wb") as out:
        os.dup2(out.fileno(), 9)
        process = subprocess.run([program, *words], stdin=source, capture_output=True, cwd=work, env=environment,
                                 pass_fds=(9,), check=False)
    return process.returncode, process.stdout, os.path.getsize(told) > 0


def walk(work, name, words, stdin):
    """How many runs ended otherwise than they may."""
    whole = run(work, PROGRAM, words, stdin, 0)[:2]
    number, refusals, wrong = 0, 0, 0
    while True:
        number += 1
        status, text, is_refused = run(work, PROGRAM, words, stdin, number)
        if (status, text) == (MEMORY, b""):
            refusals += 1
        elif (status, text) != whole and not ("--worker" in words and (status, text) == (SPENT, b"")):
            wrong += 1
            print(f"{name}: number {number}: status {status}, {len(text)} bytes")
        if not is_refused:
            break
    print(f"{name}: status {whole[0]}, {number - 1} refused, {refusals} ended out of memory, {wrong} otherwise", flush=True)
    return wrong


def walk_rows(work, tests):
    """How many runs of a row failed where an allocation was refused that isn't the probe."""
    listed = subprocess.run([tests, "--list"], capture_output=True, text=True, check=True).stdout
    wrong = 0
    for row in (line.removesuffix(": test") for line in listed.splitlines() if line.endswith(": test")):
        number, failed, is_refused = 0, [], True
        while is_refused:
            number += 1
            status, _, is_refused = run(work, tests, [row], None, number)
            if status != 0:
                failed.append(number)
        rows = len(failed) - (failed[-1:] == [number - 1])
        print(f"{row}: {number - 2} refused, {rows} failed", flush=True)
        wrong += rows
    return wrong


def main():
    with tempfile.TemporaryDirectory() as work:
        shared = os.path.join(work, "refuse.so")
        subprocess.check_call(["cc", "-O2", "-shared", "-fPIC", "-o", shared, os.path.join(HERE, "refuse.c")])
        for file, text in (("T", TOPOLOGY), ("C", CROWDED), ("TREE", TREE)):
            with open(os.path.join(work, file), "w") as out:
                out.write(text)
        trace, job = os.path.join(work, "A"), os.path.join(work, "JOB")
        write_trace(trace, 3, 1, "flat")
        subprocess.check_call([sys.executable, os.path.join(HERE, "make_job.py"), trace, job])
        wrong = sum(walk(work, name, *call) for name, call in CALLS.items())
        for tests in sys.argv[1:]:
            wrong += walk_rows(work, os.path.abspath(tests))
        sys.exit(1 if wrong else 0)


if __name__ == "__main__":
    main()
