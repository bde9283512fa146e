#!/usr/bin/env python3
"""Compares `univmon check` with a checker of its own on random small certificates: check_model.py [CASES [SEED]].

The checker reads the text and tests the nodes by the tables of docs/USAGE.md, apart from the program. Wants the program,
which `rt run` in crates/univmon leaves at crates/univmon/out/univmon. Stops at the first difference.
"""
import collections
import pathlib
import random
import re
import subprocess
import sys
import tempfile

PROGRAM = pathlib.Path(__file__).parent / "../crates/univmon/out/univmon"
NUMBER = re.compile("(0|[1-9][0-9]*)$")
HEAD = "univmon tree 1"


class Refused(Exception):
    pass


# The text.


def numbers(words, limit):
    for word in words:
        if not NUMBER.match(word) or int(word) >= limit:
            raise Refused
    return [int(word) for word in words]


class Reader:
    def __init__(self, text):
        *self.lines, self.last = text.split("\n")
        self.place = 0
        self.branches = 0

    def line(self):
        if self.place == len(self.lines):
            raise Refused
        return self.lines[self.place]

    def tree(self):
        """A tree, or the refusal's line."""
        if HEAD not in self.lines:
            return None, f"line {len(self.lines) + 1}" if self.last == HEAD else "no tree"
        self.place = self.lines.index(HEAD) + 1
        try:
            tree = self.node(0)
            if self.line() != "end":
                raise Refused
            self.place += 1
            if self.place < len(self.lines) or self.last:
                raise Refused
        except Refused:
            return None, f"line {self.place + 1}"
        return tree, None

    def node(self, depth):
        kind, *words = self.line().split(" ")
        if kind in ("over", "full") and not words:
            node = (kind,)
        elif kind == "branch" and len(words) == 1:
            (count,) = numbers(words, 9)
            if count == 0 or depth >= 64 or self.branches == 4096:
                raise Refused
            self.branches += 1
            self.place += 1
            return (kind, [self.node(depth + 1) for _ in range(count)])
        elif kind == "hall" and words:
            names, behind = self.counted(words, 64, 64)
            node = (kind, names)
            if behind:
                raise Refused
        elif kind == "dual" and words:
            prices, behind = self.counted(words, 64, 2**56)
            mus, behind = self.counted(behind, 32, 2**56)
            node = (kind, prices, mus)
            if behind:
                raise Refused
        else:
            raise Refused
        self.place += 1
        return node

    @staticmethod
    def counted(words, most, limit):
        if not words:
            raise Refused
        (count,) = numbers(words[:1], most + 1)
        if len(words) <= count:
            raise Refused
        return numbers(words[1 : 1 + count], limit), words[1 + count :]


# The nodes: a switch is (capacity, opening, unit), a path (load, via), choices are the switches of the first paths.


class Checker:
    def __init__(self, switches, paths):
        self.switches, self.paths = switches, paths
        self.nodes = self.branches = 0
        self.full = False
        self.bound = None

    def left(self, choices):
        left = [capacity for capacity, _, _ in self.switches]
        for (load, _), switch in zip(self.paths, choices):
            left[switch] -= load
        return left

    def is_crowded(self, names, left):
        reached = {switch for name in names for switch in self.paths[name][1]}
        return sum(self.paths[name][0] for name in names) > sum(left[switch] for switch in reached)

    def value(self, value):
        self.bound = value if self.bound is None else min(self.bound, value)

    def check(self, node, choices):
        number, depth, left = self.nodes, len(choices), self.left(choices)
        self.nodes += 1
        reason = self.reason(node, choices, depth, left)
        if reason:
            raise Refused(f"node {number} {reason}")
        cost = sum(self.switches[switch][1] for switch in set(choices))
        cost += sum(self.switches[switch][2] * load for (load, _), switch in zip(self.paths, choices))
        if node[0] == "branch":
            self.branches += 1
            for child, switch in zip(node[1], self.paths[depth][1]):
                self.check(child, choices + [switch])
        elif node[0] == "dual":
            self.value(cost + sum(node[1]) - sum(have * mu for have, mu in zip(left, node[2])))
        elif node[0] == "full":
            self.full = True
            self.value(cost)

    def reason(self, node, choices, depth, left):
        kind, count = node[0], len(self.paths)
        over = depth > 0 and left[choices[-1]] < 0
        if kind == "over":
            return None if over else "not over"
        if over:
            return "is over"
        if (kind == "full") != (depth == count):
            return "depth"
        if kind == "branch":
            if len(node[1]) != len(self.paths[depth][1]):
                return "children"
            return "idle" if self.is_crowded(range(depth, count), left) else None
        if kind == "hall":
            names = node[1]
            if not names or names != sorted(set(names)) or names[0] < depth or names[-1] >= count:
                return "hall set"
            return None if self.is_crowded(names, left) else "hall load"
        return self.dual_reason(node, choices, depth) if kind == "dual" else None

    def dual_reason(self, node, choices, depth):
        _, prices, mus = node
        if len(prices) != len(self.paths) - depth or len(mus) != len(self.switches):
            return "dual shape"
        for switch, (_, opening, unit) in enumerate(self.switches):
            total = 0
            for price, (load, via) in zip(prices, self.paths[depth:]):
                if switch in via:
                    total += max(0, price - load * (unit + mus[switch]))
            if total > (0 if switch in choices else opening):
                return f"dual sum {switch}"
        return None


def expected(switches, paths, text):
    tree, refused = Reader(text).tree()
    checker = Checker(switches, paths)
    if not refused:
        try:
            checker.check(tree, [])
        except Refused as reason:
            refused = str(reason)
    if refused:
        return 11, "", f"univmon: certificate: {refused}\n"
    bound = "none" if checker.bound is None else checker.bound
    full = "yes" if checker.full else "no"
    return 0, f"univmon check 1\nbound {bound}\nbranches {checker.branches}\nfull {full}\nend\n", ""


# Random topologies and certificates.


def random_problem(draw):
    count = draw.randint(1, 4)
    switches = [(draw.randint(0, 12), draw.randint(0, 10), draw.randint(0, 3)) for _ in range(count)]
    paths = [(draw.randint(1, 6), draw.sample(range(count), draw.randint(1, count))) for _ in range(draw.randint(1, 4))]
    return switches, paths


def topology(switches, paths):
    text = ""
    for s, (capacity, opening, unit) in enumerate(switches):
        text += f'[[switch]]\nname = "s{s}"\ncapacity = {capacity}\nopen = {opening}\nunit = {unit}\n'
    for p, (load, via) in enumerate(paths):
        names = ", ".join(f'"s{switch}"' for switch in via)
        text += f'[[path]]\nname = "p{p}"\nfrom = "10.{p}.0.0/16"\nto = "10.{100 + p}.0.0/16"\n'
        text += f"load = {load}\nvia = [{names}]\n"
    return text


def random_nodes(draw, checker, choices):
    depth, count, left = len(choices), len(checker.paths), checker.left(choices)
    if depth and left[choices[-1]] < 0 and draw.random() < 0.9:
        return ["over"]
    if depth == count:
        return [draw.choice(["full"] * 9 + ["over"])]
    chance = draw.random()
    via = checker.paths[depth][1]
    if chance < 0.5:
        children = [random_nodes(draw, checker, choices + [switch]) for switch in via]
        return [f"branch {len(via)}"] + [line for child in children for line in child]
    if chance < 0.65:
        names = sorted(draw.sample(range(depth, count), draw.randint(1, count - depth)))
        return ["hall " + " ".join(map(str, [len(names)] + names))]
    if chance < 0.97:
        prices = [draw.randint(0, 12) for _ in range(depth, count)]
        mus = [draw.choice([0, 0, 0, 1, 2]) for _ in checker.switches]
        return ["dual " + " ".join(map(str, [len(prices)] + prices + [len(mus)] + mus))]
    return [draw.choice(["over", "full"])]


def spoiled(draw, text):
    place = draw.randrange(len(text) + 1)
    chance = draw.random()
    if chance < 0.3:
        return text[:place] + text[place + 1 :]
    if chance < 0.6:
        return text[:place] + draw.choice(["0", "1", "9", " ", "\n", "over\n", "x"]) + text[place:]
    if chance < 0.7:
        return text[:place]
    lines = text.split("\n")
    more = draw.choice(["full", "over", "end", "branch 1", "hall 0", "hall 2 1 0", "dual 0 0", HEAD])
    lines.insert(draw.randrange(len(lines)), more)
    return "\n".join(lines)


def main():
    cases = int(sys.argv[1]) if len(sys.argv) > 1 else 2000
    draw = random.Random(int(sys.argv[2]) if len(sys.argv) > 2 else 1)
    seen = collections.Counter()
    with tempfile.TemporaryDirectory() as folder:
        network, tree = pathlib.Path(folder, "topology"), pathlib.Path(folder, "tree")
        for case in range(cases):
            switches, paths = random_problem(draw)
            front = draw.choice([[], ["a log"], ["univmon tree 10", ""]])
            lines = front + [HEAD] + random_nodes(draw, Checker(switches, paths), []) + ["end"]
            text = "\n".join(lines) + "\n"
            while draw.random() < 0.35:
                text = spoiled(draw, text)
            network.write_text(topology(switches, paths))
            tree.write_text(text)
            run = subprocess.run([PROGRAM, "check", network, tree], capture_output=True, text=True)
            want = expected(switches, paths, text)
            if (run.returncode, run.stdout, run.stderr) != want:
                sys.exit(f"case {case}: {text}{topology(switches, paths)}wanted {want}, found {run}")
            seen[re.sub("[0-9]+", "N", want[2]).strip() or "done"] += 1
    for line, count in sorted(seen.items()):
        print(count, line)


main()
