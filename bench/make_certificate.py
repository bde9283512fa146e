#!/usr/bin/env python3
"""Writes a topology and a certificate for it: make_certificate.py TOPOLOGY TREE [BRANCHES].

The topology has 32 switches and 64 paths with eight switches each. The certificate has so many Branch nodes (4,096),
nearest to the root first, and a Dual leaf below each whose prices are what each later path costs at least.
"""
import sys

SWITCHES, PATHS, FAN = 32, 64, 8
LOAD, UNIT = 60000, 60000


def topology():
    for s in range(SWITCHES):
        yield f"[[switch]]\nname = \"s{s}\"\ncapacity = 4000000\nopen = {100 + s}\nunit = {UNIT}\n"
    for p in range(PATHS):
        via = ", ".join(f"\"s{(p + 5 * k) % SWITCHES}\"" for k in range(FAN))
        yield f"[[path]]\nname = \"p{p}\"\nfrom = \"10.{p}.0.0/16\"\nto = \"10.{100 + p}.0.0/16\"\nload = {LOAD}\nvia = [{via}]\n"


def branches_by_depth(count):
    depths = []
    while count > 0:
        depths.append(min(count, FAN ** len(depths)))
        count -= depths[-1]
    return depths


def nodes(depth, left):
    """The lines of a node in preorder; left has how many Branch nodes each depth may still have."""
    if depth < len(left) and left[depth] > 0:
        left[depth] -= 1
        yield f"branch {FAN}\n"
        for _ in range(FAN):
            yield from nodes(depth + 1, left)
    else:
        prices = f" {LOAD * UNIT}" * (PATHS - depth)
        yield f"dual {PATHS - depth}{prices} {SWITCHES}{' 0' * SWITCHES}\n"


def main():
    count = int(sys.argv[3]) if len(sys.argv) > 3 else 4096
    with open(sys.argv[1], "w") as out:
        out.writelines(topology())
    with open(sys.argv[2], "w") as out:
        out.write("univmon tree 1\n")
        out.writelines(nodes(0, branches_by_depth(count)))
        out.write("end\n")


main()
