#!/usr/bin/env python3
"""many_submits.py N [ID ..]: writes a script of N submits to the head of a chain, each of one edit.

The chain has the nodes that are named, from head to tail, or else node 1 alone. In a chain of more
than one node each submit is followed by a flow, which commits it.
"""
import sys


def main():
    count, nodes = int(sys.argv[1]), sys.argv[2:] or ["1"]
    write = sys.stdout.write
    write(f"config {' '.join(nodes)}\n")
    for n in range(count):
        write(f"submit {nodes[0]} key{n % 1000}=value{n}\n")
        if len(nodes) > 1:
            write("flow\n")


if __name__ == "__main__":
    main()
