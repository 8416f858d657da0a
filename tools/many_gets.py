#!/usr/bin/env python3
"""many_gets.py N [GETS]: writes a script of N submits to node 1, each of one edit, and then so many
gets (N if it is not given), each of one of the keys at one of the numbers from 0 to N.
"""
import random
import sys


def main():
    count = int(sys.argv[1])
    gets = int(sys.argv[2]) if len(sys.argv) > 2 else count
    choice = random.Random(1)
    write = sys.stdout.write
    write("config 1\n")
    for n in range(count):
        write(f"submit 1 key{n % 1000}=value{n}\n")
    for _ in range(gets):
        write(f"get 1 key{choice.randrange(1000)} {choice.randrange(count + 1)}\n")


if __name__ == "__main__":
    main()
