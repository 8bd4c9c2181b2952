#!/usr/bin/env python3
"""Reduces an exported program, in any order of its interactions, and prints the net and the count as `inet run` does.

Usage: inet_export < PROGRAM.inet | tools/reduce.py [--order queue|stack|random] [--seed N] [--limit N]

An independent reader of the export: it knows nothing of `inet` but docs/use/EXPORT.md. Where no active pair is left, the text and the count
are the same in each order.
"""
import argparse

import streams
from nets import USUAL_LIMIT, Net, Program, chooser


def main():
    words = argparse.ArgumentParser(description=__doc__, formatter_class=argparse.RawDescriptionHelpFormatter)
    words.add_argument("--order", choices=("queue", "stack", "random"), default="random", help="random, if none is named")
    words.add_argument("--seed", type=streams.natural, default=0)
    words.add_argument("--limit", type=streams.natural, default=USUAL_LIMIT, help="the most interactions")
    asked = words.parse_args()
    net = Net.initial(Program.read())
    net.run(chooser(asked.order, asked.seed), asked.limit)
    lines = [*net.lines(), f"interactions: {net.interactions}", f"stop: {'limit' if net.queue else 'normal'}"]
    streams.write("".join(f"{line}\n" for line in lines))
    return streams.LIMIT if net.queue else 0


if __name__ == "__main__":
    streams.run(main)
