#!/usr/bin/env python3
"""Draws the net of an exported program, or the net after some interactions, in the language of Graphviz, or as SVG where Graphviz is there.

Usage: inet_export < PROGRAM.inet | tools/draw.py [--after K] [--svg]

Agents are circles and free ends are names. Each principal port is an arrow out of its agent, each auxiliary port has the number of its
place. Active pairs are red, and the next one in the order of `inet run` is filled.
"""
import argparse

import streams
from nets import Net, Program, chooser, dot, svg


def main():
    words = argparse.ArgumentParser(description=__doc__, formatter_class=argparse.RawDescriptionHelpFormatter)
    words.add_argument("--after", type=streams.natural, default=0, metavar="K", help="how many interactions, in the order of `inet run`")
    words.add_argument("--svg", action="store_true", help="a picture in place of its text")
    asked = words.parse_args()
    net = Net.initial(Program.read())
    net.run(chooser("queue"), asked.after)
    text = dot(net, net.queue[0] if net.queue else None)
    drawn = svg(text) if asked.svg else text
    if drawn is None:
        raise streams.Refused("no picture is drawn: `--svg` needs Graphviz, whose program is `dot`")
    streams.write(drawn)
    return 0


if __name__ == "__main__":
    streams.run(main)
