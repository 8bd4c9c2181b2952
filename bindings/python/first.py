#!/usr/bin/env python3
"""Reads a program, checks it, exports it and runs it. Usage: first.py < PROGRAM.inet, once `bindings/library make` was called."""
import json
import sys

from inet import LIMIT, OK, Inet, InetError


def main():
    inet, text = Inet(), sys.stdin.buffer.read()
    status, line = inet.check(text)
    print(line.decode(errors="replace"), end="")
    if status != OK:
        _, found = inet.diagnose_data(text)
        for part in found["errors"] if found else []:
            print(f"line {found['line']}: {part['message']}")
        return status
    program = json.loads(inet.export(text).bytes)
    print(len(program["symbols"]), "symbols,", len(program["net"]["active"]), "active pairs")
    status = inet.verify(text, len(program["rules"]), program["net"]["steps"])
    print("the net's steps", "build it" if status == OK else "do not build it")
    status, lines = inet.run(text, limit=1000)
    print(lines.decode(), end="")
    return OK if status == LIMIT else status


if __name__ == "__main__":
    try:
        sys.exit(main())
    except InetError as error:
        print(error, file=sys.stderr)
        sys.exit(70)
