#!/usr/bin/env python3
"""Traces an image file from reset and prints what it leaves.

usage: example.py IMAGE [STEPS]

Status 0 for a pass, 1 for a refusal or a stop, 2 for usage, 3 where a file could not be read."""
import pathlib
import sys

try:
    import yam
except ImportError as error:
    print(error, file=sys.stderr)
    sys.exit(3)

STEPS = 11
ROW = 8  # registers a line


def main(arguments):
    digits = all(given.isdecimal() and given.isascii() for given in arguments[1:])
    if len(arguments) not in (1, 2) or not digits:
        print(__doc__, file=sys.stderr)
        return 2
    try:
        file = pathlib.Path(arguments[0]).read_bytes()
    except (OSError, ValueError) as error:
        print(f"example.py: {arguments[0]}: {error}", file=sys.stderr)
        return 3
    try:
        image = yam.Image.load(file)
        machine = yam.Machine(image)
        for step in machine.trace(int(arguments[1]) if arguments[1:] else STEPS):
            print(step)
    except yam.Refused as refused:
        print(f"example.py: {refused}", file=sys.stderr)
        return 1
    print(f"PC {machine.pc:06x}, RX {machine.rx:02x}, depth {machine.depth}")
    for at in range(0, len(machine.registers), ROW):
        print(f"%{at:02x}", *(f"{cell:08x}" for cell in machine.registers[at : at + ROW]))
    return 0


if __name__ == "__main__":
    sys.exit(main(sys.argv[1:]))
