#!/usr/bin/env python3
"""Writes what the program `nearby` reads: ask.py FILE K X,Y [X,Y ...] | nearby

The k nearest sounding sites (cue not 0) of each stop (X,Y), in centimetres, of the town in FILE. The program takes 128
stops and 65,536 bytes, stops and file together; to more it answers `input`.
"""
import struct
import sys


def main(arguments):
    if len(arguments) < 2:
        sys.exit(__doc__.strip())
    name, k, *stops = arguments
    try:
        numbers = [int(k), len(stops)]
        points = [[int(part) for part in stop.split(",")] for stop in stops]
        head = struct.pack("<II", *numbers) + b"".join(struct.pack("<ii", x, y) for x, y in points)
    except (ValueError, struct.error):
        sys.exit("ask.py: K is a number of 32 bits, and a stop is X,Y, signed numbers of 32 bits")
    try:
        with open(name, "rb") as file:
            body = file.read()
    except OSError as error:
        sys.exit(f"ask.py: {error}")
    sys.stdout.buffer.write(head + body)


main(sys.argv[1:])
