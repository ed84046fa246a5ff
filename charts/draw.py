#!/usr/bin/env python3
"""Turns the description of a chart into a chart file.

    charts/draw.py charts/three-places.txt > charts/three-places.chart

A description has one statement to a line; `#` begins a remark, and remarks go into the file before its records.

    start P                       the place where travel begins
    goal P                        the place where it ends
    place LIFTS MS                the next place, from 0, with its estimate of the distance to the goal
    link FROM TO FLOOR PRICE      the next link, from 0; a price is LIFTS,MS or the word closed

Nothing is checked here: the program that reads the file does that.
"""
import struct
import sys


def amount(text):
    return (0, 0) if text == "closed" else tuple(int(part) for part in text.split(","))


def draw(lines):
    remarks, places, links, ends = [], [], [], {}
    for line in lines:
        statement, _, remark = line.partition("#")
        if remark:
            remarks.append(remark.strip())
        words = statement.split()
        if not words:
            continue
        if words[0] in ("start", "goal"):
            ends[words[0]] = int(words[1])
        elif words[0] == "place":
            places.append(struct.pack("<II", int(words[1]), int(words[2])))
        elif words[0] == "link":
            floor, price = amount(words[3]), amount(words[4])
            links.append(struct.pack("<HHHHII", int(words[1]), int(words[2]), floor[0], price[0], floor[1], price[1]))
        else:
            sys.exit(f"draw: no such statement: {line.strip()}")
    back = 8 * len(places) + 16 * len(links) + 16
    trailer = struct.pack("<HHHHI4s", ends["start"], ends["goal"], len(places), len(links), back, b"LAST")
    return "".join(remark + "\n" for remark in remarks).encode() + b"".join(places + links) + trailer


if __name__ == "__main__":
    with open(sys.argv[1], encoding="utf-8") as source:
        sys.stdout.buffer.write(draw(source))
