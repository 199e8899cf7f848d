#!/usr/bin/env python3
"""Writes the scenarios that speed is measured on: `crowds.py KIND AGENTS STEPS` prints one of them.

box     agents on a square grid, each with a little disorder, within four walls
crush   the same, each bound for the middle at 300 units a step
walls   agents on a grid of 4,000 units, with 2,000 slanted pieces of wall between them
"""
import math
import sys

class Draws:
    """Numbers below a bound, the same on every machine."""

    def __init__(self, number):
        self.state = number

    def below(self, bound):
        self.state = (75 * self.state + 74) % 65537
        return self.state % bound

def side_of(count):
    root = math.isqrt(count)
    return root if root * root == count else root + 1

def box(count, crush):
    """Agents of a box at rest, each with a preferred velocity drawn at random or towards the middle."""
    draws = Draws(0)
    side = side_of(count)
    lines = []
    for i in range(count):
        column, row = i % side, i // side
        x = 4000 * column - 2000 * side + draws.below(1001) - 500
        y = 4000 * row - 2000 * side + draws.below(1001) - 500
        radius = 500 + draws.below(501)
        speed = 200 + draws.below(201)
        px = draws.below(401) - 200
        py = draws.below(401) - 200
        if crush:
            distance = max(1, math.isqrt(x * x + y * y))
            px, py = -300 * x // distance, -300 * y // distance
        lines.append(f"agent,{x},{y},0,0,{px},{py},{radius},{speed},15000,10,40,10")
    h = 2000 * side + 3000
    corners = [(-h, -h), (h, -h), (h, h), (-h, h)]
    for (ax, ay), (bx, by) in zip(corners, corners[1:] + corners[:1]):
        lines.append(f"segment,{ax},{ay},{bx},{by}")
    return lines

def walls(count, pieces=2000):
    """Agents on a grid, and pieces of wall between them, slanted one way and the other in turn."""
    draws = Draws(0)
    side = side_of(count)
    lines = []
    for i in range(count):
        x = 4000 * (i % side) - 2000 * side
        y = 4000 * (i // side) - 2000 * side
        px = draws.below(401) - 200
        py = draws.below(401) - 200
        lines.append(f"agent,{x},{y},0,0,{px},{py},600,300,15000,10,40,10")
    for k in range(pieces):
        place = k * count // pieces
        x = 4000 * (place % side) - 2000 * side + 2000
        y = 4000 * (place // side) - 2000 * side + 2000
        slant = 500 if k % 2 == 0 else -500
        lines.append(f"segment,{x - 500},{y - slant},{x + 500},{y + slant}")
    return lines

def main():
    kind, count, steps = sys.argv[1], int(sys.argv[2]), int(sys.argv[3])
    if kind == "walls":
        lines = walls(count)
    else:
        lines = box(count, kind == "crush")
    print("\n".join(["crowd,1", f"steps,{steps}"] + lines))

main()
