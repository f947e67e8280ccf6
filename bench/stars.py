"""Stars, and points and short lines round them.

A star goes round (0, 0) over points on ever further rays, counter-clockwise and once round. Each edge lies between two neighbouring
rays, so a star is valid.
"""
import math

from beside import positions


def rays(count, low, high, chance):
    """So many points round (0, 0), each at a distance from low to high or next to it."""
    points = []
    for place in range(count):
        angle = 2 * math.pi * place / count
        far = chance.randint(low, high)
        points.append((round(far * math.cos(angle)), round(far * math.sin(angle))))
    turns = (ax * by - ay * bx for (ax, ay), (bx, by) in zip(points, points[1:] + points[:1]))
    assert all(turn > 0 for turn in turns), "the rays aren't in order"
    return points


def closed(vertices):
    """The ring of these vertices."""
    return [*vertices, vertices[0]]


def polygon(*rings):
    """A polygon of a shell and holes."""
    return "POLYGON (" + ", ".join(map(positions, rings)) + ")"


def lines(list_of_positions):
    """A LINESTRING for each list of positions, one a line."""
    return (f"LINESTRING {positions(line)}\n" for line in list_of_positions)


def line_from(start, size, chance):
    """A line from a position on, at most so long in each direction."""
    x, y = start
    return [(x, y), (x + chance.randint(1, size), y + chance.randint(-size, size))]


def anywhere(far, chance):
    """A position anywhere up to a distance in each direction."""
    return chance.randint(-far, far), chance.randint(-far, far)
