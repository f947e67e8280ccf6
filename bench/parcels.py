"""A map of 3,600 parcels and 300 squares over it, one geometry a line."""
import random

from beside import positions

SIDE = 60
SQUARES = 300
STEP = 1_000
SHIFT = 250


def corners(chance):
    """The corners of the map: a grid, each corner shifted by at most a quarter of a step."""
    across = range(SIDE + 1)
    return [[(STEP * x + chance.randint(-SHIFT, SHIFT), STEP * y + chance.randint(-SHIFT, SHIFT)) for x in across] for y in across]


def polygon(ring):
    """A line of text with one polygon without holes."""
    return f"POLYGON ({positions([*ring, ring[0]])})\n"


def parcels(grid):
    """The parcels row by row. A parcel shares a whole edge with each of its four neighbours."""
    for low, high in zip(grid, grid[1:]):
        for x in range(SIDE):
            yield polygon([low[x], low[x + 1], high[x + 1], high[x]])


def squares(grid, chance):
    """The squares, of sides from 100 to 3,000. Every second one is turned, and every fifth has its first corner at one of the map."""
    for number in range(SQUARES):
        x, y = chance.choice(chance.choice(grid)) if number % 5 == 0 else (chance.randrange(STEP * SIDE), chance.randrange(STEP * SIDE))
        east, north = chance.randint(100, 2_100), chance.randint(1, 2_100) * (number % 2)
        yield polygon([(x, y), (x + east, y + north), (x + east - north, y + north + east), (x - north, y + east)])


def put(bench):
    """The files of the parcels and of the squares."""
    chance = random.Random(2)
    grid = corners(chance)
    return bench.put("parcels.wkt", parcels(grid)), bench.put("squares.wkt", squares(grid, chance))
