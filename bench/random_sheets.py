#!/usr/bin/env python3
"""Random flat sheets of every kind for bench/run and bench/climb: DIRECTORY COUNT SEED [CHANNELS [convex]]. Prints a line for each: name, kind, source, sink.

The kinds take turns; each is as near to CHANNELS (512) as its shape allows. With `convex` the shapes are fans, wheels, grids and rings, and the limits grow with
the square of a channel's distance from one of them: a search that goes face by face then finds a shorter walk again and again. A drawing is flat by
construction: a shape with a known round of darts at each node, or one grown edge by edge, where an edge hangs a new node into a face, or joins two corners of
one face and splits it. Half of the drawings are numbered as they were made, half at random (not the convex ones); a third have a head of kind 4, with any dart
as the outer one.
"""
import os
import random
import struct
import sys

EDGES = 512
GREATEST = 1_000_000


class Drawing:
    """Tails and turns of the darts. The corner after a dart lies between it and its turn; the face left of a dart goes on with the turn of its reverse."""

    def __init__(self, rounds):
        """From the darts at each node, clockwise."""
        darts = sum(map(len, rounds))
        self.nodes, self.tails, self.turns = len(rounds), [0] * darts, [0] * darts
        for node, darts in enumerate(rounds):
            for at, dart in enumerate(darts):
                self.tails[dart], self.turns[dart] = node, darts[(at + 1) % len(darts)]

    def edges(self):
        return len(self.tails) // 2

    def insert(self, corner, dart):
        self.tails[dart], self.turns[dart], self.turns[corner] = self.tails[corner], self.turns[corner], dart

    def edge(self):
        dart = len(self.tails)
        self.tails += [0, 0]
        self.turns += [dart, dart + 1]
        return dart, dart + 1

    def hang(self, corner):
        there, back = self.edge()
        self.insert(corner, there)
        self.tails[back] = self.nodes
        self.nodes += 1

    def join(self, corner, other):
        there, back = self.edge()
        self.insert(corner, there)
        self.insert(other, back)

    def onward(self, corner, steps):
        """A corner some steps further round the same face."""
        for _ in range(steps):
            corner = self.turns[corner] ^ 1
        return corner

    def grow(self, chance, edges, share, reach=40):
        """To a number of edges, with this share of hanging ones."""
        while self.edges() < edges:
            corner = chance.randrange(len(self.tails))
            if self.nodes <= EDGES and chance.random() < share:
                self.hang(corner)
            else:
                self.join(corner, self.onward(corner, chance.randrange(reach)))
        return self

    def triangulate(self, chance, edges):
        """Cuts corners off while a face has more than three of them and there is room."""
        corners = list(range(len(self.tails)))
        while corners and self.edges() < edges:
            at = chance.randrange(len(corners))
            if self.onward(corners[at], 3) == corners[at] or self.onward(corners[at], 2) == corners[at]:
                corners[at] = corners[-1]  # a corner of a triangle or of less stays one
                corners.pop()
            else:
                self.join(corners[at], self.onward(corners[at], 2))
                corners += [len(self.tails) - 2, len(self.tails) - 1]
        return self

    def beside(self, other):
        darts = len(self.tails)
        self.tails += [tail + self.nodes for tail in other.tails]
        self.turns += [turn + darts for turn in other.turns]
        self.nodes += other.nodes
        return self

    def shuffled(self, chance):
        """With other numbers of nodes and edges, and other directions."""
        nodes, edges = list(range(self.nodes)), list(range(self.edges()))
        chance.shuffle(nodes)
        chance.shuffle(edges)
        new = [2 * edges[d // 2] + d % 2 for d in range(len(self.tails))]
        if chance.random() < 0.5:
            turned = [chance.randrange(2) for _ in edges]
            new = [d ^ turned[d // 2] for d in new]
        tails, turns = self.tails[:], self.turns[:]
        for dart, other in enumerate(new):
            self.tails[other], self.turns[other] = nodes[tails[dart]], new[turns[dart]]

    def faces(self):
        """The number of the face left of each dart."""
        faces, count = [None] * len(self.tails), 0
        for dart in range(len(faces)):
            if faces[dart] is None:
                while faces[dart] is None:
                    faces[dart] = count
                    dart = self.turns[dart ^ 1]
                count += 1
        return faces, count


# ---- shapes with about so many edges


def bundle(chance, edges):
    return Drawing([range(0, 2 * edges, 2), range(2 * edges - 1, 0, -2)])


def star(chance, edges):
    return Drawing([range(0, 2 * edges, 2), *([2 * e + 1] for e in range(edges))])


def tree(chance, edges):
    return bundle(chance, 1).grow(chance, edges, 1)


def grid(chance, edges):
    """The darts at a node are those up, right, down and left."""
    columns = chance.randrange(2, 21)
    rows = (edges + columns) // (2 * columns - 1)
    first = 2 * rows * (columns - 1)
    rounds = []
    for r in range(rows):
        for c in range(columns):
            across, down = 2 * (r * (columns - 1) + c), first + 2 * (r * columns + c)
            darts = [(r > 0, down - 2 * columns + 1), (c + 1 < columns, across), (r + 1 < rows, down), (c > 0, across - 1)]
            rounds.append([dart for there, dart in darts if there])
    return Drawing(rounds)


def rings(chance, edges, length=None):
    """Rings within each other, each node joined to the one further out; the darts at a node are those outwards, on along the ring, inwards and back."""
    length = length or chance.randrange(2, 21)
    count = max(1, (edges + length) // (2 * length))
    rounds = []
    for r in range(count):
        for a in range(length):
            out = 2 * (count * length + r * length + a)
            on, back = 2 * (r * length + a), 2 * (r * length + (a - 1) % length) + 1
            darts = [(r + 1 < count, out), (True, on), (r > 0, out - 2 * length + 1), (True, back)]
            rounds.append([dart for there, dart in darts if there])
    return Drawing(rounds)


def ring(chance, edges):
    return rings(chance, edges, edges)


def wheel(chance, edges):
    """A hub, the last node, with spokes to the nodes of a rim."""
    count = edges // 2
    return Drawing([[2 * a, 2 * (count + a) + 1, 2 * ((a - 1) % count) + 1] for a in range(count)] + [range(2 * count, 4 * count, 2)])


def fan(chance, edges):
    """The same with a rim that is a chain."""
    count = (edges + 1) // 2
    spokes = [2 * (count - 1 + a) for a in range(count)]
    return Drawing([[2 * a] * (a < count - 1) + [spokes[a] + 1] + [2 * a - 1] * (a > 0) for a in range(count)] + [spokes])


def triangulation(chance, edges):
    return tree(chance, edges // 3).triangulate(chance, edges)


def triangulated_grid(chance, edges):
    return grid(chance, 2 * edges // 3).triangulate(chance, edges)


def grown(chance, edges):
    return bundle(chance, 1).grow(chance, edges, chance.choice([0.05, 0.2, 0.4, 0.6, 0.9]))


def grown_on(chance, edges):
    """A shape of half the edges, grown on."""
    return chance.choice(SHAPES)(chance, edges // 2).grow(chance, edges, chance.choice([0.2, 0.5]), 20)


SHAPES = [bundle, star, tree, grid, rings, ring, wheel, fan, triangulation, triangulated_grid, grown]


def parts(chance, edges):
    """Some shapes beside each other, or nodes with a loop each."""
    if chance.random() < 0.1:
        return Drawing([[2 * e, 2 * e + 1] for e in range(edges)])
    count = chance.randrange(2, 6)
    drawing = chance.choice(SHAPES)(chance, edges // count - 1)
    for _ in range(count - 1):
        drawing.beside(chance.choice(SHAPES)(chance, edges // count - 1))
    return drawing


KINDS = [*SHAPES, grown, grown, grown_on, grown_on, parts]
CONVEX = [fan, wheel, grid, rings]


def limits(chance, drawing):
    """Of every dart. One kind for a sheet: any; any, and a few least flows; small; all equal; narrow round a flow that balances at every node."""
    kind = chance.choice(["any", "any", "any", "least", "small", "equal", "narrow"])
    faces, count = drawing.faces()
    most, equal, slack = chance.choice([2, 9, 1000, GREATEST // 4]), chance.choice([1, 1000, GREATEST]), chance.choice([1, 3, 1000])
    levels = [chance.randrange(-most, most + 1) for _ in range(count)]
    both = chance.choice([0, 0.3, 1])  # the share of channels that are open both ways
    for e in range(drawing.edges()):
        forward, back = chance.randrange(GREATEST + 1), chance.randrange(GREATEST + 1)
        if kind == "small":
            forward, back = chance.randrange(10), chance.randrange(10)
        if kind == "equal":
            forward = back = equal
        if chance.random() >= both:
            back = 0
        if kind == "least" and chance.random() < 0.005:
            back = -chance.randrange(min(forward, 1000) + 1)
        if kind == "narrow":
            flow = levels[faces[2 * e]] - levels[faces[2 * e + 1]]
            forward, back = flow + chance.randrange(slack + 1), chance.randrange(slack + 1) - flow
        yield forward, back


def convex_limits(chance, drawing):
    """Of every dart: the square of the distance between its channel's number and one of them, so scaled that the greatest is within the range."""
    middle, least = chance.randrange(drawing.edges()), chance.choice([0, 0, 1000])
    scale = (GREATEST - least) // drawing.edges() ** 2 or 1
    both = chance.choice([0, 0.3, 1])
    for e in range(drawing.edges()):
        limit = min(GREATEST, least + scale * (e - middle) ** 2)
        yield limit, limit if chance.random() < both else 0


def sheet(chance, kind, edges, convex):
    """Bytes, source and sink."""
    drawing = kind(chance, edges)
    if chance.random() < 0.5 and not convex:  # a distance between numbers is one in the drawing as it was made
        drawing.shuffled(chance)
    outer = [chance.randrange(2 * drawing.edges())] if chance.random() < 1 / 3 else []
    data = struct.pack("<BHH", 4 if outer else 1, drawing.nodes, drawing.edges()) + struct.pack(f"<{len(outer)}H", *outer)
    for e, pair in enumerate(convex_limits(chance, drawing) if convex else limits(chance, drawing)):
        data += struct.pack("<BHHHHii", 2, *drawing.tails[2 * e:2 * e + 2], *drawing.turns[2 * e:2 * e + 2], *pair)
    return data, *chance.sample(range(drawing.nodes), 2)


def main():
    directory, count, seed = sys.argv[1], int(sys.argv[2]), int(sys.argv[3])
    edges, convex = int(sys.argv[4]) if len(sys.argv) > 4 else EDGES, sys.argv[5:] == ["convex"]
    kinds = CONVEX if convex else KINDS
    os.makedirs(directory, exist_ok=True)
    for number in range(count):
        kind = kinds[number % len(kinds)]
        data, source, sink = sheet(random.Random(f"{seed}/{number}"), kind, edges, convex)
        with open(f"{directory}/{number}.sheet", "wb") as file:
            file.write(data)
        print(number, ("convex_" if convex else "") + kind.__name__, source, sink)


if __name__ == "__main__":
    main()
