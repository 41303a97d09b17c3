#!/usr/bin/env python3
"""Rows for tests/layouts.txt: access sequences made by chance, and the least cost of each, found by trying every placement.

    python3 tests/layouts.py 72 > tests/layouts.txt

The number is how many rows there are; the seed is fixed, so that the rows stay the same. Nothing here is taken from the program that is
tested: there is no search, no bound and no weight, but each placement and the count of its moves, as docs/LAYOUT.md says them.
"""

import itertools
import random
import sys

HEADER = """\
# Access sequences, and the least cost of each: ANSWER | WORDS | SEQUENCE
# ANSWER is the first line that `layout` puts, WORDS stand behind the name of the file, and SEQUENCE is that file as `printf %b` reads it.
# Found by tests/layouts.py, which tries every placement over the registers: at step 1 the offsets of a register have gaps of up to
# three between neighbours, and at a step above 1 none, since placements with gaps are left out there."""


def placements(scalars, registers, gaps):
    """Each scalar's register and offset. Registers are numbered as they come into use, since which is which makes no difference."""
    for register in itertools.product(range(registers), repeat=scalars):
        if any(r > max(register[:s], default=-1) + 1 for s, r in enumerate(register)):
            continue
        sets = [[s for s in range(scalars) if register[s] == r] for r in range(max(register) + 1)]
        orders = [list(places(members, gaps)) for members in sets]
        for offsets in itertools.product(*orders):
            offset = {s: o for places_of_one in offsets for s, o in places_of_one.items()}
            yield register, [offset[s] for s in range(scalars)]


def places(members, gaps):
    """Offsets for the scalars of one register, with neighbours as far apart as one of these numbers."""
    for order in itertools.permutations(members):
        for far in itertools.product(gaps, repeat=len(order) - 1):
            yield dict(zip(order, itertools.accumulate((0, *far))))


def cost(step, blocks, register, offset):
    """What a placement costs: the address instructions that each block needs, times its weight."""
    total = 0
    for weight, accesses in blocks:
        last = {}
        by_step = False
        for scalar in accesses:
            before = last.get(register[scalar])
            last[register[scalar]] = offset[scalar]
            if before is None:
                total += weight
                continue
            far = abs(offset[scalar] - before)
            if step > 1 and far == step:
                by_step = True
            elif far > 1:
                total += weight
        if by_step:
            total += weight
    return total


def least(scalars, step, blocks, registers, gaps):
    return min(cost(step, blocks, *placed) for placed in placements(scalars, registers, gaps))


def rising(scalars, step, blocks):
    """The cost of all scalars in rising order on one register."""
    return cost(step, blocks, [0] * scalars, list(range(scalars)))


def sequence(chance, scalars):
    blocks = []
    for _ in range(chance.randint(1, 6)):
        length = chance.randint(1, 10)
        blocks.append((chance.randint(1, 5), [chance.randrange(scalars) for _ in range(length)]))
    return blocks


def text(scalars, step, blocks):
    lines = [f"scalars {scalars}"]
    if step != 1:
        lines.append(f"step {step}")
    lines += [f"block {weight} {' '.join(map(str, accesses))}" for weight, accesses in blocks]
    return "".join(line + "\\n" for line in [*lines, "end"])


def row(scalars, step, blocks, registers, found):
    return f"cost {found} optimal | -r {registers} | {text(scalars, step, blocks)}"


WITHOUT = (1,)
WITH = (1, 2, 3)


def common(chance, count):
    """Rows with each number of registers and each step; in four of five the rising order costs more than need be."""
    for number in range(count):
        registers, step = 1 + number % 4, 1 + number // 4 % 3
        scalars = 2 + (number // 12 + number) % 5
        tried = 0
        while True:
            tried += 1
            blocks = sequence(chance, scalars)
            found = least(scalars, step, blocks, registers, WITH if step == 1 else WITHOUT)
            if tried == 20 or number % 5 == 4 or found < rising(scalars, step, blocks):
                break
        yield row(scalars, step, blocks, registers, found)


def hub(chance, scalars):
    """Blocks that go to and fro between scalar 0 and the others."""
    blocks = []
    for _ in range(chance.randint(1, 3)):
        accesses = [scalar for _ in range(chance.randint(2, 6)) for scalar in (0, chance.randrange(1, scalars))]
        blocks.append((chance.randint(1, 5), accesses))
    return blocks


def gapped(chance, count):
    """Rows where a placement with gaps would cost less than those that are looked at. At step 2 there are none: closing a gap makes no
    move longer, and each of 2 or less is free there."""
    for number in range(count):
        scalars, step = 4, 3 + number % 2
        while True:
            blocks = hub(chance, scalars)
            found = least(scalars, step, blocks, 1, WITHOUT)
            if least(scalars, step, blocks, 1, WITH) < found:
                break
        yield row(scalars, step, blocks, 1, found)


def main():
    count = int(sys.argv[1])
    chance = random.Random(25)
    few = count // 6
    print(HEADER)
    print("# registers 1 to 4, steps 1 to 3")
    for line in common(chance, count - few):
        print(line)
    print("# with gaps these would cost less")
    for line in gapped(chance, few):
        print(line)


if __name__ == "__main__":
    main()
