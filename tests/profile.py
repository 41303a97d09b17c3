#!/usr/bin/env python3
"""What `pbuild` has to answer, by a second reading of docs/: the machine, the walk over words, costs and the search, as
docs/MACHINE.md, docs/LAYOUT.md and docs/FORMATS.md say them. Nothing here is taken from the compiler.

    profile.py run IMG PORTS STEPS
        puts what `run` puts.
    profile.py judge IMG0 CERT PORTS STEPS REGISTERS BUDGET IMG LINES
        says what is wrong with IMG, with the text of IMG.prf and with what `pbuild` put, which is in the file LINES.
        CERT is the certificate that `build` stored beside IMG0; the sequences of the functions are taken from it.
    profile.py bare CERT
        puts an image of which `check` finds each frame of CERT true where its log fits.
"""

import sys
from collections import namedtuple
from functools import lru_cache

# Files.

Function = namedtuple("Function", "name first last")
Image = namedtuple("Image", "words functions")
Frame = namedtuple("Frame", "name registers step scalars blocks lists bases cost claim marks")


def wrapped(items, each):
    return [items[at : at + each] for at in range(0, len(items), each)]


def image_text(image):
    lines = ["C25 IMAGE 1", f"words {len(image.words)}"]
    lines += [" ".join(f"{word:04x}" for word in some) for some in wrapped(image.words, 8)]
    lines += [f"func {name} {first:04x} {last:04x}" for name, first, last in image.functions]
    return "".join(line + "\n" for line in [*lines, "end"])


def text_of(path):
    with open(path, "rb") as file:
        return file.read().decode("latin-1")


def read_image(path):
    text = text_of(path)
    lines = text.split("\n")
    functions = [line.split(" ")[1:] for line in lines if line.startswith("func ")]
    words = [int(word, 16) for line in lines[2 : lines.index("end") - len(functions)] for word in line.split(" ")]
    image = Image(words, [Function(name, int(first, 16), int(last, 16)) for name, first, last in functions])
    if image_text(image) != text:
        raise ValueError(f"{path} isn't in the format of an image")
    return image


def read_ports(path):
    """The words of each port, the first one last."""
    inputs = [[] for _ in range(16)]
    for line in text_of(path).split("\n"):
        fields = line.rstrip("\r").split()
        if fields:
            inputs[int(fields[0])].append(int(fields[1], 16))
    return [words[::-1] for words in inputs]


def frame_lines(frame):
    yield from (f"frame {frame.name}", f"registers {frame.registers}", f"step {frame.step}", f"scalars {frame.scalars}")
    for weight, accesses in frame.blocks:
        yield f"block {weight} {' '.join(map(str, accesses))}"
    for base, scalars in zip(frame.bases, frame.lists, strict=True):
        yield f"list {base:04x} {' '.join(map(str, scalars))}"
    yield from (f"cost {frame.cost}", f"claim {frame.claim}", f"marks {len(frame.marks)}")
    yield from wrapped(frame.marks, 64)
    yield "endframe"


def certificate_text(frames):
    lines = ["C25 CERTIFICATE 2", *(line for frame in frames for line in frame_lines(frame)), "end"]
    return "".join(line + "\n" for line in lines)


def read_frame(lines):
    fields = {"block": [], "list": []}
    marks = ""
    for line in lines:
        word, _, rest = line.partition(" ")
        if word in ("block", "list"):
            fields[word].append(rest.split(" "))
        elif rest:
            fields[word] = rest
        else:
            marks += word
    blocks = [(int(weight), list(map(int, accesses))) for weight, *accesses in fields["block"]]
    lists = [list(map(int, scalars)) for _, *scalars in fields["list"]]
    bases = [int(base, 16) for base, *_ in fields["list"]]
    numbers = [int(fields[word]) for word in ("registers", "step", "scalars")]
    return Frame(fields["frame"], *numbers, blocks, lists, bases, int(fields["cost"]), fields["claim"], marks)


def read_certificate(path):
    text = text_of(path)
    frames, lines = [], []
    for line in text.split("\n")[1:-2]:
        if line == "endframe":
            frames.append(read_frame(lines))
            lines = []
        else:
            lines.append(line)
    if certificate_text(frames) != text:
        raise ValueError(f"{path} isn't in the format of a certificate")
    return frames


# Instructions. `number` is a shift, a port, a register or a constant, as the row has it.

Instr = namedtuple("Instr", "row number operand length")
Direct = namedtuple("Direct", "at")
Indirect = namedtuple("Indirect", "change next")

CHANGES = {0x8: "", 0x9: "-", 0xA: "+", 0xD: "0-", 0xE: "0+"}
JUMPS = {0xFF: "B", 0xF1: "BGZ", 0xF2: "BLEZ", 0xF3: "BLZ", 0xF4: "BGEZ", 0xF5: "BNZ", 0xF6: "BZ", 0xFE: "CALL"}
# first bytes with an operand: how many of them in a row, and the row of which they are
ROWS = {
    0x00: (16, "ADD"), 0x10: (16, "SUB"), 0x20: (16, "LAC"), 0x30: (8, "LAR"), 0x38: (1, "MPY"), 0x3C: (1, "LT"), 0x41: (1, "ZALS"),
    0x42: (1, "LACT"), 0x45: (1, "SUBS"), 0x47: (1, "SUBC"), 0x49: (1, "ADDS"), 0x4B: (1, "RPT"), 0x4C: (1, "XOR"), 0x4D: (1, "OR"),
    0x4E: (1, "AND"), 0x54: (1, "PSHD"), 0x55: (1, "MAR"), 0x60: (8, "SACL"), 0x68: (8, "SACH"), 0x70: (8, "SAR"), 0x7A: (1, "POPD"),
    0x80: (16, "IN"), 0xE0: (16, "OUT"),
}
WITH_OPERAND = {first + number: (row, number) for first, (count, row) in ROWS.items() for number in range(count)}
WITH_CONSTANT = {0x7E: "ADRK", 0x7F: "SBRK", 0xCA: "LACK", 0xCB: "RPTK", 0xCC: "ADDK", 0xCD: "SUBK"}
ALONE = {
    0xCE01: "DINT", 0xCE02: "ROVM", 0xCE06: "RSXM", 0xCE07: "SSXM", 0xCE08: "SPM", 0xCE14: "PAC", 0xCE15: "APAC", 0xCE16: "SPAC",
    0xCE18: "SFL", 0xCE19: "SFR", 0xCE1F: "IDLE", 0xCE23: "NEG", 0xCE26: "RET", 0xCE27: "CMPL",
}
LONG = {0x01: "LALK", 0x02: "ADLK", 0x03: "SBLK"}
LONG_BITS = {0xD004: "ANDK", 0xD005: "ORK", 0xD006: "XORK"}

NO_ACCESS = {"MAR", *JUMPS.values()}
BEHIND_CUT = {"RET", "IDLE", *JUMPS.values()}
SUMS = {"ADD", "ADDS", "ADDK", "ADLK", "SUB", "SUBS", "SUBK", "SBLK", "SUBC", "APAC", "SPAC", "NEG"}
REPEATED = {"ADD", "ADDS", "SUB", "SUBS", "SUBC", "SACL", "SACH", "SFL", "SFR", "APAC", "SPAC"}


def operand(byte):
    if byte < 0x80:
        return Direct(byte)
    low = byte & 15
    if byte >> 4 not in CHANGES or 0 < low < 8:
        return None
    return Indirect(CHANGES[byte >> 4], low - 8 if low else None)


@lru_cache(maxsize=None)
def decode(word):
    high, low = word >> 8, word & 255
    if word in ALONE:
        return Instr(ALONE[word], 0, None, 1)
    if word in LONG_BITS:
        return Instr(LONG_BITS[word], 0, None, 2)
    if high in WITH_CONSTANT:
        return Instr(WITH_CONSTANT[high], low, None, 1)
    if 0xA0 <= high < 0xC0:
        return Instr("MPYK", (word & 0x1FFF) - ((word & 0x1000) << 1), None, 1)
    if 0xC0 <= high < 0xC8:
        return Instr("LARK", (high - 0xC0, low), None, 1)
    if high in (0xC8, 0xC9):
        return Instr("LDPK", word & 511, None, 1)
    if high >> 4 == 0xD:
        if low in LONG:
            return Instr(LONG[low], high & 15, None, 2)
        return Instr("LRLK", high & 7, None, 2) if low == 0 and high < 0xD8 else None
    row, number = WITH_OPERAND.get(high, (JUMPS.get(high), 0))
    found = operand(low)
    if row is None or found is None or (row in NO_ACCESS and isinstance(found, Direct)):
        return None
    return Instr(row, number, found, 2 if row in JUMPS.values() else 1)


# The machine.


class Trap(Exception):
    pass


class Ended(Exception):
    pass


def signed(value, bits):
    return value - (1 << bits) if value >> (bits - 1) else value


class Machine:
    """A machine behind a reset, with zeros in every other part."""

    def __init__(self, image, inputs):
        self.program = image.words + [0] * (65536 - len(image.words))
        self.data = [0] * 65536
        self.inputs = [words[:] for words in inputs]
        self.acc = self.t = self.p = self.arp = self.dp = self.sxm = self.pc = self.repeat = 0
        self.ar = [0] * 8
        self.stack = []
        self.outs = []

    def address(self, found):
        return self.dp * 128 + found.at if isinstance(found, Direct) else self.ar[self.arp]

    def trapped(self, instr):
        """The first trap that holds at this instruction. Overflow mode and shifts of products can't be set here."""
        row, _, found, _ = instr
        if row in ("CALL", "PSHD") and len(self.stack) == 8:
            return "stack-full"
        if row in ("RET", "POPD") and not self.stack:
            return "stack-empty"
        if row == "SUBC" and (self.data[self.address(found)] >> 15 or self.acc >> 31):
            return "divide"
        if self.repeat and row not in REPEATED:
            return "repeat"
        if found is None or row in NO_ACCESS:
            return None
        if row in ("LAR", "SAR") and instr.number == self.arp and not isinstance(found, Direct) and found.change:
            return "same-register"
        return "no-ram" if self.address(found) < 0x300 else None

    def step(self):
        instr = decode(self.program[self.pc])
        trap = "bad-word" if instr is None else self.trapped(instr)
        if trap:
            raise Trap(f"trap {trap} at {self.pc:04x}")
        row, number, found, length = instr
        at = self.address(found) if found is not None and row not in NO_ACCESS else None
        index, current, loop = self.ar[0], self.arp, self.repeat
        following = getattr(self, row)(number, at, (self.pc + length) & 0xFFFF)
        if isinstance(found, Indirect):
            moved = {"": 0, "-": -1, "+": 1, "0-": -index, "0+": index}[found.change]
            if moved:
                self.ar[current] = (self.ar[current] + moved) & 0xFFFF
            if found.next is not None:
                self.arp = found.next
        if loop:
            self.repeat = loop - 1
        if not loop or not self.repeat:
            self.pc = (self.pc + length) & 0xFFFF if following is None else following

    def word(self):
        return self.program[(self.pc + 1) & 0xFFFF]

    def ext(self, word):
        return signed(word, 16) if self.sxm else word

    def add(self, value):
        self.acc = (self.acc + value) & 0xFFFFFFFF

    # Each row is given its number, the address of its operand and the one behind it, and answers where to go on, or None.

    def LAC(self, s, at, _): self.acc = self.ext(self.data[at]) << s & 0xFFFFFFFF
    def LACT(self, _s, at, _): self.acc = self.ext(self.data[at]) << (self.t & 15) & 0xFFFFFFFF
    def ZALS(self, _s, at, _): self.acc = self.data[at]
    def LACK(self, k, _at, _): self.acc = k
    def LALK(self, s, _at, _): self.acc = self.ext(self.word()) << s & 0xFFFFFFFF
    def PAC(self, _s, _at, _): self.acc = self.p
    def ADD(self, s, at, _): self.add(self.ext(self.data[at]) << s)
    def SUB(self, s, at, _): self.add(-(self.ext(self.data[at]) << s))
    def ADDS(self, _s, at, _): self.add(self.data[at])
    def SUBS(self, _s, at, _): self.add(-self.data[at])
    def ADDK(self, k, _at, _): self.add(k)
    def SUBK(self, k, _at, _): self.add(-k)
    def ADLK(self, s, _at, _): self.add(self.ext(self.word()) << s)
    def SBLK(self, s, _at, _): self.add(-(self.ext(self.word()) << s))
    def APAC(self, _s, _at, _): self.add(self.p)
    def SPAC(self, _s, _at, _): self.add(-self.p)
    def NEG(self, _s, _at, _): self.acc = -self.acc & 0xFFFFFFFF

    def SUBC(self, _s, at, _):
        less = self.acc - (self.data[at] << 15)
        self.acc = (2 * less + 1 if less >= 0 else 2 * self.acc) & 0xFFFFFFFF

    def AND(self, _s, at, _): self.acc &= self.data[at]
    def OR(self, _s, at, _): self.acc |= self.data[at]
    def XOR(self, _s, at, _): self.acc ^= self.data[at]
    def ANDK(self, _s, _at, _): self.acc &= self.word()
    def ORK(self, _s, _at, _): self.acc |= self.word()
    def XORK(self, _s, _at, _): self.acc ^= self.word()
    def CMPL(self, _s, _at, _): self.acc ^= 0xFFFFFFFF
    def SFL(self, _s, _at, _): self.acc = self.acc << 1 & 0xFFFFFFFF
    def SFR(self, _s, _at, _): self.acc = self.acc >> 1 | (self.acc & 0x80000000 if self.sxm else 0)

    def SACL(self, s, at, _): self.data[at] = self.acc << s & 0xFFFF
    def SACH(self, s, at, _): self.data[at] = self.acc << s >> 16 & 0xFFFF
    def LT(self, _s, at, _): self.t = self.data[at]
    def MPY(self, _s, at, _): self.MPYK(signed(self.data[at], 16), None, None)
    def MPYK(self, k, _at, _): self.p = signed(self.t, 16) * k & 0xFFFFFFFF

    def LAR(self, n, at, _): self.ar[n] = self.data[at]
    def SAR(self, n, at, _): self.data[at] = self.ar[n]
    def LARK(self, pair, _at, _): self.ar[pair[0]] = pair[1]
    def LRLK(self, n, _at, _): self.ar[n] = self.word()
    def ADRK(self, k, _at, _): self.ar[self.arp] = (self.ar[self.arp] + k) & 0xFFFF
    def SBRK(self, k, _at, _): self.ar[self.arp] = (self.ar[self.arp] - k) & 0xFFFF
    def MAR(self, _s, _at, _): pass
    def LDPK(self, k, _at, _): self.dp = k

    def jump(self, taken): return self.word() if taken else None
    def B(self, _s, _at, _): return self.word()
    def BGZ(self, _s, _at, _): return self.jump(signed(self.acc, 32) > 0)
    def BLEZ(self, _s, _at, _): return self.jump(signed(self.acc, 32) <= 0)
    def BLZ(self, _s, _at, _): return self.jump(self.acc >> 31)
    def BGEZ(self, _s, _at, _): return self.jump(not self.acc >> 31)
    def BNZ(self, _s, _at, _): return self.jump(self.acc)
    def BZ(self, _s, _at, _): return self.jump(not self.acc)

    def CALL(self, _s, _at, behind):
        self.stack.append(behind)
        return self.word()

    def RET(self, _s, _at, _): return self.stack.pop()
    def PSHD(self, _s, at, _): self.stack.append(self.data[at])
    def POPD(self, _s, at, _): self.data[at] = self.stack.pop()

    def IDLE(self, _s, _at, _):
        raise Ended(f"returned {self.acc & 0xFFFF:04x}")

    def IN(self, port, at, _):
        if not self.inputs[port]:
            raise Ended(f"input {port} ended")
        self.data[at] = self.inputs[port].pop()

    def OUT(self, port, at, _): self.outs.append(f"{port} {self.data[at]:04x}")
    def RPT(self, _s, at, _): self.repeat = (self.data[at] & 255) + 1
    def RPTK(self, k, _at, _): self.repeat = k + 1
    def RSXM(self, _s, _at, _): self.sxm = 0
    def SSXM(self, _s, _at, _): self.sxm = 1
    def ROVM(self, _s, _at, _): pass
    def SPM(self, _s, _at, _): pass
    def DINT(self, _s, _at, _): pass


def record(image, inputs, steps):
    """A run of at most so many steps: its outputs, the line of its end, and for each address how many steps began there."""
    machine, entries = Machine(image, inputs), {}
    try:
        for _ in range(steps):
            entries[machine.pc] = entries.get(machine.pc, 0) + 1
            machine.step()
    except (Trap, Ended) as stop:
        return machine.outs, str(stop), entries
    return machine.outs, f"running after {steps} steps", entries


# Walks.

Stretch = namedtuple("Stretch", "place addresses")


def instructions(image, function):
    """Each instruction of a range with its address."""
    at = function.first
    while at <= function.last:
        instr = decode(image.words[at])
        if instr is None or at + instr.length - 1 > function.last:
            raise ValueError(f"{function.name}: bad word {at:04x}")
        yield at, instr
        at += instr.length


def walk(image, function):
    """The stretches that have an access through AR2 to AR5, each with the address of the first such instruction, and how
    many address instructions there are."""
    stretches, count = [], 0
    code = list(instructions(image, function))
    targets = {image.words[at + 1] for at, instr in code if instr.row in JUMPS.values() and instr.row != "CALL"}
    arp, known, fresh = None, {}, True
    for at, instr in code:
        row, number, found, length = instr
        if fresh or at in targets:
            arp, known, current = None, {}, Stretch(None, [])
        laid_out = arp is None or arp == 0 or 2 <= arp <= 5
        if isinstance(found, Indirect) and row not in NO_ACCESS:
            if arp is None or (2 <= arp <= 5 and arp not in known):
                raise ValueError(f"{function.name}: unknown address {at:04x}")
            if 2 <= arp <= 5:
                if not current.addresses:
                    current = Stretch(at, [])
                    stretches.append(current)
                current.addresses.append(known[arp])
        loaded = number if row in ("LAR", "LRLK") else number[0] if row == "LARK" else None
        changed = isinstance(found, Indirect) and found.change
        count += loaded in (0, 2, 3, 4, 5)
        count += laid_out and (row in ("ADRK", "SBRK") or (row in NO_ACCESS and bool(changed)))
        change(known, arp, row, number, found)
        if row == "LAR":
            known.pop(number, None)
        elif row == "LARK":
            known[number[0]] = number[1]
        elif row == "LRLK":
            known[number] = image.words[at + 1]
        if row in ("RPT", "RPTK"):
            arp = None
        elif isinstance(found, Indirect) and found.next is not None:
            arp = found.next
        fresh = row in BEHIND_CUT or (length == 2 and at + 1 in targets)
    return stretches, count


def change(known, arp, row, number, found):
    """What the known numbers of registers become by the change of the current one."""
    if row in ("ADRK", "SBRK"):
        by = number if row == "ADRK" else -number
    elif isinstance(found, Indirect) and found.change:
        index = known.get(0)
        by = {"-": -1, "+": 1, "0-": None if index is None else -index, "0+": index}[found.change]
    else:
        return
    if arp is None:
        known.clear()
    elif arp in known:
        if by is None:
            del known[arp]
        else:
            known[arp] = (known[arp] + by) & 0xFFFF


# Costs and the search, at step 1.


def cost(blocks, lists):
    """What lists cost, over the blocks restricted to their scalars."""
    place = {scalar: (register, offset) for register, scalars in enumerate(lists) for offset, scalar in enumerate(scalars)}
    total = 0
    for weight, accesses in blocks:
        last = {}
        for scalar in accesses:
            if scalar in place:
                register, offset = place[scalar]
                if register not in last or abs(offset - last[register]) > 1:
                    total += weight
                last[register] = offset
    return total


class Search:
    def __init__(self, scalars, blocks, registers, budget):
        self.scalars, self.blocks, self.registers, self.budget = scalars, blocks, registers, budget
        self.kept = {}

    def over(self, members):
        """The weights of pairs over a set, and its loads."""
        if members not in self.kept:
            pairs, loads = {}, 0
            for weight, accesses in self.blocks:
                left = [scalar for scalar in accesses if scalar in members]
                loads += weight if left else 0
                for one, other in zip(left, left[1:]):
                    if one != other:
                        pair = (min(one, other), max(one, other))
                        pairs[pair] = pairs.get(pair, 0) + weight
            self.kept[members] = pairs, loads
        return self.kept[members]

    def greedy(self, members):
        pairs, _ = self.over(frozenset(members))
        beside = {scalar: [] for scalar in members}
        for one, other in sorted(pairs, key=lambda pair: (-pairs[pair], pair)):
            if len(beside[one]) < 2 and len(beside[other]) < 2 and other not in self.path(beside, one):
                beside[one].append(other)
                beside[other].append(one)
        order = []
        for scalar in sorted(members):
            if scalar not in order:
                path = self.path(beside, scalar)
                ends = [end for end in path if len(beside[end]) < 2]
                order += self.path(beside, min(ends))
        return order

    @staticmethod
    def path(beside, start):
        """The scalars that hang together with one; in order where it is at an end."""
        found, waiting = [], [start]
        while waiting:
            scalar = waiting.pop()
            if scalar not in found:
                found.append(scalar)
                waiting += beside[scalar]
        return found

    def start(self):
        """The starting layout and its cost."""
        everything = list(range(self.scalars))
        lists = [[] for _ in range(self.registers)]
        for scalar in everything:
            tried = [cost(self.blocks, [*lists[:r], lists[r] + [scalar], *lists[r + 1 :]]) for r in range(self.registers)]
            lists[tried.index(min(tried))].append(scalar)
        layouts = [[self.greedy(members) for members in lists if members], [self.greedy(everything)], [everything]]
        layouts = [[members for members in layout if members] for layout in layouts]
        costs = [cost(self.blocks, layout) for layout in layouts]
        return layouts[costs.index(min(costs))], min(costs)

    def complete(self, node):
        return sum(map(len, node)) == self.scalars

    def children(self, node):
        """A node is its lists, of which the last one is open."""
        placed = {scalar for members in node for scalar in members}
        for scalar in range(self.scalars):
            if scalar not in placed:
                yield (*node[:-1], (*node[-1], scalar))
        if node[-1] and len(node) < self.registers:
            yield (*node, ())

    def bound(self, node):
        if self.complete(node):
            return cost(self.blocks, node)
        *closed, last = node
        found = cost(self.blocks, closed)
        left = frozenset(range(self.scalars)).difference(*closed)
        pairs, loads = self.over(left)
        if len(node) < self.registers:
            return found + loads

        def weight(one, other):
            return pairs.get((min(one, other), max(one, other)), 0)

        found += loads + sum(pairs.values()) - sum(map(weight, last, last[1:]))
        waiting = left.difference(last)
        for scalar in waiting:
            others = [weight(scalar, other) for other in (*waiting, *last[-1:]) if other != scalar]
            found -= max(others, default=0)
        return found

    def piece(self, first, quota, best):
        """The best layout behind a piece, its marks, and whether it is finished."""
        marks, waiting = [], [first]
        while waiting and len(marks) < quota:
            node = waiting.pop()
            found = self.bound(node)
            branched = found < best[1] and not self.complete(node)
            if found < best[1] and not branched:
                best = [list(members) for members in node if members], found
            if branched:
                waiting += reversed(list(self.children(node)))
            marks.append("b" if branched else "c")
        return best, "".join(marks), not waiting

    def answer(self):
        """The lists, their cost, the claim and the log."""
        best, root = self.start(), ((),)
        if self.complete(root) or self.bound(root) >= best[1]:
            return *best, "optimal", "c"
        pieces = list(self.children(root))
        quota = max(1, self.budget // len(pieces))
        ends = []
        for some in wrapped(pieces, 4):
            ends += [self.piece(first, quota, best) for first in some]
            best = min(best, *(end[0] for end in ends[-len(some) :]), key=lambda layout: layout[1])
        for number, (_, marks, finished) in enumerate(ends):
            if not finished:
                return *best, f"best {number} {quota}", marks
        return *best, "optimal", "b" + "".join(marks for _, marks, _ in ends)


def replays(frame):
    """Whether a log fits the tree: recursion over the tree, with the frame's cost for all bounds."""
    search = Search(frame.scalars, frame.blocks, frame.registers, 1)
    marks = iter(frame.marks)
    waiting = [((),)]
    while waiting:
        node, mark = waiting.pop(), next(marks, None)
        if mark == "c" and search.bound(node) >= frame.cost:
            continue
        if mark != "b" or search.complete(node):
            return False
        waiting += reversed(list(search.children(node)))
    return next(marks, None) is None


# What `pbuild` answers.


def blocks_of(frame):
    """The addresses of a frame's accesses, by blocks."""
    at = {scalar: base + place for base, scalars in zip(frame.bases, frame.lists) for place, scalar in enumerate(scalars)}
    return [[at[scalar] for scalar in accesses] for _, accesses in frame.blocks]


def entered(image, frames, ports, steps):
    """How often each block of each function was entered."""
    if [function.name for function in image.functions] != [frame.name for frame in frames]:
        raise ValueError("the functions aren't those of the certificate")
    _, _, entries = record(image, read_ports(ports), steps)
    for function, frame in zip(image.functions, frames):
        stretches, _ = walk(image, function)
        if [stretch.addresses for stretch in stretches] != blocks_of(frame):
            raise ValueError(f"{function.name}: the walk isn't that of the certificate")
        yield [entries.get(stretch.place, 0) for stretch in stretches]


def weighted(image, frames, ports, steps, registers, budget):
    """The frames that are wanted, each with the sum of its counts."""
    for frame, counts in zip(frames, entered(image, frames, ports, steps), strict=True):
        blocks = [(count, accesses) for count, (_, accesses) in zip(counts, frame.blocks) if count > 0]
        lists, least, claim, marks = Search(frame.scalars, blocks, registers, budget).answer()
        # The frame begins where it did: where that is depends on the number of its scalars alone.
        base, bases = (frame.bases or [0])[0], []
        for scalars in lists:
            bases.append(base)
            base += len(scalars)
        yield Frame(frame.name, registers, 1, frame.scalars, blocks, lists, bases, least, claim, marks), sum(counts)


def line(frame, entries):
    claim = frame.claim.split(" ")[0]
    return f"{frame.name}: {frame.scalars} scalars, {frame.registers} registers, {entries} entries, {frame.cost} weighted, {claim}\n"


def judge(first, frames, wanted, path, lines):
    """What is wrong with an image, its `.prf` text and the lines."""
    if text_of(lines) != "".join(line(*pair) for pair in wanted):
        yield f"other lines: {text_of(lines)}"
    if text_of(path + ".prf") != certificate_text([frame for frame, _ in wanted]):
        yield "another text of frames"
    image = read_image(path)
    if [function.name for function in image.functions] != [frame.name for frame in frames]:
        yield "other functions"
        return
    for function, before, (frame, _) in zip(image.functions, frames, wanted):
        whole = frame._replace(blocks=before.blocks)
        stretches, count = walk(image, function)
        if [stretch.addresses for stretch in stretches] != blocks_of(whole):
            yield f"{frame.name}: another walk"
        if count != cost([(1, accesses) for _, accesses in before.blocks], frame.lists):
            yield f"{frame.name}: {count} address instructions"
        if cost(frame.blocks, frame.lists) != frame.cost:
            yield f"{frame.name}: another cost"
        if frame.claim == "optimal" and before.registers <= frame.registers and before.step == 1:
            if cost(frame.blocks, before.lists) < frame.cost:
                yield f"{frame.name}: the layout of `build` costs less"
        if frame.claim == "optimal" and not replays(frame):
            yield f"{frame.name}: the log doesn't fit"
    same = all(before.lists == frame.lists and before.step == 1 for before, (frame, _) in zip(frames, wanted))
    if same and image != first:
        yield "another image where no layout differs"


def bare(frames):
    """For each frame a function that makes its accesses, with as many address instructions as it costs, some of which do nothing."""
    words, functions = [], []
    for frame in frames:
        first = len(words)
        place = {scalar: (register, base + at) for register, (base, scalars) in enumerate(zip(frame.bases, frame.lists))
                 for at, scalar in enumerate(scalars)}
        for _, accesses in frame.blocks:
            reached = {}
            for number, scalar in enumerate(accesses):
                register, at = place[scalar]
                if reached.get(register) != at:
                    words += [0xD200 + 256 * register, at]
                later = [place[other][1] for other in accesses[number + 1 :] if place[other][0] == register]
                far = later[0] - at if later and abs(later[0] - at) == 1 else 0
                reached[register] = at + far
                words += [0x558A + register, 0x2080 + (0x20 if far == 1 else 0x10 if far else 0)]
            words.append(0xCE1F)
        idle = frame.cost - cost([(1, accesses) for _, accesses in frame.blocks], frame.lists)
        words += [0xC200] * idle + [0xCE1F]
        functions.append(Function(frame.name, first, len(words) - 1))
    return image_text(Image(words, functions))


def main():
    command, *words = sys.argv[1:]
    if command == "bare":
        print(bare(read_certificate(words[0])), end="")
        return 0
    image = read_image(words[0])
    if command == "run":
        outs, last, _ = record(image, read_ports(words[1]), int(words[2]))
        print("\n".join([*outs, last]))
        return 0
    frames = read_certificate(words[1])
    wanted = list(weighted(image, frames, words[2], *map(int, words[3:6])))
    faults = list(judge(image, frames, wanted, *words[6:8]))
    print("\n".join(faults), end="")
    return 1 if faults else 0


if __name__ == "__main__":
    sys.exit(main())
