"""Reading the cases of `gsl_reference` and the listings that are wanted of them (`docs/CASES.md`)."""
import os
import re
import struct
import sys


def hex_bytes(text):
    out = b""
    for word in text.split():
        out += struct.pack("<I", int(word, 16)) if len(word) == 8 else bytes([int(word, 16)])
    return out


class Case:
    def __init__(self, stage, title):
        self.stage, self.title, self.sources, self.buffers = stage, title, [], {}
        self.push, self.given, self.lines = None, {}, []

    def begin(self, size="layout(local_size_x = 1) in;"):
        self.sources.append("#version 450\n" + (size + "\n" if self.stage == "comp" else ""))

    def put(self, line):
        if not self.sources:
            self.begin()
        self.sources[-1] += line + "\n"

    def take(self, word, rest):
        if word == "|":
            self.put(rest)
        elif word == "members":
            self.put("layout(set = 0, binding = 0, std430) buffer B { %s };" % rest)
        elif word == "main":
            self.put("void main() { %s }" % rest)
        elif word == "unit":
            self.begin()
        elif word == "size":
            x, y, z = (rest.split() + ["1", "1"])[:3]
            self.begin("layout(local_size_x = %s, local_size_y = %s, local_size_z = %s) in;" % (x, y, z))
        elif word == "buffer":
            number, binding, digits = (rest.split(" ", 2) + [""])[:3]
            self.buffers[int(number), int(binding)] = hex_bytes(digits)
            self.lines.append("buffer %s %s buffer %s %s" % (number, binding, number, binding))
        elif word == "push":
            self.push = hex_bytes(rest)
            self.lines.append("push push")
        elif word == "given":
            self.given[rest.split()[0]] = rest.split()[1:]
            self.lines.append(rest)

    def three(self, word, default):
        return tuple(int(n, 0) for n in self.given.get(word, [default] * 3))

    def write(self, folder, without=""):
        """Writes the sources, the manifest and the files that it names, and gives the names of the sources; without the manifest's lines of that word."""
        names = [str(number) for number in range(len(self.sources))]
        for name, source in zip(names, self.sources):
            open(os.path.join(folder, name), "w").write(source)
        for place, given in self.buffers.items():
            open(os.path.join(folder, "buffer %d %d" % place), "wb").write(given)
        if self.push is not None:
            open(os.path.join(folder, "push"), "wb").write(self.push)
        lines = [line for line in self.lines if line.split()[0] != without]
        open(os.path.join(folder, "inputs"), "w").write("".join(line + "\n" for line in lines))
        return names


def read_cases(path):
    cases = []
    for line in open(path).read().split("\n"):
        word, _, rest = line.partition(" ")
        if word in ("comp", "vert", "frag"):
            cases.append(Case(word, rest))
        elif cases:
            cases[-1].take(word, rest)
    return cases


def read_wanted(path):
    """The lines of each case by its title, in their order, without those of its module where that gives something else: they stand behind `run`."""
    wanted, of_shader = [], True
    for line in open(path).read().split("\n"):
        if line.startswith("case "):
            wanted.append((line[5:], []))
            of_shader = True
        elif line == "run":
            of_shader = False
        elif line and of_shader:
            wanted[-1][1].append(line)
    return wanted


def read_both(cases, wanted):
    """Each case with the lines that are wanted of it."""
    cases, wanted = read_cases(cases), read_wanted(wanted)
    if [c.title for c in cases] != [title for title, _ in wanted]:
        sys.exit("the cases are not those of the listings")
    return [(case, lines) for case, (_, lines) in zip(cases, wanted)]


def listed(lines):
    """The buffers that a listing shows, or None where it is none."""
    buffers, now = {}, None
    for line in lines:
        word, _, rest = line.partition(" ")
        if word == "buffer":
            now = tuple(int(n) for n in rest.split())
            buffers[now] = b""
        elif word == "bytes" or re.fullmatch("[0-9a-f]{8}", word):
            buffers[now] += hex_bytes(rest if word == "bytes" else line)
        else:
            return None
    return buffers
