#!/usr/bin/env python3
"""random_agree.py REFERENCE GSL FIRST COUNT [HOST]: whether the modules of random programs do what their shaders do, for the seeds from FIRST on. REFERENCE is the program of
`gsl_reference`, and GSL the compiler. The words that the module ends with by `exec` have to be those of the reference; and Khronos' `spirv-val` has to take it, where it is installed. With HOST, the program of vulkan_host.c, the programs are plain, and run on a Vulkan device too, compiled by GSL and by `glslangValidator`.

A program that differs is made smaller while it differs in the same way, and printed. Left out are those that have a fault, those that do not end within some turns and calls, and on
the device those that glslang refuses or makes an invalid module of. The status is 1 where one differs."""
import os
import shutil
import subprocess
import sys
import tempfile

from agree import call, unworded
from cases import listed
from driver import places
from random_programs import Expr, program, zero

STEPS = "steps 2000"
ALIKE = {"same", "fault", "budget", "glslang refuses", "glslang fails"}


class Judge:
    """What a program is run by."""

    def __init__(self, reference, gsl, host=None):
        self.reference, self.gsl, self.host = os.path.abspath(reference), os.path.abspath(gsl), host and os.path.abspath(host)
        self.validator = shutil.which("spirv-val")

    def difference(self, made):
        """A word for what differs, with what was wanted and what came; or the word `same`, or why nothing is compared."""
        with tempfile.TemporaryDirectory() as folder:
            names = made.write(folder)
            open(os.path.join(folder, "bounded"), "w").write("".join(line + "\n" for line in made.lines + [STEPS]))
            wanted = call([self.reference, made.stage, "bounded"] + names, folder)
            if wanted[0] in (1, 5):
                return ("fault", "budget")[wanted[0] == 5], wanted, None
            return self.compiled(made, wanted, names, folder)

    def compiled(self, made, wanted, names, folder):
        out = os.path.join(folder, "out.spv")
        came = call([self.gsl, "compile", made.stage, "out.spv"] + names, folder)
        if came != (0, []):
            return "compile", wanted, came
        came = call([self.validator, "--target-env", "vulkan1.0", "out.spv"], folder) if self.validator else (0, [])
        if came[0] != 0:
            return "spirv-val", wanted, came
        came = unworded(call([self.gsl, "exec", "out.spv", "inputs"], folder), open(out, "rb").read())
        if came != wanted:
            return "exec", wanted, came
        return self.on_devices(wanted, names, folder) if self.host and wanted[0] == 0 else ("same", wanted, came)

    def on_devices(self, wanted, names, folder):
        came = self.on_device("out.spv", folder)
        if came != listed(wanted[1]):
            return "device", wanted, (0, [shown(came)] if came else [])
        for name in names:
            os.rename(os.path.join(folder, name), os.path.join(folder, name + ".comp"))
        words = ["glslangValidator", "-V", "--target-env", "vulkan1.0", "-o", "other.spv"] + [name + ".comp" for name in names]
        other = call(words, folder)
        if other[0] != 0:
            return "glslang refuses", wanted, other
        came = self.on_device("other.spv", folder)
        if came is None:
            return "glslang fails", wanted, None
        if came != listed(wanted[1]):
            return "glslang", wanted, (0, [shown(came)])
        return "same", wanted, None

    def on_device(self, module, folder):
        """What the buffers hold behind the run of a module, or None where it does not come to its end."""
        bound, words, buffers = places(open(os.path.join(folder, module), "rb").read()), [], {}
        for line in open(os.path.join(folder, "inputs")).read().split("\n"):
            if line.startswith("buffer"):
                place = tuple(int(word) for word in line.split()[1:3])
                name = os.path.join(folder, "given %d %d" % place)
                shutil.copy(os.path.join(folder, line.split()[3]), name)
                buffers[place] = name
                words += [bound[place], str(place[0]), str(place[1]), name] if place in bound else []
            elif line.startswith("push"):
                words += ["push", os.path.join(folder, "push")]
        done = call([self.host, os.path.join(folder, module), "1", "1", "1"] + words, folder)
        if done[0] != 0:
            return None
        return {place: open(name, "rb").read() for place, name in buffers.items()}


def shown(buffers):
    return "; ".join("%d %d: %s" % (*place, got.hex(" ", 4)) for place, got in sorted(buffers.items()))


# ---- programs made smaller

def lists(stmts):
    """A list of statements, and all that are within it."""
    yield stmts
    for stmt in list(stmts):
        for part in stmt.parts:
            if isinstance(part, list):
                yield from lists(part)


def slots(parts):
    """Each place of an expression within pieces, outermost first."""
    for k, part in enumerate(parts):
        if isinstance(part, Expr):
            yield parts, k
            yield from slots(part.parts)
        elif isinstance(part, list):
            for stmt in part:
                yield from slots(stmt.parts)


def within(expr):
    for part in expr.parts:
        if isinstance(part, Expr):
            yield part
            yield from within(part)


def fewer(stmts, still):
    """Takes statements away, and puts those of a body in place of what it stands in."""
    changed, size = False, len(stmts)
    while size > 0:
        at = len(stmts) - size
        while at >= 0:
            kept = stmts[at : at + size]
            del stmts[at : at + size]
            if still():
                changed = True
            else:
                stmts[at:at] = kept
            at -= size
        size //= 2
    for at in reversed(range(len(stmts))):
        for part in getattr(stmts[at], "parts", []):
            if isinstance(part, list):
                kept = stmts[at]
                stmts[at : at + 1] = part
                if still():
                    changed = True
                    break
                stmts[at : at + len(part)] = [kept]
    return changed


def simpler(parts, k, still):
    """Puts a zero or a part of its own type in place of an expression."""
    kept = parts[k]
    if kept.type is None or kept.text() == zero(kept.type):
        return False
    tries = [Expr(kept.type, zero(kept.type))] + [part for part in within(kept) if part.type == kept.type]
    for other in tries:
        parts[k] = other
        if len(other.text()) < len(kept.text()) and still():
            return True
    parts[k] = kept
    return False


def smaller(made, still):
    """Makes a program smaller as long as it still does something."""
    changed = True
    while changed:
        changed = False
        for unit in made.units:
            for stmts in list(lists(unit)):
                changed |= fewer(stmts, still)
        for unit in made.units:
            for stmt in unit:
                for parts, k in list(slots(stmt.parts)):
                    changed |= simpler(parts, k, still)
        changed |= fewer(made.lines, still)


def told(seed, made, found):
    word, wanted, came = found
    print("seed %s: %s" % (seed, word))
    for source in made.sources():
        print("  | " + source.rstrip().replace("\n", "\n  | "))
    print("  inputs: %s" % "; ".join(made.lines))
    print("  wanted %s" % " | ".join(["status %d" % wanted[0]] + wanted[1]))
    print("  came   %s" % (came and " | ".join(["status %d" % came[0]] + came[1])), flush=True)


def main(reference, gsl, first, count, host=None):
    judge, counts = Judge(reference, gsl, host), {}
    for seed in range(int(first), int(first) + int(count)):
        made = program(seed, plain=host is not None)
        word, wanted, came = judge.difference(made)
        counts[word] = counts.get(word, 0) + 1
        if word not in ALIKE:
            smaller(made, lambda: judge.difference(made)[0] == word)
            told(seed, made, judge.difference(made))
    print(", ".join("%d %s" % (counts[word], word) for word in sorted(counts)))
    return 1 if set(counts) - ALIKE else 0


if __name__ == "__main__":
    if len(sys.argv) not in (5, 6):
        sys.exit(__doc__)
    sys.exit(main(*sys.argv[1:]))
