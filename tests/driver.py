#!/usr/bin/env python3
"""driver.py CASES WANTED HOST [GSL]: runs the compute shaders of the cases in CASES on a Vulkan device, compiled by glslang or by the program GSL, and compares the
buffers with the listings in WANTED. HOST is the program of vulkan_host.c. The one invocation that a case runs is picked by a `main` that stands in front of
the shader's own, so that cases with many invocations can be compared too; and for glslang private variables without an initialiser are given zeros.

Left out are the shaders of other stages; those of which nothing is listed (a fault, an index out of bounds, a budget that is spent); and those that draw
choices, which are the cases with `given choice`: a device chooses for itself there. KNOWN has the cases in which glslang or the device are known to give
other words, each with the reason, and OURS those of them in which the device does for a module of GSL too. The status is 1 where another case differs, or one of those does not."""
import os
import re
import struct
import subprocess
import sys
import tempfile

from cases import listed, read_both

LATE_VALUE = "glslang reads an argument that is a variable behind all arguments, and not in its turn"
LATE_READ = "glslang reads the old value of `op=` behind the right side"
NO_ZEROS = "glslang leaves open what is zeros here: variables whose declaration has no initialiser or did not run, and `out` parameters"
OURS = {"a loop without a test, and one without a header": "Mesa 22.3.6 forgets what the first of the two loops put into the buffer"}
KNOWN = {
    "op= reads the old value before its right side": LATE_READ,
    "op= keeps the value that its right side overwrites": LATE_READ,
    "an assignment stores behind what its right side sends back": LATE_READ,
    "arguments come from left to right, once": LATE_VALUE,
    "an inout parameter begins as its argument is in its turn": LATE_VALUE,
    "an argument that a later argument changes": LATE_VALUE,
    "an out parameter begins as zeros": NO_ZEROS,
    "an out struct begins as zeros": NO_ZEROS,
    "a variable whose declaration never ran is zeros": NO_ZEROS,
    "a declaration without an initialiser sets zeros each time": NO_ZEROS,
    "a variable of a loop's body is zeros each turn": NO_ZEROS,
    "the end of a function gives zeros": "glslang refuses a function that may come to its end without a value",
    "a constant belongs to its source, a block to all": "glslang refuses two constants of one name in two sources",
    "quotients go toward 0, and a rest has the sign of its divisor": "glslang gives the rest of two constants the sign of the dividend",
    "an int below a uint, a quotient and a rest of negative words": "Mesa gives the rest the sign of the dividend, which the language leaves open",
    "the same quotients where there is nothing to draw": "the language leaves quotients by 0 open: Mesa gives words of ones where zeros are drawn here",
    "a word of a bool that is not 0 is true, and is stored as 1": "glslang compares and copies structs in blocks word by word",
    **OURS,
}

WRAPPER = """
#undef main
void shader_main();
void main() {
  if (gl_WorkGroupID == uvec3(%d, %d, %d) && gl_LocalInvocationID == uvec3(%d, %d, %d)) shader_main();
}
"""


def places(module):
    """The kind of each block of a module by its set and binding."""
    words = struct.unpack("<%dI" % (len(module) // 4), module)
    marks, pointers, found, at = {}, {}, {}, 5
    while at < len(words):
        op, count = words[at] & 0xFFFF, words[at] >> 16
        args = words[at + 1 : at + count]
        if op == 71:
            marks.setdefault(args[0], {})[args[1]] = args[2:]
        elif op == 32:
            pointers[args[0]] = (args[1], args[2])
        elif op == 59 and args[2] in (2, 12):
            its = marks.get(args[1], {})
            block = marks.get(pointers[args[0]][1], {})
            storage = args[2] == 12 or 3 in block
            found[its[34][0], its[33][0]] = "storage" if storage else "uniform"
        at += count
    return found


def picked(case, given_zeros):
    """The sources of a case with the `main` that picks its invocation; and with zeros for the private variables that have no initialiser, where they are to be given."""
    group, local = case.three("group", "0"), case.three("local", "0")
    texts, begun = [], re.findall(r"(?m)^int (\w+) =", "".join(case.sources))
    for source in case.sources:
        head, _, rest = source.partition("\n")
        if given_zeros:
            rest = re.sub(r"(?m)^int (\w+);$", lambda m: m[0] if m[1] in begun else "int %s = 0;" % m[1], rest)
        texts.append(head + "\n#define main shader_main\n" + rest)
    texts[0] += WRAPPER % (group + local)
    return texts


def compiled(case, folder, gsl):
    """The module that glslang or GSL makes of the case, or why there is none."""
    names, out = [], os.path.join(folder, "out.spv")
    for number, text in enumerate(picked(case, not gsl)):
        names.append(os.path.join(folder, "%d.comp" % number))
        open(names[-1], "w").write(text)
    words = [gsl, "compile", "comp", out] if gsl else ["glslangValidator", "-V", "--target-env", "vulkan1.0", "-o", out]
    done = subprocess.run(words + names, stdout=subprocess.PIPE, stderr=subprocess.STDOUT, text=True)
    if done.returncode != 0:
        return None, " ".join(line for line in done.stdout.split("\n") if "ERROR" in line)[:300]
    return out, ""


def on_device(case, module, host, folder):
    """What the buffers hold behind the run, or why it did not come to its end."""
    bound = places(open(module, "rb").read())
    words, buffers = [], {}
    for place, given in sorted(case.buffers.items()):
        buffers[place] = given
        if place in bound:
            name = os.path.join(folder, "%d-%d" % place)
            open(name, "wb").write(given)
            words += [bound[place], str(place[0]), str(place[1]), name]
    if case.push is not None:
        name = os.path.join(folder, "push")
        open(name, "wb").write(case.push)
        words += ["push", name]
    groups = [str(n) for n in case.three("groups", "1")]
    try:
        done = subprocess.run([host, module] + groups + words, stdout=subprocess.PIPE, stderr=subprocess.STDOUT, text=True, timeout=60)
    except subprocess.TimeoutExpired:
        return None, "the device did not come to an end"
    if done.returncode != 0:
        return None, "status %d: %s" % (done.returncode, done.stdout[-200:])
    for k in range(0, len(words) - 3, 4):
        if words[k] != "push":
            buffers[int(words[k + 1]), int(words[k + 2])] = open(words[k + 3], "rb").read()
    return buffers, ""


def left_out(case, wanted):
    """Why a case is not compared, or None."""
    if case.stage != "comp":
        return "another stage"
    if wanted is None:
        return "nothing is listed"
    if "choice" in case.given:
        return "draws choices"
    return None


def shown(buffers):
    return "; ".join("%d %d: %s" % (*place, got.hex(" ", 4)) for place, got in sorted(buffers.items()))


def compare(case, wanted, host, gsl):
    """What became of a case: the same, other words, no module, or no end."""
    with tempfile.TemporaryDirectory() as folder:
        module, why = compiled(case, folder, gsl)
        if module is None:
            return "it is refused", why
        got, why = on_device(case, module, host, folder)
    if got is None:
        return "the device failed", why
    if got == wanted:
        return "the same words", ""
    return "other words", "\n  wanted %s\n  device %s" % (shown(wanted), shown(got))


def main(cases, wanted, host, gsl=None):
    counts, news = {}, 0
    known = OURS if gsl else KNOWN
    for case, lines in read_both(cases, wanted):
        buffers = listed(lines)
        what = left_out(case, buffers)
        if what is None:
            what, why = compare(case, buffers, host, gsl)
            if (what != "the same words") != (case.title in known):
                news += 1
                print("%s: %s: %s" % (case.title, what, why))
            if case.title in known:
                what += ", as is known"
        else:
            what = "left out: " + what
        counts[what] = counts.get(what, 0) + 1
    for what, count in sorted(counts.items()):
        print("%4d %s" % (count, what))
    return 1 if news else 0


if __name__ == "__main__":
    sys.exit(main(*sys.argv[1:5]))
