#!/usr/bin/env python3
"""agree.py GSL CASES WANTED [FOLDER]: whether the modules of the cases in CASES do what their shaders do. The program GSL runs each case by `run`, and compiles it by
`compile` and runs the module by `exec`; and what comes is compared with the listings in WANTED. The modules are left in FOLDER, each named by the number of its case.

The listings are those of `gsl_reference`, so three things are worded otherwise here, or count otherwise:
- an index out of bounds is told with the word of an instruction, which has to be one that reaches for memory or for a part of a value;
- a budget counts the turns and calls of a shader there, and the instructions of a module here. Where the shader ends within its budget, the module is run with the greatest one;
  and where it does not, the module, which takes an instruction at least for each turn and call, has to use up the same number too.
The status is 1 where something differs."""
import os
import re
import struct
import subprocess
import sys
import tempfile

from cases import read_both

GREATEST = "steps 1000000000"
REACHING = {61: "OpLoad", 62: "OpStore", 65: "OpAccessChain", 77: "OpVectorExtractDynamic", 78: "OpVectorInsertDynamic"}


def call(words, folder):
    """The status of a command, and the lines that it printed; without that of `./gsl` which says that its build is not proved."""
    done = subprocess.run(words, cwd=folder, stdout=subprocess.PIPE, stderr=subprocess.STDOUT, text=True, timeout=600)
    return done.returncode, [line for line in done.stdout.split("\n")[:-1] if not line.startswith("gsl: ")]


def wanted_of(lines):
    """The status that a listing tells, and the lines behind it."""
    if lines and lines[0].startswith("status "):
        return int(lines[0].split()[1]), lines[1:]
    return 0, lines


def begins(module):
    """The opcode of each instruction of a module by the word that it begins at."""
    words = struct.unpack("<%dI" % (len(module) // 4), module)
    found, at = {}, 5
    while at < len(words):
        found[at] = words[at] & 0xFFFF
        at += words[at] >> 16
    return found


def unworded(came, module):
    """What came, without the word at which a run strayed, where it is the word of an instruction that may stray."""
    status, lines = came
    told = re.fullmatch(r"strayed at word (\d+)", lines[-1]) if lines else None
    if status == 6 and told and begins(module).get(int(told[1])) in REACHING:
        return status, lines[:-1] + ["strayed"]
    return came


def prepared(case, status):
    if status != 5:
        case.lines = [GREATEST if re.fullmatch(r"steps \d+", line) else line for line in case.lines]


def differences(gsl, case, wanted, folder):
    """What differs from what is wanted of a case, and its module."""
    prepared(case, wanted[0])
    names = case.write(folder)
    out, module = os.path.join(folder, "out.spv"), b""
    made = call([gsl, "compile", case.stage, "out.spv"] + names, folder)
    if os.path.exists(out):
        module = open(out, "rb").read()
    if made != (wanted if wanted[0] == 1 else (0, [])):
        yield "compile", made
    ran = call([gsl, "run", case.stage, "inputs"] + names, folder)
    if unworded(ran, module) != wanted:
        yield "run", ran
    if module:
        checked = call([gsl, "check", "out.spv"], folder)
        if checked != (0, ["valid"]):
            yield "check", checked
        done = call([gsl, "exec", "out.spv", "inputs"], folder)
        if done != ran:
            yield "exec", done


def told(came):
    return " | ".join(["status %d" % came[0]] + came[1])


def main(gsl, cases, wanted, kept=None):
    news, count, modules = 0, 0, 0
    for case, lines in read_both(cases, wanted):
        count += 1
        with tempfile.TemporaryDirectory() as folder:
            found = list(differences(os.path.abspath(gsl), case, wanted_of(lines), folder))
            out = os.path.join(folder, "out.spv")
            if os.path.exists(out):
                modules += 1
                if kept:
                    os.replace(out, os.path.join(kept, "%d.spv" % count))
        for command, came in found:
            print("%s %s: %s: %s" % (case.stage, case.title, command, told(came)))
            print("  wanted %s" % told(wanted_of(lines)))
        news += bool(found)
    print("%d cases, %d modules, %d cases differ" % (count, modules, news))
    return 1 if news else 0


if __name__ == "__main__":
    sys.exit(main(*sys.argv[1:5]))
