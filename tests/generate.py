#!/usr/bin/env python3
"""Writes sources to measure on, to standard output.

generate.py functions N     a compute shader of N functions that main calls one behind the other
generate.py tokens BYTES    dense tokens: statements of one function, about so many bytes (of 1 MiB fewer than the 1,000,000
                            tokens that a source may have)
generate.py macros N        N object macros, each defined as the one before it, and a use of the last
generate.py uses N          N uses of a function macro in one another's results
generate.py directives N    N definitions of macros
generate.py conditions N    N conditions, one in another
generate.py parens N        N open parentheses, behind a line with the version
generate.py choices N       a statement of N conditional operators, each in the one before it
generate.py elses N         N ifs, each in the else of the one before it
generate.py nested N        N uses of a function macro, each in the one before it
generate.py tests N         a condition that begins with N parentheses
generate.py globals N       N global variables, of which main reads the first and the last
generate.py locals N        N local variables, in scopes of 100 each, 100 deep within each other
generate.py overloads N     N functions of one name (20,736 at most), and a call of the last
generate.py fields N        a struct of N members, and an access to the last
generate.py parts N         an array of N elements with an initialiser list
generate.py twice N         a chain of N structs, each of which holds the one before it twice
generate.py structs N       N structs of one member each
generate.py units N         unit N of 64 (from 0): 1,000 functions that each call one of the unit before, which it declares; main is in unit 0
generate.py assembly BYTES  the text of a module, of sums one behind the other, about so many bytes
generate.py module N        the text of a module of N functions that main calls: straight ones, ones with an if, and ones with a loop
generate.py heights N       the text of a module with N types, each an array of the one before it
generate.py nests N         the text of a module with N selections, each in an arm of the one before it
generate.py blocks N        the text of a module with one function of N blocks
generate.py chain N         the text of a module with N functions, each of which calls the next one
generate.py pairs N         the text of a module with a Switch of N pairs
generate.py members N       the text of a module with a struct of N members
generate.py marks N         the text of a module with N decorated members in a buffer
"""
import sys


def functions(count):
    yield "#version 450\nlayout(local_size_x = 1) in;\nlayout(set = 0, binding = 0, std430) buffer B { uint s; };\n"
    for k in range(count):
        yield f"uint f{k}(uint x) {{ x = x * 1664525u + {k}u; return x ^ (x >> 3); }}\n"
    yield "void main() {\n"
    for k in range(count):
        yield f"s = f{k}(s);\n"
    yield "}\n"


def tokens(size):
    yield "#version 450\nlayout(local_size_x = 1) in;\nvoid main() {\nint ab;\n"
    line = "ab=ab+1;ab=ab+2;ab=ab+3;ab=ab+4;ab=ab+5;ab=ab+6;ab=ab+7;ab=ab+8;\n"
    for _ in range(size // len(line)):
        yield line
    yield "}\n"


def macros(count):
    yield "#version 450\n#define M0 1\n"
    for k in range(1, count):
        yield f"#define M{k} M{k - 1}\n"
    yield f"int a = M{count - 1};\n"


def uses(count):
    yield "#version 450\n#define f(x) x + g(x)\n#define g(x) x\n"
    for _ in range(count):
        yield "int a = f(1 2 3);\n"


def directives(count):
    yield "#version 450\n"
    for k in range(count):
        yield f"#define M{k} {k}\n#undef M{k}\n"


def assembly(size):
    line = len("%1000000 = OpIAdd %5 %6 %6\n")
    count = max(size // line, 1)
    yield f"spirv 1.0 {count + 10}\n"
    yield "OpCapability Shader\nOpMemoryModel Logical GLSL450\n"
    yield "OpEntryPoint GLCompute %1 \"main\"\nOpExecutionMode %1 LocalSize 1 1 1\n"
    yield "%2 = OpTypeVoid\n%3 = OpTypeFunction %2\n%5 = OpTypeInt 32 0\n%6 = OpConstant %5 7\n"
    yield "%1 = OpFunction %2 0 %3\n%4 = OpLabel\n"
    for k in range(count):
        yield f"%{k + 7} = OpIAdd %5 %6 %6\n"
    yield "OpReturn\nOpFunctionEnd\n"


def head(bound):
    yield f"spirv 1.0 {bound}\nOpCapability Shader\nOpMemoryModel Logical GLSL450\n"
    yield "OpEntryPoint GLCompute %1 \"main\"\nOpExecutionMode %1 LocalSize 1 1 1\n"


PLAIN = "%2 = OpTypeVoid\n%3 = OpTypeFunction %2\n%5 = OpTypeInt 32 0\n%6 = OpConstant %5 7\n%7 = OpTypeBool\n%8 = OpConstantTrue %7\n"
MAIN = "%1 = OpFunction %2 0 %3\n%4 = OpLabel\nOpReturn\nOpFunctionEnd\n"


# straight code, an if, and a loop, each over the parameter p, with ids from i on
STRAIGHT = """%{i} = OpLabel
%{a} = OpIMul %5 %{p} %6
%{b} = OpIAdd %5 %{a} %6
OpReturnValue %{b}
"""
BRANCHING = """%{i} = OpLabel
%{a} = OpIEqual %7 %{p} %6
OpSelectionMerge %{b} 0
OpBranchConditional %{a} %{c} %{b}
%{c} = OpLabel
OpReturnValue %6
%{b} = OpLabel
%{d} = OpIMul %5 %{p} %6
OpReturnValue %{d}
"""
LOOPING = """%{i} = OpLabel
%{a} = OpVariable %9 Function %6
OpBranch %{b}
%{b} = OpLabel
OpLoopMerge %{c} %{d} 0
OpBranch %{e}
%{e} = OpLabel
%{f} = OpLoad %5 %{a}
%{g} = OpIEqual %7 %{f} %{p}
OpSelectionMerge %{h} 0
OpBranchConditional %{g} %{c} %{h}
%{h} = OpLabel
OpBranch %{d}
%{d} = OpLabel
%{j} = OpLoad %5 %{a}
%{k} = OpIAdd %5 %{j} %6
OpStore %{a} %{k}
OpBranch %{b}
%{c} = OpLabel
OpReturnValue %6
"""


def module(count):
    yield from head(40 * count + 40)
    yield "OpDecorate %20 BufferBlock\nOpMemberDecorate %20 0 Offset 0\nOpDecorate %23 DescriptorSet 0\nOpDecorate %23 Binding 0\n"
    yield PLAIN + "%9 = OpTypePointer Function %5\n%10 = OpTypeFunction %5 %5\n%20 = OpTypeStruct %5\n%21 = OpTypePointer Uniform %20\n"
    yield "%22 = OpTypePointer Uniform %5\n%23 = OpVariable %21 Uniform\n%24 = OpConstant %5 0\n"
    for n in range(count):
        first = 40 * (n + 1)
        names = dict(zip("ipabcdefghjk", range(first + 1, first + 13)))
        yield f"%{first} = OpFunction %5 0 %10\n%{names['p']} = OpFunctionParameter %5\n"
        yield (STRAIGHT, BRANCHING, LOOPING)[n % 3].format(**names) + "OpFunctionEnd\n"
    yield "%1 = OpFunction %2 0 %3\n%4 = OpLabel\n"
    for n in range(count):
        first = 40 * (n + 1)
        yield f"%{first + 20} = OpAccessChain %22 %23 %24\n%{first + 21} = OpLoad %5 %{first + 20}\n"
        yield f"%{first + 22} = OpFunctionCall %5 %{first} %{first + 21}\nOpStore %{first + 20} %{first + 22}\n"
    yield "OpReturn\nOpFunctionEnd\n"


def heights(count):
    yield from head(count + 20)
    yield PLAIN
    for n in range(count):
        yield f"%{n + 20} = OpTypeArray %{n + 19 if n else 5} %6\n"
    yield MAIN


def nests(count):
    yield from head(2 * count + 20)
    yield PLAIN + "%1 = OpFunction %2 0 %3\n%4 = OpLabel\n"
    for n in range(count):
        yield f"OpSelectionMerge %{2 * n + 21} 0\nOpBranchConditional %8 %{2 * n + 20} %{2 * n + 21}\n%{2 * n + 20} = OpLabel\n"
    if count:
        yield f"OpBranch %{2 * count + 19}\n"
    for n in reversed(range(count)):
        yield f"%{2 * n + 21} = OpLabel\n" + (f"OpBranch %{2 * n + 19}\n" if n else "")
    yield "OpReturn\nOpFunctionEnd\n"


def blocks(count):
    yield from head(count + 20)
    yield PLAIN + "%1 = OpFunction %2 0 %3\n%4 = OpLabel\n"
    for n in range(count):
        yield f"OpBranch %{n + 20}\n%{n + 20} = OpLabel\n"
    yield "OpReturn\nOpFunctionEnd\n"


def chain(count):
    yield from head(3 * count + 20)
    yield PLAIN + MAIN
    for n in range(count):
        first = 3 * n + 20
        yield f"%{first} = OpFunction %2 0 %3\n%{first + 1} = OpLabel\n"
        if n + 1 < count:
            yield f"%{first + 2} = OpFunctionCall %2 %{first + 3}\n"
        yield "OpReturn\nOpFunctionEnd\n"


def pairs(count):
    yield from head(20)
    yield PLAIN + "%1 = OpFunction %2 0 %3\n%4 = OpLabel\nOpSelectionMerge %11 0\nOpSwitch %6 %10"
    for n in range(count):
        yield f" {n} %10"
    yield "\n%10 = OpLabel\nOpBranch %11\n%11 = OpLabel\nOpReturn\nOpFunctionEnd\n"


def members(count):
    yield from head(20)
    yield PLAIN + "%9 = OpTypeStruct" + " %5" * count + "\n" + MAIN


def marks(count):
    yield from head(20)
    yield "OpDecorate %9 BufferBlock\nOpDecorate %11 DescriptorSet 0\nOpDecorate %11 Binding 0\n"
    for n in range(count):
        yield f"OpMemberDecorate %9 {n} Offset {4 * n}\n"
    yield PLAIN + "%9 = OpTypeStruct" + " %5" * count + "\n%10 = OpTypePointer Uniform %9\n%11 = OpVariable %10 Uniform\n" + MAIN


def shader(statements):
    yield "#version 450\nlayout(local_size_x = 1) in;\n\nlayout(set = 0, binding = 0, std430) buffer B { int a; };\n"
    yield f"void main() {{ {statements} }}\n"


def parens(count):
    yield "#version 450\n" + "(" * count


def choices(count):
    yield from shader("a = " + "a ? 1, " * count + "1" + " : 1" * count + ";")


def elses(count):
    yield from shader("if (a == 0) a, a; else " * count + ";")


def nested(count):
    yield "#version 450\n#define f(x) x\n" + "f(" * count + "1" + ")" * count + "\n"


def tests(count):
    yield "#version 450\n#if " + "(" * count + "\n"


def conditions(count):
    yield "#version 450\n"
    for _ in range(count):
        yield "#if 1 + 1 == 2\n"
    yield "int a;\n"
    for _ in range(count):
        yield "#endif\n"


def globals_(count):
    yield "#version 450\n"
    for n in range(count):
        yield f"int v{n};\n"
    yield f"void main() {{ int a = v0 + v{count - 1}; }}\n"


def locals_(count):
    yield "#version 450\nvoid main() {\n"
    for n in range(count):
        if n % 100 == 0:
            yield "}" * 100 + "\n" if n and n // 100 % 100 == 0 else ""
            yield "{\n"
        yield f"int v{n % 10000} = {n};\n"
    yield "}" * ((count - 1) // 100 % 100 + 1) + "}\n"


def overloads(count):
    kinds = "bool int uint bvec2 bvec3 bvec4 ivec2 ivec3 ivec4 uvec2 uvec3 uvec4".split()
    yield "#version 450\n"
    for n in range(count):
        yield "void f({});\n".format(", ".join(kinds[n // 12**k % 12] for k in range(4)))
    values = [f"{kinds[(count - 1) // 12**k % 12]}(1)" for k in range(4)]
    yield "void main() {{ f({}); }}\n".format(", ".join(values))


def fields(count):
    yield "#version 450\nstruct S {\n"
    for n in range(count):
        yield f"int m{n};\n"
    yield f"}};\nvoid main() {{ S s; s.m{count - 1} = 1; }}\n"


def parts(count):
    yield f"#version 450\nint a[{count}] = {{\n"
    for n in range(count):
        yield f"{n},\n"
    yield "};\nvoid main() {}\n"


def twice(count):
    yield "#version 450\nstruct S0 { int a; };\n"
    for n in range(1, count):
        yield f"struct S{n} {{ S{n - 1} a; S{n - 1} b; }};\n"
    yield f"void f(S{count - 1} s);\nvoid main() {{}}\n"


def structs(count):
    yield "#version 450\nlayout(local_size_x = 1) in;\n"
    for n in range(count):
        yield f"struct S{n} {{ int a{n % 7}; }};\n"


def units(number):
    yield "#version 450\nlayout(local_size_x = 1) in;\n"
    if number == 0:
        yield "uint f0_62(uint x);\nvoid main() { f0_62(1u); }\n"
        for n in range(1000):
            yield f"uint f{n}_0(uint x) {{ return x ^ {n}u; }}\n"
    else:
        for n in range(1000):
            yield f"uint f{n}_{number - 1}(uint x);\n"
        for n in range(1000):
            yield f"uint f{n}_{number}(uint x) {{ return x + f{n}_{number - 1}(x); }}\n"


KINDS = {f.__name__.rstrip("_"): f for f in (functions, tokens, macros, uses, directives, conditions, parens, choices, elses, nested, tests, globals_, locals_, overloads,
          fields, parts, twice, structs, units, assembly, module, heights, nests, blocks, chain, pairs, members, marks)}

if len(sys.argv) != 3 or sys.argv[1] not in KINDS or not sys.argv[2].isdigit():
    sys.exit(__doc__)
sys.stdout.writelines(KINDS[sys.argv[1]](int(sys.argv[2])))
