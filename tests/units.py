#!/usr/bin/env python3
"""Works out cases of the checker from tables of the language alone: built-in functions (GLSL 4.50, 8.3, 8.7 and 8.8), qualifiers, built-in variables.

units.py cases    the cases, which stand last in crates/gsl_units/data/units.cases
units.py wanted   what each must print, which stands last in crates/gsl_units/stdout
"""
import sys

MAIN = "void main() {}"
BUFFER = "layout(set = 0, binding = 0, std430) "
GROUPS = []


def group(name):
    GROUPS.append((name, []))


def case(stage, title, source, wanted):
    GROUPS[-1][1].append((stage, title, source, wanted))


def refused(title, code, line, *source, stage="comp"):
    case(stage, title, source, f"{code} line {line}")


def accepted(title, blocks, interfaces, functions, *source, stage="comp"):
    """Sources with no struct and no variable."""
    case(stage, title, source, f"0 structs, 0 variables, {blocks} blocks, {interfaces} inputs and outputs, {functions} heads, {functions} functions")


INT = ["int", "ivec2", "ivec3", "ivec4"]
UINT = ["uint", "uvec2", "uvec3", "uvec4"]
BOOL = ["bool", "bvec2", "bvec3", "bvec4"]


def forms():
    """For each built-in function the types of its parameters and of its result, form by form."""
    all_forms = {}

    def both(name, of):
        all_forms[name] = [form for types in (INT, UINT) for n in range(4) for form in of(types, n)]

    for name in ("abs", "sign"):
        all_forms[name] = [((INT[n],), INT[n]) for n in range(4)]
    for name in ("min", "max"):
        both(name, lambda t, n: [((t[n], t[n]), t[n])] + ([((t[n], t[0]), t[n])] if n else []))
    both("clamp", lambda t, n: [((t[n],) * 3, t[n])] + ([((t[n], t[0], t[0]), t[n])] if n else []))
    all_forms["mix"] = [((t[n], t[n], BOOL[n]), t[n]) for t in (INT, UINT, BOOL) for n in range(4)]
    for name in ("lessThan", "lessThanEqual", "greaterThan", "greaterThanEqual"):
        all_forms[name] = [((t[n], t[n]), BOOL[n]) for t in (INT, UINT) for n in (1, 2, 3)]
    for name in ("equal", "notEqual"):
        all_forms[name] = [((t[n], t[n]), BOOL[n]) for t in (INT, UINT, BOOL) for n in (1, 2, 3)]
    for name in ("any", "all"):
        all_forms[name] = [((BOOL[n],), "bool") for n in (1, 2, 3)]
    all_forms["not"] = [((BOOL[n],), BOOL[n]) for n in (1, 2, 3)]
    for name in ("bitCount", "findLSB", "findMSB"):
        all_forms[name] = [((t[n],), INT[n]) for t in (INT, UINT) for n in range(4)]
    both("bitfieldReverse", lambda t, n: [((t[n],), t[n])])
    both("bitfieldExtract", lambda t, n: [((t[n], "int", "int"), t[n])])
    both("bitfieldInsert", lambda t, n: [((t[n], t[n], "int", "int"), t[n])])
    return all_forms


def value(name):
    word = {"i": "1", "u": "1u", "b": "true"}[name[0]]
    return word if name in ("int", "uint", "bool") else f"{name}({word})"


def call(name, types):
    return f"{name}({', '.join(value(t) for t in types)})"


def functions():
    group("built-in functions in each form")
    for name, all_of in forms().items():
        lines = [f"  {result} r{k} = {call(name, types)};" for k, (types, result) in enumerate(all_of)]
        accepted(f"{name} in each form", 0, 0, 1, "void main() {", *lines, "}")
    group("built-in functions whose result is no int")
    for name, all_of in forms().items():
        of_uint = [types for types, result in all_of if result in UINT]
        if of_uint:
            refused(f"{name} of uint gives no int", "E0504", 2, f"void main() {{ int r = {call(name, of_uint[0])}; }}")
    group("built-in functions with other arguments")
    for name, all_of in forms().items():
        others(name, all_of[-1][0])


def others(name, types):
    def no_match(title, text):
        refused(title, "E0501", 2, f"void main() {{ {text}; }}")

    no_match(f"{name} of too many", call(name, types + (types[-1],)))
    no_match(f"{name} of nothing", f"{name}()")
    if name in ("any", "all", "not"):
        no_match(f"{name} of ints", f"{name}(ivec2(1))")
        no_match(f"{name} of a scalar", f"{name}(true)")
    elif name == "mix":
        no_match("mix by an int", "mix(1, 2, 1)")
        no_match("mix of two sizes", "mix(ivec2(1), ivec2(2), bvec3(true))")
    elif name in ("equal", "notEqual"):
        no_match(f"{name} of scalars", f"{name}(1, 2)")
        no_match(f"{name} of two sizes", f"{name}(ivec2(1), ivec3(2))")
    elif name.startswith(("less", "greater")):
        no_match(f"{name} of scalars", f"{name}(1, 2)")
        no_match(f"{name} of bools", f"{name}(bvec2(true), bvec2(false))")
    else:
        no_match(f"{name} of bools", f"{name}({', '.join('true' for _ in types)})")


MEMORY = ["coherent", "volatile", "restrict", "readonly", "writeonly"]
QUALIFIERS = ["const", "in", "out", "inout", "uniform", "buffer", "flat"] + MEMORY


def twice(q):
    if q == "flat":
        return ["layout(location = 0) flat flat out int a;", MAIN], "vert"
    if q in ("in", "out", "inout"):
        return [f"void f({q} {q} int a) {{}}", MAIN], "comp"
    if q == "const":
        return ["const const int a = 1;", MAIN], "comp"
    kind = "buffer " if q in MEMORY else ""
    return [f"layout(set = 0, binding = 0) {kind}{q} {q} B {{ int a; }};", MAIN], "comp"


def qualifiers():
    group("qualifiers where they may not stand")

    def no(title, *source, stage="comp"):
        refused(title, "E0701", 2, *source, stage=stage)

    for q in QUALIFIERS:
        if q != "const":
            no(f"{q} on a local variable of a block", f"void main() {{ {{ {q} int a; }} }}")
        if q not in ("const", "in", "out", "inout"):
            no(f"{q} on a parameter", f"void f({q} int a) {{}}", MAIN)
        no(f"{q} on a function", f"{q} int f() {{ return 1; }}", MAIN)
        if q in MEMORY + ["inout", "uniform", "buffer"]:
            no(f"{q} on a global variable", f"{q} int a;", MAIN)
        if q in ("const", "in", "out", "inout", "flat"):
            no(f"{q} on a buffer block", f"layout(set = 0, binding = 0) buffer {q} B {{ int a; }};", MAIN)
            no(f"{q} on a member of a block", BUFFER + f"buffer B {{ {q} int a; }};", MAIN)
        if q in MEMORY:
            no(f"{q} on a member of a uniform block", f"layout(set = 0, binding = 0) uniform U {{ {q} int a; }};", MAIN)
        source, stage = twice(q)
        no(f"{q} twice", *source, stage=stage)
    group("qualifiers where they may stand")
    accepted("qualifiers of parameters", 0, 0, 2, "void f(const int a, in int b, out int c, inout int d, const in int e, in const int g) {}", MAIN)
    members = " ".join(f"{q} int a{k};" for k, q in enumerate(MEMORY))
    accepted("qualifiers of members", 1, 0, 1, BUFFER + f"buffer B {{ {members} coherent volatile restrict int b; }};", MAIN)
    first = "coherent buffer layout(set = 0, binding = 0) restrict B { int a; };"
    accepted("qualifiers of blocks in any order", 2, 0, 1, first, "readonly layout(binding = 1) volatile buffer C { int b; };", MAIN)
    accepted("a local constant that others name", 0, 0, 1, "void main() { const int a = 1; const int b[2] = { a, a }; }")
    inputs = ["flat layout(location = 0) in int a;", "in flat layout(location = 1) ivec2 b;", "layout(location = 0) out int c;"]
    accepted("qualifiers of inputs and outputs", 0, 3, 1, *inputs, MAIN, stage="frag")


VARIABLES = {
    "gl_NumWorkGroups": ("comp", "uvec3"),
    "gl_WorkGroupID": ("comp", "uvec3"),
    "gl_LocalInvocationID": ("comp", "uvec3"),
    "gl_GlobalInvocationID": ("comp", "uvec3"),
    "gl_LocalInvocationIndex": ("comp", "uint"),
    "gl_WorkGroupSize": ("comp", "uvec3"),
    "gl_VertexIndex": ("vert", "int"),
    "gl_InstanceIndex": ("vert", "int"),
}


def variables():
    group("built-in variables in each stage")
    for name, (own, of_type) in VARIABLES.items():
        size = ["layout(local_size_x = 1) in;"] if own == "comp" else []
        for stage in ("comp", "vert", "frag"):
            if stage != own:
                refused(f"{name} in {stage}", "E0401", 2, f"void main() {{ {name}; }}", stage=stage)
                continue
            accepted(f"{name} in its stage", 0, 0, 1, *size, f"void main() {{ {of_type} a = {name}; }}", stage=stage)
            refused(f"{name} is only read", "E0507", 2 + len(size), *size, f"void main() {{ {name} = {of_type}(1); }}", stage=stage)


def main():
    functions()
    qualifiers()
    variables()
    for name, cases in GROUPS:
        if sys.argv[1:] == ["cases"]:
            print(f"\n# {name}")
        for stage, title, source, wanted in cases:
            if sys.argv[1:] == ["cases"]:
                print(f"\n{stage} {title}\n| #version 450")
                print("\n".join(f"| {line}" for line in source))
            else:
                print(f"{title}: {wanted}")


if sys.argv[1:] not in (["cases"], ["wanted"]):
    sys.exit(__doc__)
main()
