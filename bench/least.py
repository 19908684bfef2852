"""Prints rows of programs for `expand_rows --counted`, for bench/least.sh, and the rows of crates/expand_rows/data/counted.txt.

least.py rows FAMILY:LEVELS:STORES[:EXPORT,..] ..: a row for each program.
least.py answers ..: what `expand_rows --counted` must say of each, worked out here.

A program has LEVELS functions of one parameter, the first of which is the entry and is called with 1. Each but the last calls
the next twice. The last stores STORES times and returns its parameter; so many exports follow as sizes are listed, each a
function of so many instructions. The families differ in what the calls pass on of a parameter x:
doubling: 2x and 2x + 1, so each level has twice as many demands as the one before.
sharing: x and x + 1, so each level has one demand more than the one before.
"""

import sys

PASSED = {
    "doubling": (["%d = mul i32 %x, 2", "%e = add i32 %d, 1"], lambda x: (2 * x, 2 * x + 1)),
    "sharing": (["%d = add i32 %x, 0", "%e = add i32 %x, 1"], lambda x: (x, x + 1)),
}
DEMANDS, CODE = 65536, 8388608


def parts(word):
    family, levels, stores, *exports = word.split(":")
    sizes = [int(size) for size in exports[0].split(",")] if exports else []
    return family, int(levels), int(stores), sizes


def inner(family, place):
    lines, _ = PASSED[family]
    to = f"@f{place + 1}"
    return [*lines, f"%p = call i32 {to}(i32 %d)", f"%q = call i32 {to}(i32 %e)", "%s = add i32 %p, %q", "ret i32 %s"]


def function(head, lines):
    return [f"define {head} {{", *[f"  {line}" for line in lines], "}"]


def row(word):
    family, levels, stores, sizes = parts(word)
    exports = ",".join(f'"e{k}"' for k in range(len(sizes)))
    lines = [f"; == {word}"]
    lines += [f'{{"version":1,"modules":["a.ll"],"entry":{{"name":"f0","args":[1]}},"exports":[{exports}]}}', "; --"]
    for place in range(levels):
        last = place + 1 == levels
        body = ["store i32 %x, ptr null"] * stores + ["ret i32 %x"] if last else inner(family, place)
        lines += function(f"{'' if place == 0 else 'internal '}i32 @f{place}(i32 %x)", body)
    for k, size in enumerate(sizes):
        lines += function(f"void @e{k}()", ["store i32 1, ptr null"] * (size - 1) + ["ret void"])
    return "\n".join(lines)


def answer(word):
    family, levels, stores, sizes = parts(word)
    _, passed = PASSED[family]
    here, count, code = {1}, len(sizes), sum(sizes)
    for place in range(levels):
        count += len(here)
        # An inner function keeps its calls, their sum and its return.
        code += len(here) * (stores + 1 if place + 1 == levels else 4)
        here = {value % 2**32 for x in here for value in passed(x)}
    if count > DEMANDS:
        return f"{word}: too many demands"
    if code > CODE:
        return f"{word}: too much code"
    return f"{word}: {count} needed, size {code}"


if __name__ == "__main__":
    for it in sys.argv[2:]:
        print({"rows": row, "answers": answer}[sys.argv[1]](it))
