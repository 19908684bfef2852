#!/usr/bin/env python3
"""Writes the table of crates/arith_rows and what the program must print of it: every operation at the ends of every width, with
and without each of its flags, every predicate and every cast. The answers are worked out with Python's whole numbers from the
words of the LLVM Language Reference Manual, and not by the program's own formulas.

    bench/arithmetic.py          writes data/rows.txt and stdout
    bench/arithmetic.py --llvm   also compares the defined rows without flags with what `opt` folds them to, and `nuw` and
                                 `nsw` of sums with LLVM's own test of overflow

A row is `OPERATION FLAGS TYPE A B` (flags joined by `+`, or `-`), `icmp PREDICATE TYPE A B`, or `CAST FLAGS FROM TO A`.
"""
import itertools
import pathlib
import re
import subprocess
import sys

CRATE = pathlib.Path(__file__).resolve().parent.parent / "crates" / "arith_rows"
WIDTHS = [1, 8, 16, 32, 64]
FLAGS = {
    "add": ["nuw", "nsw"], "sub": ["nuw", "nsw"], "mul": ["nuw", "nsw"], "shl": ["nuw", "nsw"],
    "udiv": ["exact"], "sdiv": ["exact"], "lshr": ["exact"], "ashr": ["exact"],
    "urem": [], "srem": [], "and": [], "or": ["disjoint"], "xor": [],
}
PREDICATES = ["eq", "ne", "ugt", "uge", "ult", "ule", "sgt", "sge", "slt", "sle"]
SHIFTS = ["shl", "lshr", "ashr"]
DIVISIONS = ["udiv", "sdiv", "urem", "srem"]
SUMS = {"add": lambda a, b: a + b, "sub": lambda a, b: a - b, "mul": lambda a, b: a * b}
BITS = {"and": lambda a, b: a & b, "or": lambda a, b: a | b, "xor": lambda a, b: a ^ b}


def ends(width):
    half, whole = 2 ** (width - 1), 2**width
    return sorted({n for n in (0, 1, 2, half - 1, half, whole - 2, whole - 1) if 0 <= n < whole})


def signed(width, n):
    return n - 2**width if n >= 2 ** (width - 1) else n


def in_range(width, z):
    return -(2 ** (width - 1)) <= z < 2 ** (width - 1)


def towards_zero(x, y):
    quotient = abs(x) // abs(y)
    return quotient if (x < 0) == (y < 0) else -quotient


def sum_of(op, flags, width, a, b):
    unsigned = SUMS[op](a, b)
    if "nuw" in flags and not 0 <= unsigned < 2**width:
        return "poison"
    if "nsw" in flags and not in_range(width, SUMS[op](signed(width, a), signed(width, b))):
        return "poison"
    return unsigned % 2**width


def quotient_of(op, flags, width, a, b):
    if b == 0:
        return "undefined DivideByZero"
    x, y = (a, b) if op in ("udiv", "urem") else (signed(width, a), signed(width, b))
    if op in ("sdiv", "srem") and not in_range(width, towards_zero(x, y)):
        return "undefined DivideOverflow"
    quotient = towards_zero(x, y)
    remainder = x - quotient * y
    if op in ("urem", "srem"):
        return remainder % 2**width
    if "exact" in flags and remainder != 0:
        return "poison"
    return quotient % 2**width


def shift_of(op, flags, width, a, by):
    if by >= width:
        return "poison"
    if op == "shl":
        if "nuw" in flags and a * 2**by >= 2**width:
            return "poison"
        if "nsw" in flags and not in_range(width, signed(width, a) * 2**by):
            return "poison"
        return a * 2**by % 2**width
    if "exact" in flags and a & (2**by - 1):
        return "poison"
    return a >> by if op == "lshr" else (signed(width, a) >> by) % 2**width


def bits_of(op, flags, a, b):
    return "poison" if "disjoint" in flags and a & b else BITS[op](a, b)


def operation(op, flags, width, a, b):
    if op in SUMS:
        return sum_of(op, flags, width, a, b)
    if op in DIVISIONS:
        return quotient_of(op, flags, width, a, b)
    if op in SHIFTS:
        return shift_of(op, flags, width, a, b)
    return bits_of(op, flags, a, b)


def compared(predicate, width, a, b):
    if predicate.startswith("s"):
        a, b = signed(width, a), signed(width, b)
    holds = {"eq": a == b, "ne": a != b, "gt": a > b, "ge": a >= b, "lt": a < b, "le": a <= b}
    return str(holds[predicate[-2:]]).lower()


def cast(op, flags, width, to, a):
    if "nneg" in flags and signed(width, a) < 0:
        return "poison"
    return (signed(width, a) if op == "sext" else a) % 2**to


def subsets(flags):
    return [list(chosen) for n in range(len(flags) + 1) for chosen in itertools.combinations(flags, n)]


def operation_rows():
    for op, allowed in FLAGS.items():
        for flags in subsets(allowed):
            for width in WIDTHS:
                amounts = {width - 1, width} if op in SHIFTS and width > 1 else set()
                for a in ends(width):
                    for b in sorted(amounts.union(ends(width))):
                        yield f"{op} {'+'.join(flags) or '-'} i{width} {a} {b}", operation(op, flags, width, a, b)


def comparison_rows():
    for predicate in PREDICATES:
        for width in WIDTHS:
            for a, b in itertools.product(ends(width), repeat=2):
                yield f"icmp {predicate} i{width} {a} {b}", compared(predicate, width, a, b)


def cast_rows():
    for op, allowed in (("zext", ["nneg"]), ("sext", []), ("trunc", [])):
        for flags in subsets(allowed):
            for width, to in itertools.permutations(WIDTHS, 2):
                if (to < width) == (op == "trunc"):
                    for a in ends(width):
                        yield f"{op} {'+'.join(flags) or '-'} i{width} i{to} {a}", cast(op, flags, width, to, a)


# ---- a second opinion


def llvm_cast(op, ty, a, to):
    return f"define {to} @fN() {{\n  %r = {op} {ty} {a} to {to}\n  ret {to} %r\n}}\n"


def llvm_overflow(op, flag, ty, a, b):
    name = f"@llvm.{flag[1]}{op}.with.overflow.{ty}"
    return (
        f"define i1 @fN() {{\n  %r = call {{{ty}, i1}} {name}({ty} {a}, {ty} {b})\n"
        f"  %o = extractvalue {{{ty}, i1}} %r, 1\n  ret i1 %o\n}}\n"
    )


def llvm_question(row, answer):
    """A function of LLVM and what it must fold to, where LLVM has an answer of its own."""
    op, flags, ty, a, b = row.split()
    if str(answer).startswith("undefined"):
        return None
    if op == "icmp":
        return f"define i1 @fN() {{\n  %r = icmp {flags} {ty} {a}, {b}\n  ret i1 %r\n}}\n", answer
    if op in SUMS and flags in ("nuw", "nsw"):
        overflow = {"nuw": "nu", "nsw": "ns"}[flags]
        return llvm_overflow(op, overflow, ty, a, b), str(answer == "poison").lower()
    if flags != "-":
        return None
    if op in FLAGS:
        return f"define {ty} @fN() {{\n  %r = {op} {ty} {a}, {b}\n  ret {ty} %r\n}}\n", answer
    return llvm_cast(op, ty, b, a), answer


def as_number(width, text):
    if text in ("true", "false"):
        return int(text == "true")
    return text if text == "poison" else int(text) % 2**width


def overflow_declarations():
    for sign, op, width in itertools.product("us", SUMS, WIDTHS):
        yield f"declare {{i{width}, i1}} @llvm.{sign}{op}.with.overflow.i{width}(i{width}, i{width})\n"


def compare_with_llvm(rows):
    asked = [(row, llvm_question(row, answer)) for row, answer in rows if llvm_question(row, answer)]
    functions = [question[0].replace("@fN", f"@f{number}") for number, (_, question) in enumerate(asked)]
    opt = ["opt", "-S", "-passes=instsimplify"]
    module = "".join([*overflow_declarations(), *functions])
    text = subprocess.run(opt, input=module, capture_output=True, text=True, check=True).stdout
    found = re.findall(r"define i(\d+) @f(\d+)\(\).*?\{\n  ret i\d+ (\S+)\n\}", text)
    differ = 0
    for width, number, value in found:
        row, (_, wanted) = asked[int(number)]
        if as_number(int(width), value) != as_number(int(width), str(wanted)):
            print(f"{row}: {wanted}, and LLVM says {value}")
            differ += 1
    print(f"{len(found)} of {len(asked)} rows folded by LLVM, {differ} differ")
    return len(found) == len(asked) and differ == 0


def main():
    rows = [*operation_rows(), *comparison_rows(), *cast_rows()]
    (CRATE / "data").mkdir(exist_ok=True)
    (CRATE / "data" / "rows.txt").write_text("".join(f"{row}\n" for row, _ in rows))
    (CRATE / "stdout").write_text("".join(f"{row}: {answer}\n" for row, answer in rows))
    print(f"{len(rows)} rows")
    return "--llvm" not in sys.argv[1:] or compare_with_llvm(rows)


if __name__ == "__main__":
    sys.exit(0 if main() else 1)
