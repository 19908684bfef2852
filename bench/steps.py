"""Prints a module whose `main` runs a loop of so many rounds, for bench/steps.sh.

sums: sixteen operations on integers a round.
calls: a call a round of a function of two arguments.
memory: a store and a load a round, each with its address, in an array of sixteen numbers.
phis: eight phis a round, of which each takes the value of the next, beside the one that counts.
"""

import sys


def sums():
    operations = ["mul", "add", "xor", "sub"]
    yield "  %x0 = phi i32 [ 1, %entry ], [ %x16, %loop ]"
    for k in range(16):
        yield f"  %x{k + 1} = {operations[k % 4]} i32 %x{k}, {1664525 + 2 * k}"


def calls():
    yield "  %x = phi i32 [ 1, %entry ], [ %y, %loop ]"
    yield "  %y = call i32 @next(i32 %x, i32 %i)"


def memory():
    yield "  %k = and i32 %i, 15"
    yield "  %p = getelementptr [16 x i32], ptr @words, i64 0, i32 %k"
    yield "  store i32 %i, ptr %p"
    yield "  %m = xor i32 %k, 5"
    yield "  %q = getelementptr [16 x i32], ptr @words, i64 0, i32 %m"
    yield "  %x = load i32, ptr %q"


def phis():
    for k in range(8):
        yield f"  %x{k} = phi i32 [ {k}, %entry ], [ %x{(k + 1) % 8}, %loop ]"


SHAPES = {"sums": sums, "calls": calls, "memory": memory, "phis": phis}


def module(shape, rounds):
    yield "@words = global [16 x i32] zeroinitializer"
    yield "define i32 @next(i32 %a, i32 %b) {"
    yield "  %s = add i32 %a, %b"
    yield "  ret i32 %s"
    yield "}"
    yield "define i32 @main() {"
    yield "entry:"
    yield "  br label %loop"
    yield "loop:"
    yield "  %i = phi i32 [ 0, %entry ], [ %j, %loop ]"
    yield from SHAPES[shape]()
    yield "  %j = add i32 %i, 1"
    yield f"  %c = icmp ult i32 %j, {rounds}"
    yield "  br i1 %c, label %loop, label %done"
    yield "done:"
    yield "  ret i32 0"
    yield "}"


if __name__ == "__main__":
    for line in module(sys.argv[1], int(sys.argv[2])):
        print(line)
