"""Prints a module whose one function has a shape and a size, for bench/folding.sh.

adds N: one block of N additions, each over the one before; all are known.
nest N: loops in loops with 10 phis each, N phis in all; of each second phi the value stays.
switch N: a switch with N edges to one block with three phis.
fan N: a switch with an edge to each of N blocks, each of which has a phi.
ladder N: N branches, each to two blocks and a join.
"""

import sys


def adds(size):
    yield "  %v0 = add i32 1, 2"
    for k in range(1, size - 1):
        yield f"  %v{k} = add i32 %v{k - 1}, 3"
    yield f"  ret i32 %v{size - 2}"


def nest(size):
    depth = size // 10
    yield "entry:"
    yield "  %u = add i32 undef, 0"
    yield "  %c = icmp eq i32 %u, 0"
    yield "  br label %h0"
    for i in range(depth):
        yield f"h{i}:"
        before = "entry" if i == 0 else f"h{i - 1}"
        for j in range(10):
            start = "1" if i == 0 else f"%p{i - 1}.{j}"
            yield f"  %p{i}.{j} = phi i32 [ {start}, %{before} ], [ %q{i}.{j}, %l{i} ]"
        after = f"h{i + 1}" if i + 1 < depth else f"l{i}"
        yield f"  br label %{after}"
    for i in reversed(range(depth)):
        yield f"l{i}:"
        for j in range(10):
            yield f"  %q{i}.{j} = add i32 %p{i}.{j}, {j % 2}"
        outer = f"l{i - 1}" if i > 0 else "done"
        yield f"  br i1 %c, label %h{i}, label %{outer}"
    yield "done:"
    yield "  ret i32 %p0.0"


def switch(size):
    yield "entry:"
    yield "  switch i32 undef, label %x ["
    for k in range(size - 1):
        yield f"    i32 {k}, label %x"
    yield "  ]"
    yield "x:"
    for j in range(3):
        yield f"  %p{j} = phi i32 " + ", ".join(["[ 7, %entry ]"] * size)
    yield "  ret i32 %p0"


def fan(size):
    yield "entry:"
    yield "  switch i32 undef, label %x0 ["
    for k in range(1, size):
        yield f"    i32 {k}, label %x{k}"
    yield "  ]"
    for k in range(size):
        yield f"x{k}:"
        yield f"  %p{k} = phi i32 [ {k}, %entry ]"
        yield f"  ret i32 %p{k}"


def ladder(size):
    yield "entry:"
    yield "  %u = add i32 undef, 0"
    yield "  %c = icmp eq i32 %u, 0"
    yield "  br label %j0"
    for k in range(size):
        yield f"j{k}:"
        if k > 0:
            yield f"  %p{k} = phi i32 [ %a{k - 1}, %x{k - 1} ], [ %b{k - 1}, %y{k - 1} ]"
        yield f"  br i1 %c, label %x{k}, label %y{k}"
        value = "0" if k == 0 else f"%p{k}"
        yield f"x{k}:"
        yield f"  %a{k} = add i32 {value}, 1"
        yield f"  br label %j{k + 1}"
        yield f"y{k}:"
        yield f"  %b{k} = add i32 1, {value}"
        yield f"  br label %j{k + 1}"
    yield f"j{size}:"
    yield f"  %p{size} = phi i32 [ %a{size - 1}, %x{size - 1} ], [ %b{size - 1}, %y{size - 1} ]"
    yield f"  ret i32 %p{size}"


SHAPES = {"adds": adds, "nest": nest, "switch": switch, "fan": fan, "ladder": ladder}

if __name__ == "__main__":
    print("define i32 @f() {")
    for line in SHAPES[sys.argv[1]](int(sys.argv[2])):
        print(line)
    print("}")
