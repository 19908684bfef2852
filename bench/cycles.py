"""Prints one row of programs for `link_rows`, for bench/cycles.sh.

ring N: one module of N functions, each of which calls the next, and the last the first.
chain N: N functions, each of which calls the next, in modules of at most 62,500.
"""

import sys

IN_A_MODULE = 62500


def function(place, to):
    yield f"define void @f{place}() {{"
    if to is not None:
        yield f"  call void @f{to}()"
    yield "  ret void"
    yield "}"


def row(modules):
    names = ",".join(f'"{k}.ll"' for k in range(modules))
    yield "; == it"
    yield f'{{"version":1,"modules":[{names}],"entry":{{"name":"f0","args":[]}}}}'


def ring(size):
    yield from row(1)
    yield "; --"
    for place in range(size):
        yield from function(place, (place + 1) % size)


def chain(size):
    yield from row((size + IN_A_MODULE - 1) // IN_A_MODULE)
    for first in range(0, size, IN_A_MODULE):
        end = min(first + IN_A_MODULE, size)
        yield "; --"
        for place in range(first, end):
            yield from function(place, place + 1 if place + 1 < size else None)
        if end < size:
            yield f"declare void @f{end}()"


for line in {"ring": ring, "chain": chain}[sys.argv[1]](int(sys.argv[2])):
    print(line)
