"""Prints one script for `memory_rows`, for bench/memory.sh.

blocks N: N blocks of 16 bytes, each made and then ended.
make N: one block of N bytes.
fill N: the same, and then filled.
copy N: two blocks of N bytes, and one copied to the other.
move N: one block of N bytes, all but the last of which are moved by one.
variables N: a memory that starts with N variables.
"""

import sys


def blocks(size):
    yield f"repeat {size} 16"


def make(size):
    yield f"make {size} zeroed"


def fill(size):
    yield f"make {size} zeroed"
    yield f"fill b0 65 {size}"


def copy(size):
    yield f"make {size} zeroed"
    yield f"make {size} zeroed"
    yield f"copy b1 b0 {size}"


def move(size):
    yield f"make {size} zeroed"
    yield f"move b0+1 b0 {size - 1}"


def variables(size):
    yield f"load i32 @v{size - 1}"
    yield "; --"
    for place in range(size):
        yield f"@v{place} = global i32 {place}"


SHAPES = {shape.__name__: shape for shape in (blocks, make, fill, copy, move, variables)}

print("; == it")
for line in SHAPES[sys.argv[1]](int(sys.argv[2])):
    print(line)
