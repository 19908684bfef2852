#!/usr/bin/env python3
"""Writes a program for `occam check` into a folder: check.py SHAPE FOLDER

one       one module of nearly 16 MiB, of bodies of many kinds of instruction
two       two such modules
many      256 modules of 64 KiB together near 16 MiB, each calling a function of the next one
items     1,000,000 items over 256 modules: functions that are declared in one module and defined in the next
shared    one name that 256 modules declare and call, 10,000 calls in all, and one defines
Each with a fourth of its size by SHAPE/4.
"""
import pathlib
import sys

MODULES = 256
BODY = '''define internal i32 @f{k}(i32 %x, ptr %p) {{
entry:
  %a = alloca {{ i32, [4 x i64] }}, i64 3, align 8
  %s = add nuw nsw i32 %x, 17
  %u = udiv exact i32 %s, 3
  %o = or i32 %u, 8
  %c = icmp slt i32 %o, %x
  %e = select i1 %c, i32 %s, i32 %u
  %w = zext i32 %e to i64
  %q = getelementptr inbounds {{ i32, [4 x i64] }}, ptr %a, i64 0, i32 1, i64 2
  store i64 %w, ptr %q, align 8
  %l = load i32, ptr %p, align 4
  br i1 %c, label %one, label %other
one:
  switch i32 %l, label %other [ i32 0, label %last i32 1, label %last i32 -7, label %other ]
other:
  %ph = phi i32 [ %l, %entry ], [ %l, %one ], [ %l, %one ]
  %again = call i32 @f{next}(i32 signext %ph, ptr null)
  br label %last
last:
  ret i32 %x
}}
'''
MAIN = 'define i32 @main() {\n  ret i32 0\n}\n'


def bodies(count):
    return ''.join(BODY.format(k=k, next=(k * 31 + 7) % count) for k in range(count))


def one(share):
    return [MAIN + bodies(23500 // share)]


def two(share):
    return [MAIN + bodies(23500 // share), bodies(23500 // share)]


def many(share):
    modules = []
    for m in range(MODULES):
        text = f'declare i32 @g{(m + 1) % MODULES}()\ndefine i32 @g{m}() {{\n  %r = call i32 @g{(m + 1) % MODULES}()\n  ret i32 %r\n}}\n'
        modules.append((MAIN if m == 0 else '') + text + bodies(88 // share))
    return modules


def items(share):
    each = 1_000_000 // share // MODULES // 2
    modules = []
    for m in range(MODULES):
        here = ''.join(f'define void @m{m}f{k}() {{\n  ret void\n}}\n' for k in range(each))
        there = ''.join(f'declare void @m{(m + 1) % MODULES}f{k}()\n' for k in range(each))
        modules.append((MAIN if m == 0 else '') + here + there)
    return modules


def shared(share):
    calls = 10_000 // share // MODULES
    modules = []
    for m in range(MODULES):
        call = '  call void @shared()\n' * calls
        head = 'define void @shared() {\n  ret void\n}\n' if m == 0 else 'declare void @shared()\n'
        modules.append((MAIN if m == 0 else '') + head + f'define void @u{m}() {{\n{call}  ret void\n}}\n')
    return modules


shape, _, share = sys.argv[1].partition('/')
folder = pathlib.Path(sys.argv[2])
modules = {'one': one, 'two': two, 'many': many, 'items': items, 'shared': shared}[shape](int(share or 1))
names = [f'm{k}.ll' for k in range(len(modules))]
for name, text in zip(names, modules):
    (folder / name).write_text(text)
listed = ','.join(f'"{name}"' for name in names)
(folder / 'm.json').write_text('{"version":1,"modules":[' + listed + '],"entry":{"name":"main","args":[]}}')
