#!/usr/bin/env python3
"""The functions of a built crate by the size of the code that is proved: characters of their statements, and locals.

    mir.py RLIB [N]

RLIB is the folder of a library, as `rt ci` or `rattle build` leaves it. What a function costs grows faster than both numbers, so the first lines show
what to split. The proof itself need not be run again.
"""
import json
import sys

rlib, *rest = sys.argv[1:]
with open(f'{rlib}/toolchain/mir.json') as file:
    functions = json.load(file)
sizes = sorted(((len(json.dumps(code['body'])), len(code['locals']), name) for name, code in functions), reverse=True)
print(f'{len(sizes)} functions, {sum(size for size, _, _ in sizes)} characters')
for size, count, name in sizes[:int(rest[0]) if rest else 20]:
    print(f'{size:8} {count:4}  {name}')
