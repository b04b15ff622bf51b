#!/usr/bin/env python3
"""A command of `rt` in a crate's folder, over libraries that `tools/gate.py` has proved in another clone of the repository.

    over.py BASE check|test|plant|tidy|.. [rt's flags]

BASE is the top of that clone. Each library below the crate whose sources are the same there, and that passed there, is linked into this clone, so that nothing below is
proved again. What is not there is named, and nothing is done: with --build before BASE it is proved here first. The sum of each crate is computed once, where
`rt` of kit 13b goes every path of crates.txt.
"""
import importlib.util
import os
import shutil
import subprocess
import sys

HERE = os.path.dirname(os.path.realpath(__file__))


def load_gate():
    spec = importlib.util.spec_from_file_location('gate', os.path.join(HERE, 'gate.py'))
    gate = importlib.util.module_from_spec(spec)
    spec.loader.exec_module(gate)
    return gate


def is_there(gate, plan, base, name):
    last = gate.read_kept((name, 'proof'))
    return bool(last) and last['status'] == 0 and last['stamp'] == plan.stamp_of((name, 'proof')) and os.path.isdir(f'{base}/crates/{name}/out/rlib')


def main():
    words = sys.argv[1:]
    is_building = words[:1] == ['--build']
    base, words = os.path.realpath(words[is_building]), words[is_building + 1:]
    gate = load_gate()
    if base == gate.TOP:
        sys.exit('over.py: BASE is this clone itself, whose libraries would be taken away')
    rt, name = gate.load_rt(), os.path.basename(os.getcwd())
    crates = gate.load_crates(rt)
    rt.Crate.cuts_libraries = False
    gate.KEPT = f'{base}/.git/gate'
    plan, missing = gate.Plan([name], [], ['proof']), []
    for it in crates[name].below():
        if it.is_built():
            continue
        if is_there(gate, plan, base, it.name):
            shutil.rmtree(f'{it.folder}/out/rlib', ignore_errors=True)
            os.makedirs(f'{it.folder}/out', exist_ok=True)
            subprocess.run(['cp', '-al', f'{base}/crates/{it.name}/out/rlib', f'{it.folder}/out/rlib'], check=True)
            with open(f'{it.folder}/out/rlib/stamp', 'w', encoding='utf-8') as file:
                file.write(it.stamp())
        else:
            missing.append(it.name)
    if missing and not is_building:
        sys.exit(f'over.py: not proved in {base} as they are here: {" ".join(missing)}')
    if words[0] == 'check' and '--jobs' not in words:
        words += ['--jobs', '1']
    return rt.main(words)


if __name__ == '__main__':
    sys.exit(main())
