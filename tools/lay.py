#!/usr/bin/env python3
"""Lays the libraries that `rt ci` has kept on this machine into this clone, so that `rt check` proves nothing below the crate that is written.

    lay.py [--wait] CRATE..

CRATE is what is to be checked: of each library below it the one that was kept last is linked into crates/*/out, whether or not its sources are those of this clone (to compare them takes minutes). So what is
checked over them shows what it shows where they are the same, and `rt ci` alone decides. What is not kept yet is named, and the status is then 1; with --wait it is looked for again every ten seconds. It
serves an `rt` that keeps (`rt help` says so); where it keeps nothing, `tools/gate.py` and `tools/over.py` do this.
"""
import glob
import importlib.machinery
import importlib.util
import json
import os
import shutil
import sys
import time

TOP = os.path.realpath(os.path.join(os.path.dirname(os.path.realpath(__file__)), '..'))
KEPT = '/opt/rattle-kept'


def load_rt():
    path = '/opt/rattle/bin/rt'
    loader = importlib.machinery.SourceFileLoader('rt_main', path)
    rt = importlib.util.module_from_spec(importlib.util.spec_from_loader('rt_main', loader))
    sys.modules['rt_main'] = rt
    sys.path.insert(0, os.path.dirname(path))
    loader.exec_module(rt)
    return rt


def newest(name):
    """The folder of the library that was kept last, and what it was made of."""
    found = sorted(glob.glob(f'{KEPT}/proof-{name}-*/made.json'), key=os.path.getmtime)
    if not found:
        return None
    with open(found[-1], encoding='utf-8') as file:
        return os.path.dirname(found[-1]), json.load(file)


def is_laid(at, key, stamp):
    def text(name):
        try:
            with open(f'{at}/{name}', encoding='utf-8') as file:
                return file.read()
        except OSError:
            return None
    return text('laid') == key and text('stamp') == stamp


def lay_one(crate):
    """Links the library, and returns whether there is one."""
    kept = newest(crate.name)
    if not kept:
        return False
    folder, made = kept
    at, stamp = f'{crate.folder}/out/rlib', crate.stamp()
    if is_laid(at, made['key'], stamp):
        return True
    shutil.rmtree(at, ignore_errors=True)
    for number, (path, _) in enumerate(made['files']):
        os.makedirs(os.path.dirname(f'{crate.folder}/out/{path}'), exist_ok=True)
        os.link(f'{folder}/{number}', f'{crate.folder}/out/{path}')
    for name, text in (('stamp', stamp), ('laid', made['key'])):
        with open(f'{at}/{name}', 'w', encoding='utf-8') as file:
            file.write(text)
    return True


def lay(rt, names):
    """Links what is kept, and returns what is missing below the crates of these names."""
    crates = {it.name: it for it in rt.rtlib.crates_below(TOP)}
    wanted = {it.name: it for name in names for it in crates[name].below()}
    return [name for name, crate in wanted.items() if not lay_one(crate)]


def main():
    words = sys.argv[1:]
    waits = words[:1] == ['--wait']
    names = words[waits:]
    if not names:
        sys.exit(__doc__)
    os.chdir(TOP)
    rt = load_rt()
    missing = lay(rt, names)
    while missing and waits:
        time.sleep(10)
        missing = lay(rt, names)
    if missing:
        print('not kept yet:', ' '.join(missing))
    return 1 if missing else 0


if __name__ == '__main__':
    sys.exit(main())
