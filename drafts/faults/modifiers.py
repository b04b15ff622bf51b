#!/usr/bin/env python3
"""Each kind of declaration with each modifier, with each two in both orders, and with some three: whether its modifiers are right by the definition, and by `javac`.

    modifiers.py list        the programs, NAME TAB TEXT
    modifiers.py hold FILE   holds the definition against what Modifiers.java printed
"""
import itertools
import sys

ALL = ['public', 'protected', 'private', 'abstract', 'static', 'final', 'native']
KINDS = {
    'top class': '{} class A {{ }}', 'top interface': '{} interface A {{ }}',
    'class in class': 'class B {{ {} class A {{ }} }}', 'interface in class': 'class B {{ {} interface A {{ }} }}',
    'class in interface': 'interface B {{ {} class A {{ }} }}', 'interface in interface': 'interface B {{ {} interface A {{ }} }}',
    'field in class': 'class B {{ {} int x = 1; }}', 'field in interface': 'interface B {{ {} int x = 1; }}',
    'method in class': 'abstract class B {{ {} void f() BODY }}', 'method in interface': 'interface B {{ {} void f(); }}',
    'constructor': 'class B {{ {} B() {{ }} }}',
}
EXCLUDED = [('public', 'protected'), ('public', 'private'), ('protected', 'private'), ('abstract', 'final')]
OF_METHODS = [('abstract', 'private'), ('abstract', 'static'), ('abstract', 'native')]


def may_have(kind, m):
    what, _, where = kind.partition(' in ')
    is_type, is_top, in_interface = 'class' in what or 'interface' in what, kind.startswith('top'), where == 'interface'
    of_class = what == 'method' and not in_interface
    if m == 'public':
        return True
    if m in ('protected', 'private'):
        return not is_top and not in_interface
    if m == 'abstract':
        return is_type or what == 'method'
    if m == 'static':
        return (is_type and not is_top) or what == 'field' or of_class
    if m == 'final':
        return (is_type and 'interface' not in what) or what == 'field' or of_class
    return of_class


def breaks(kind, all_of):
    pairs = EXCLUDED + (OF_METHODS if kind.startswith('method') else [])
    return (len(set(all_of)) < len(all_of) or any(not may_have(kind, m) for m in all_of)
            or any(a in all_of and b in all_of for a, b in pairs))


def cases():
    words = [()] + [(m,) for m in ALL] + list(itertools.product(ALL, repeat=2)) + list(itertools.combinations(ALL, 3))
    for kind, text in KINDS.items():
        for some in words:
            body = ';' if 'abstract' in some or 'native' in some else '{ }'
            yield f'{kind}: {" ".join(some)}', kind, some, text.format(' '.join(some)).replace('BODY', body)


if sys.argv[1] == 'list':
    for name, _, _, text in cases():
        print(f'{name}\t{text}')
else:
    said = dict(line.rstrip('\n').split('\t') for line in open(sys.argv[2]))
    OURS = ('compiler.err.feature.not.supported.in.source.plural', 'compiler.err.mod.not.allowed.here',
            'compiler.err.illegal.combination.of.modifiers', 'compiler.err.repeated.modifier')
    differ, count = 0, 0
    for name, kind, some, text in cases():
        by_javac = any(code in OURS for code in said[name].split())
        count += 1
        if by_javac != breaks(kind, some):
            differ += 1
            print(f'{name}: {breaks(kind, some)}, javac: {said[name] or "nothing"}: {text}')
    print(count, 'programs,', differ, 'differ')
