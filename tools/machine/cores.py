#!/usr/bin/env python3
"""Writes what `test_machine` runs on and what it must print: the cases as one core, and what `java` prints of them.

    tools/machine/cores.py [--check]

The cases stand in `tools/machine/cases`, and their outputs beside them (`outputs.py`). `Cores.java` makes the core, by
`javac`'s own attribution, over the prelude that is written here. With `--check` nothing is written, and the files are compared.
"""
import argparse
import os
import re
import subprocess
import sys
import tempfile

from outputs import CASES, HERE, names

TRIAL = os.path.join(HERE, '..', '..', 'crates', 'test_machine')

STEPS = 1_000_000

# The kinds of lines, by their numbers, and the forms of each kind, by theirs.
KINDS = {
    'literal': 'boolean byte short char int long text',
    'constant': 'boolean byte short char int long text',
    'leaf': 'null this var field declare break continue return skip',
    'one': 'unary pre post field length show local eval labeled return throw',
    'two': 'binary and_also or_else index assign compound do while if',
    'three': 'cond if_else',
    'list': 'block new this super static above',
    'call': 'on new_in',
    'typed': 'cast is_a',
    'array': 'dims items',
    'type': 'boolean byte short char int long void class array',
    'for': 'while ever',
    'label': 'case default',
    'group': '',
    'switch': '',
    'catch': '',
    'try': 'plain finally',
    'decl': 'face plain found',
    'body': '',
    'class': '',
    'name': '',
    'run': '',
}

OPERATORS = {
    'one unary': 'plus minus complement not',
    'one pre': 'increment decrement',
    'one post': 'increment decrement',
    'two binary': 'multiply divide remainder add subtract shift_left shift_right shift_right_unsigned '
                  'less greater less_equal greater_equal equal not_equal and xor or',
}
OPERATORS['two compound'] = OPERATORS['two binary']

CLASSES = {
    'Object': '''public class Object {
  public Object() { }
  public boolean equals(Object o) { return this == o; }
  public native int hashCode();
  public String toString() { return "object"; }
}
''',
    'String': '''public final class String {
  private String() { }
  public native int length();
  public native char charAt(int i);
  public native boolean equals(Object o);
  public native int hashCode();
  public String toString() { return this; }
}
''',
    'System': '''public final class System {
  public static final java.io.PrintStream out = new java.io.PrintStream();
  private System() { }
}
''',
    'Throwable': '''public class Throwable {
  private String message;
  public Throwable() { }
  public Throwable(String m) { message = m; }
  public String getMessage() { return message; }
}
''',
}

THROWABLES = {
    'Throwable': 'Exception Error',
    'Exception': 'RuntimeException',
    'RuntimeException': 'ArithmeticException NullPointerException ClassCastException ArrayStoreException NegativeArraySizeException '
                        'IndexOutOfBoundsException IllegalArgumentException IllegalStateException',
    'IndexOutOfBoundsException': 'ArrayIndexOutOfBoundsException StringIndexOutOfBoundsException',
}

SHOWN = ['boolean', 'char', 'int', 'long', 'Object']


def print_stream():
    methods = ['public native void print(String s);']
    methods += [f'public void print({ty} v) {{ print("" + v); }}' for ty in SHOWN]
    methods += ['public void println() { print("\\n"); }', 'public void println(String v) { print(v + "\\n"); }']
    methods += [f'public void println({ty} v) {{ print("" + v + "\\n"); }}' for ty in SHOWN]
    return 'package java.io;\npublic class PrintStream {\n  ' + '\n  '.join(methods) + '\n}\n'


def prelude():
    """The files of the prelude."""
    files = {f'java/lang/{name}.java': 'package java.lang;\n' + text for name, text in CLASSES.items()}
    for above, below in THROWABLES.items():
        for name in below.split():
            files[f'java/lang/{name}.java'] = (f'package java.lang;\npublic class {name} extends {above} {{ '
                                               f'public {name}() {{ }} public {name}(String m) {{ super(m); }} }}\n')
    files['java/io/PrintStream.java'] = print_stream()
    return files


def core(sources, steps):
    """The core of these files over the prelude, and the numbers of classes and methods by their names."""
    exports = [word for part in ['api', 'code', 'tree', 'util']
               for word in ['--add-exports', f'jdk.compiler/com.sun.tools.javac.{part}=ALL-UNNAMED']]
    with tempfile.TemporaryDirectory() as folder:
        paths = []
        for path, text in prelude().items():
            paths.append(os.path.join(folder, path))
            os.makedirs(os.path.dirname(paths[-1]), exist_ok=True)
            with open(paths[-1], 'w') as file:
                file.write(text)
        run = subprocess.run(['java'] + exports + [os.path.join(HERE, 'Cores.java'), folder, str(steps)] + paths + sources,
                             capture_output=True, text=True, check=False)
    if run.returncode:
        sys.exit(run.stderr)
    numbers = {}
    for line in run.stderr.splitlines():
        number, name = line.split(' ', 1)
        numbers[name] = number
    return run.stdout, numbers


def argument(kind, form, word):
    """The numbers of an argument of a line."""
    operators = OPERATORS.get(f'{kind} {form}')
    if operators:
        return [operators.split().index(word)]
    if word in ('true', 'false'):
        return [int(word == 'true')]
    if word == '-':
        return [0, 0]
    if ':' in word:
        return [int(part) for part in word.split(':')]
    value = int(word)
    return [value >> 32 & 0xffffffff, value & 0xffffffff] if form == 'long' else [value & 0xffffffff]


def encoded(line):
    """A line by numbers alone."""
    kind, *words = line.split(' ')
    numbers = [list(KINDS).index(kind)]
    if kind == 'name':
        return numbers + [0] + [ord(character) for character in words[0]]
    if kind == 'body':
        flags = [int(flag in words[4:]) for flag in ('static', 'native')]
        return numbers + [number for word in words[:4] for number in argument(kind, None, word)] + flags
    form = words.pop(0) if KINDS[kind] else None
    if form:
        numbers.append(KINDS[kind].split().index(form))
    return numbers + [number for word in words for number in argument(kind, form, word)]


def trial_text(lines):
    """What the trial reads, for these lines in words."""
    plain = re.sub(r'^start (\S+) ', r'name \1\nrun ', lines, flags=re.M)
    return ''.join(' '.join(map(str, encoded(line))) + '\n' for line in plain.splitlines())


def wanted(numbers):
    """What the trial is to print of all cases."""
    text = ''
    for name in names():
        path = os.path.join(CASES, name)
        with open(path + ('.machine' if os.path.exists(path + '.machine') else '.out')) as file:
            body, last = re.fullmatch(r'(.*?)(== [^\n]*)\n', file.read(), re.S).groups()
        words = last.split(' ')
        if len(words) > 2:
            words[-1] = numbers[words[-1]]
        text += f'== {name}\n{body}{" ".join(words)}\n'
    return text


def main():
    parser = argparse.ArgumentParser()
    parser.add_argument('--check', action='store_true')
    check = parser.parse_args().check
    lines, numbers = core([os.path.join(CASES, f'{name}.java') for name in names()], STEPS)
    text = trial_text(lines)
    differ = False
    for name, new in [('stdin', text), ('stdout', wanted(numbers))]:
        path = os.path.join(TRIAL, name)
        if not check:
            with open(path, 'w') as file:
                file.write(new)
        elif open(path).read() != new:
            differ = True
            print(f'{name} differs')
    sys.exit(1 if differ else 0)


if __name__ == '__main__':
    main()
