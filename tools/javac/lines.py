"""Programs of one line, each a file A.java that `check` is to accept exactly where javac compiles it.

  lines.py --bin REFACTOR --classes DIR [--texts FILE]

DIR is as for change.py. A line that begins with `~ ` is one on which they differ: what the profile leaves out, or what JLS 3 has otherwise (docs/LANGUAGE.md).
Differences that are not marked are shown, and marks that are out of date; the exit status is 1 where there is one.
"""
import argparse
import os
import subprocess
import sys
import tempfile

import change

HERE = os.path.dirname(os.path.abspath(__file__))


def said(command, folder, path, text):
    """The line of `check` for one file."""
    with tempfile.TemporaryDirectory(dir=folder) as top:
        os.makedirs(os.path.dirname(os.path.join(top, path)), exist_ok=True)
        with open(os.path.join(top, path), 'wb') as file:
            file.write(text.encode())
        return subprocess.run([command, top, 'check'], stdout=subprocess.PIPE).stdout.decode().strip()


def main():
    parser = argparse.ArgumentParser(description=__doc__, formatter_class=argparse.RawDescriptionHelpFormatter)
    parser.add_argument('--bin', required=True)
    parser.add_argument('--classes', required=True)
    parser.add_argument('--texts', default=HERE + '/cases/lines.txt')
    args = parser.parse_args()
    javac, wrong, count = change.Javac(args.classes), 0, 0
    with open(args.texts, encoding='utf-8', newline='\n') as file, tempfile.TemporaryDirectory() as folder:
        for line in file.read().rstrip('\n').split('\n'):
            is_marked = line.startswith('~ ')
            text = line[2:] if is_marked else line
            path = 'p/A.java' if text.startswith('package p;') else 'A.java'
            errors = [answer for answer in javac.ask([(path, text)], 'names') if answer.startswith('E ')]
            answer = said(args.bin, folder, path, text)
            count += 1
            if (answer.startswith('ok') != (not errors)) != is_marked:
                wrong += 1
                print('%s | javac: %s%s\n    %s' % (answer, errors[0] if errors else 'compiles', ' (marked)' if is_marked else '', text))
    javac.close()
    print('%d programs, %d differ from what is marked' % (count, wrong))
    return 1 if wrong else 0


if __name__ == '__main__':
    sys.exit(main())
