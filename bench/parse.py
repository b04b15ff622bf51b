#!/usr/bin/env python3
"""Times reading a file into its tree and rows: lexing, parsing, numbering, and printing the rows, as the program jr_outline does it.

  parse.py --bin PATH   PATH is the built program jr_outline

The sources have 2,000 to 32,000 methods of two statements each; the time must grow as the source does.
"""
import argparse
import subprocess
import time

METHOD = ('int f%d(int a, long b) { if (a < %d) { return g(a + 1, b * 2)[a].c; } else { x = (int) b; } '
          'for (int i = 0; i < 9; i++) { y[i] += a; } }\n')


def source(methods):
    return ('class A {\n' + ''.join(METHOD % (i, i) for i in range(methods)) + '}').encode() + b'\0'


def main():
    parser = argparse.ArgumentParser(description=__doc__, formatter_class=argparse.RawDescriptionHelpFormatter)
    parser.add_argument('--bin', required=True)
    args = parser.parse_args()
    for methods in (2000, 8000, 32000):
        text = source(methods)
        begin = time.perf_counter()
        subprocess.run([args.bin], input=text, stdout=subprocess.DEVNULL, check=True)
        spent = time.perf_counter() - begin
        print('%9d bytes %7.3f s %6.1f MB/s' % (len(text), spent, len(text) / spent / 1e6))


if __name__ == '__main__':
    main()
