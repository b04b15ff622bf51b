"""The workspace that `demo` generates, as files, and larger ones of the same kind."""
import os
import re

# What the script `refactor` runs the program with.
with open(os.path.join(os.path.dirname(os.path.abspath(__file__)), '..', 'refactor')) as script:
    OURS = {**os.environ, 'GLIBC_TUNABLES': re.search(r'GLIBC_TUNABLES:-([^}]*)', script.read()).group(1)}


def class_text(i, methods=1):
    """The class with number i; with more methods, that many copies of `step` besides."""
    back = 'b' if i == 0 else f'C{i - 1}.step(b)'
    more = ''.join(f'  public static int step{k}(int a) {{\n    int b = a + {k};\n    // three times what it was before that\n    b = b * 3;\n    return b + step(a);\n  }}\n' for k in range(1, methods))
    return (f'package g;\n\npublic class C{i} {{\n  int x = {i};\n  public static int step(int a) {{\n    int b = a + {i};\n    b = b * 3;\n    return {back};\n  }}\n{more}'
            f'  int next(int y) {{\n    return x + y;\n  }}\n  public static void main(String[] args) {{\n    System.out.println(step({i}) + new C{i}().next(1));\n  }}\n}}\n')


def write_files(folder, count, methods=1):
    """Fills the folder with so many files; the bytes of all."""
    os.makedirs(os.path.join(folder, 'g'))
    total = 0
    for i in range(count):
        text = class_text(i, methods)
        total += len(text)
        with open(os.path.join(folder, 'g', f'C{i}.java'), 'w') as file:
            file.write(text)
    return total
