"""Makes `jr_plain` a part of `jr_defs`: its definitions and lemmas go under `specs/Plain` and `proofs/Plain`, its laws into `src/computing.rt`.

  plain_in_defs.py        at the top of the repository, before any proof begins

It halves the paths through crates.txt that `rt` of kit 13b walks (163,000 to 89,000). Nothing that it makes was proved.
"""
import glob
import os
import re
import subprocess

OLD, NEW = 'crates/jr_plain', 'crates/jr_defs'


def run(*words):
    subprocess.run(words, check=True)


def read(path):
    with open(path, encoding='utf-8') as file:
        return file.read()


def write(path, text):
    os.makedirs(os.path.dirname(path), exist_ok=True)
    with open(path, 'w', encoding='utf-8') as file:
        file.write(text)


def move(old, new):
    os.makedirs(os.path.dirname(new), exist_ok=True)
    run('git', 'mv', old, new)


def move_modules(folder):
    """The modules of a folder stand below one module of its name."""
    for path in glob.glob(f'{OLD}/{folder}/*.antt'):
        if os.path.basename(path) != 'Lib.antt':
            move(path, f'{NEW}/{folder}/Plain/{os.path.basename(path)}')
    write(f'{NEW}/{folder}/Plain.antt', read(f'{OLD}/{folder}/Lib.antt'))
    write(f'{NEW}/{folder}/Lib.antt', read(f'{NEW}/{folder}/Lib.antt').rstrip('\n') + '\npub mod Plain\n')
    run('git', 'add', f'{NEW}/{folder}')


def move_laws():
    laws = re.search(r'pub use law::\{(.*?)\};', read(f'{OLD}/src/lib.rt'), re.S).group(1)
    move(f'{OLD}/src/law.rt', f'{NEW}/src/computing.rt')
    move(f'{OLD}/proofs/law', f'{NEW}/proofs/computing')
    lib = read(f'{NEW}/src/lib.rt').replace('mod law;\n', 'mod computing;\nmod law;\n', 1).replace('pub use law::', f'pub use computing::{{{laws}}};\npub use law::', 1)
    write(f'{NEW}/src/lib.rt', lib)


def rename_all():
    """Names of modules in all crates, and the crate in the list."""
    for path in glob.glob('crates/**/*', recursive=True):
        if os.path.isfile(path) and path.endswith(('.rt', '.antt', '.edit')) and '/out/' not in path:
            text = read(path)
            new = re.sub(r'\bjr_plain\.proofs\.law\.', 'jr_defs.proofs.computing.', text)
            new = re.sub(r'\bjr_plain\.(specs|proofs)\.', r'jr_defs.\1.Plain.', new)
            new = new.replace('jr_plain::', 'jr_defs::')
            if new != text:
                write(path, new)
    lines = []
    for line in read('crates.txt').splitlines(True):
        head, colon, rest = line.partition(':')
        words = rest.split()
        if head == 'jr_plain':
            continue
        if 'jr_plain' in words:
            words = [it for it in words if it != 'jr_plain'] if 'jr_defs' in words else ['jr_defs' if it == 'jr_plain' else it for it in words]
        lines.append(head + colon + (' ' + ' '.join(words) if words else '') + '\n' if colon else line)
    write('./crates.txt', ''.join(lines))


def main():
    for folder in ('edits', 'must-fail'):
        for path in glob.glob(f'{OLD}/{folder}/*.edit'):
            text = read(path).replace('file: specs/', 'file: specs/Plain/').replace('file: proofs/', 'file: proofs/Plain/')
            write(path, text)
            move(path, f'{NEW}/{folder}/{os.path.basename(path)}')
    move_modules('specs')
    move_modules('proofs')
    move_laws()
    write(f'{NEW}/NOTES.md', (read(f'{NEW}/NOTES.md').rstrip('\n') + '\n\n' if os.path.exists(f'{NEW}/NOTES.md') else '# Notes on jr_defs\n\n') + read(f'{OLD}/NOTES.md').partition('\n')[2].lstrip('\n'))
    run('git', 'rm', '-rqf', OLD)
    rename_all()


if __name__ == '__main__':
    main()
