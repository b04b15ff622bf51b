"""Asks the program of many.txt of many programs at once: what `check` says, what each name refers to, and what Main prints."""
import subprocess


class Answer:
    """`fault` is why the program does not compile, or None; `names` are lists of unit, offset, kind, name and declaration; `run` is the text of the run, or None."""

    def __init__(self):
        self.fault, self.names, self.run = None, [], None


def asked(files, steps):
    out = [('%d%s\n' % (len(files), ' %d' % steps if steps else '')).encode()]
    for path, text in files:
        data = text.encode()
        out.append(('%s\n%d\n' % (path, len(data))).encode() + data)
    return b''.join(out)


def answers(program, programs, steps=0):
    """The answers for programs, each a list of paths and texts."""
    done = subprocess.run([program], input=b''.join(asked(files, steps) for files in programs), stdout=subprocess.PIPE, check=True)
    lines = done.stdout.decode(errors='replace').split('\n')
    found, one, at = [], Answer(), 0
    while at < len(lines) - 1:
        line = lines[at]
        at += 1
        if line == '.':
            found.append(one)
            one = Answer()
        elif line.startswith('F '):
            one.fault = line[2:]
        elif line.startswith('O '):
            count = int(line[2:]) if line[2:].isdigit() else 0
            one.run = '\n'.join(lines[at:at + count]) + '\n' if line[2:].isdigit() else None
            at += count
        else:
            _, unit, offset, kind, name, declared = line.split(' ', 5)
            one.names.append((int(unit), int(offset), kind, name, declared))
    if len(found) != len(programs):
        raise SystemExit('%d programs, %d answers' % (len(programs), len(found)))
    return found
