#!/usr/bin/env python3
"""Holds the definitions of flow (crates/jr_flow_defs) against the bytecode of javac.

  flow.py [--bin PATH] [--show] [--release N] [FILE..]

The files (without any those of cases/flow) are one program in the profile. PATH is the program of flow.txt, built; without it `tools/unproved.py` builds one. It tells rows, what they refer to, types, constants
and the graph of each body that the code draws. From the rows the model of the definitions (`drafts/flow/model.py`) gives a graph of each body; that it is the one of the code is tested. Both it and the code of `javap` are
read as automata over events, each with its line: calls, creations, fields, elements, lengths, arrays, checked casts, divisions, sums of strings, throws, and definitions and uses of locals. From each event control goes to the
events that may be next, or by the table of exceptions to each handler round it up to the first that takes all. All words up to any length are compared (product of the sets of places); copies of a `finally` fall together.

The definition has to have each word of the bytecode. A second reading of the model has to have the same words: there `&&`, `||`, `!`, `?:` and constants settle branches (the definition takes both), a sum of strings that
shows no object is no event, and neither is the use of a constant local. On the other side `new` is none: a creation is the call of its constructor. A step of a local (`iinc`) is its use and its definition.
The exit status is 1 where something differs. Left out of the files, since they are known to differ: constructors of classes whose instances have initializers (`javac` copies these into them), a constant field behind the
dot of an expression (`o.SEVEN` is read by the definition), and a cast of `null` (checked in bytecode).
"""
import argparse
import glob
import os
import re
import subprocess
import sys
import tempfile

HERE = os.path.dirname(os.path.abspath(__file__))
TOP = os.path.dirname(os.path.dirname(HERE))
sys.path.insert(0, os.path.join(TOP, 'drafts', 'flow'))
import model

EXIT, THROWN = (0, 'exit'), (0, 'thrown')
OPERATORS = {'Assign': '=', 'PlusAssign': '+=', 'SlashAssign': '/=', 'PercentAssign': '%=', 'AndAnd': '&&', 'OrOr': '||', 'Plus': '+', 'Slash': '/', 'Percent': '%'}
LOCALS = ('Local', 'Parameter')


class Graph:
    """Places by number, each with the label of its event or none, and those that are next."""

    def __init__(self):
        self.labels, self.next, self.throws = [], [], []

    def add(self, label):
        self.labels.append(label)
        self.next.append([])
        return len(self.labels) - 1


# ---- rows

def told(binary, files):
    data = ('%d\n' % len(files)).encode()
    for name, text in files:
        data += ('%s\n%d\n' % (name, len(text))).encode() + text
    return subprocess.run([binary], input=data, stdout=subprocess.PIPE, check=True).stdout.decode()


def parse_label(text):
    """The kind of a row and what else its label says."""
    kind, _, rest = text.partition(' ')
    found = dict(re.findall(r'(\w+): (?:Some\()?(\w+)', rest))
    return kind, {key: {'true': True, 'false': False}.get(value, value) for key, value in found.items()}


def rows_of(answer, starts):
    rows, graphs = [], {}
    for line in answer.split('\n'):
        words = line.split('\t')
        if words[0] == 'F':
            raise SystemExit('the program is refused: ' + words[1])
        if words[0] == 'R':
            at, parent, end, unit, offset = map(int, words[1:6])
            kind, says = parse_label(words[10])
            rows.append({'kind': kind, 'says': says, 'parent': parent, 'end': end, 'unit': unit, 'offset': offset, 'constant': words[6], 'type': words[7], 'referent': words[8], 'name': words[9], 'a': {}})
        elif words[0] == 'B':
            body = graphs[int(words[1])] = ([], [])
        elif words[0] == 'P':
            body[0].append((int(words[1]), words[2]))
        elif words[0] == 'S':
            body[1].append((int(words[1]), int(words[2]), words[3] == 'true'))
    for row in rows:
        row['line'] = line_of(starts, row) if row['unit'] >= 2 else 0
    return rows, graphs


def line_of(starts, row):
    lines = starts[row['unit'] - 2]
    low, high = 0, len(lines)
    while high - low > 1:
        middle = (low + high) // 2
        low, high = (middle, high) if lines[middle] <= row['offset'] else (low, middle)
    return low + 1


# ---- the meaning of rows (specs/Meaning)

class Meaning:
    def __init__(self, rows):
        self.rows = rows
        self.string = next(n for n, row in enumerate(rows) if row['kind'] == 'Class' and row['name'] == 'String')
        for n, row in enumerate(rows):
            self.fill(n, row, row['a'], row['says'])

    def declared(self, n):
        found = re.match(r'Declared \{ row: (\d+)', self.rows[n]['referent'])
        return int(found.group(1)) if found else None

    def is_constant(self, n):
        return self.rows[n]['constant'] != 'None'

    def type_of(self, n):
        """The element and the dimensions."""
        text = self.rows[n]['type'] if n < len(self.rows) else 'None'
        found = re.match(r'Some\(RowType \{ element: (.*), dims: (\d+) \}\)', text) or re.match(r'RowType \{ element: (.*), dims: (\d+) \}', text)
        return (found.group(1), int(found.group(2))) if found else None

    def is_reference(self, ty):
        return ty is not None and (ty[1] > 0 or ty[0].startswith('Class'))

    def is_string(self, ty):
        return ty is not None and ty[1] == 0 and self.class_of(ty) == self.string

    def is_object(self, ty):
        return self.is_reference(ty) and not self.is_string(ty)

    def class_of(self, ty):
        found = re.search(r'Class\D*(\d+)', ty[0])
        return int(found.group(1)) if found else None

    def above(self, n):
        """The types above a class or interface, and Object."""
        found, open_ = set(), [n]
        while open_:
            at = open_.pop()
            if at in found:
                continue
            found.add(at)
            open_ += [self.declared(k) for k in self.children(at) if self.rows[k]['kind'] == 'Name']
        return found | {k for k, row in enumerate(self.rows) if row['kind'] == 'Class' and row['name'] == 'Object' and row['unit'] == 0}

    def is_subtype(self, a, b):
        if a[1] == 0 and a[0] == 'Null' or a == b:
            return True
        if self.class_of(b) is not None and b[1] < a[1]:
            return self.rows[self.class_of(b)]['name'] == 'Object'
        if a[1] != b[1] or self.class_of(a) is None or self.class_of(b) is None:
            return False
        return self.class_of(b) in self.above(self.class_of(a))

    def children(self, n):
        k = n + 1
        while k < self.rows[n]['end']:
            yield k
            k = self.rows[k]['end']

    def makes(self, n, op):
        divides, adds = op in ('/', '%', '/=', '%='), op in ('+', '+=')
        return not self.is_constant(n) and (divides or adds and self.is_string(self.type_of(n)))

    def fill(self, n, row, a, says):
        """What model.py reads of a row."""
        kind, d = row['kind'], self.declared(n)
        if d is not None and self.rows[d]['kind'] in LOCALS:
            a['local'] = d
        a['length'] = row['referent'] == 'ArrayLength'
        a['field'] = a['length'] or d is not None and self.rows[d]['kind'] == 'Field' and not self.is_constant(n)
        if kind in ('Assign', 'Binary'):
            a['op'] = OPERATORS.get(says['op'], says['op'])
            a['makes'] = self.makes(n, a['op'])
        if kind == 'Binary':
            a['shows'] = a['op'] == '+' and a['makes'] and self.is_object(self.type_of(n + 1))
        if kind == 'Cast':
            a['narrows'] = self.narrows(self.type_of(self.rows[n + 1]['end']), self.type_of(n))
        if kind == 'Unary' and says['op'] == 'Not':
            row['kind'] = 'Not'
        if kind == 'For':
            a['first'], a['cond'] = says['has_first'], says['has_condition']
        if kind in ('Break', 'Continue'):
            a['labelled'], a['target'] = says['has_label'], d
        if kind == 'Try':
            a['fin'] = says['has_finally']
        if kind == 'NewArray':
            a['lengths'] = int(says['lengths'])

    def narrows(self, old, new):
        return self.is_reference(old) and self.is_reference(new) and not self.is_subtype(old, new)


# ---- the model's graph

class Drawn:
    """The flow of a body by the model, as a graph of events."""

    def __init__(self, meaning, body):
        self.meaning, self.rows, self.body = meaning, meaning.rows, body
        self.model = model.S(self.rows)
        self.sums, self.constants = set(), set()

    def label(self, state):
        n, (moment, i), _ = state[0], state[1], state[2]
        row = self.rows[n]
        if moment == 'left':
            return None if n != self.body else THROWN if i[0] == 'throw' else EXIT
        acts = self.model.acts(n)
        what = self.act_label(n, row, acts, i) if i < len(acts) else None
        return what and (self.rows[what[1]]['line'], what[0])

    def act_label(self, n, row, acts, i):
        act, kind = acts[i], row['kind']
        if act[0] == 'define':
            return 'def ' + self.rows[act[2]]['name'], act[1]
        if act[0] == 'use':
            if self.meaning.is_constant(n):
                self.constants.add(n)
                return None
            return 'use ' + row['name'], n
        if act == ('jump', ('throw',)):
            return 'throw', n
        if act[0] != 'event':
            return None
        if kind == 'Call':
            return 'call ' + row['name'], n
        if kind in ('New', 'ConstructorCall', 'ImplicitCall'):
            return 'init', n
        if kind == 'NewArray' or kind == 'List' and i == 0:
            return 'array', n
        if kind == 'List':
            return 'put item', act[1]
        if kind in ('Name', 'Select', 'SuperSelect'):
            return 'length' if row['a']['length'] else 'read ' + row['name'], n
        if kind == 'Index':
            return 'item', n
        if kind == 'Cast':
            return 'cast', n
        if kind == 'Field':
            return 'write ' + row['name'], n
        if kind == 'Binary' or kind == 'Assign' and i + 1 < len(acts):
            return self.operator_label(n, row, i, len(acts))
        place = self.model.operand(n)
        return 'put item' if self.rows[place]['kind'] == 'Index' else 'write ' + self.rows[place]['name'], n

    def operator_label(self, n, row, i, count):
        if row['a']['op'] not in ('+', '+='):
            return 'div', n
        right = self.meaning.type_of(self.rows[n + 1]['end'])
        if row['kind'] == 'Binary' and i + 1 < count or self.meaning.is_object(right):
            return 'text', n
        self.sums.add((n, i))
        return None

    # Values of conditions: what is known of the boolean that was evaluated last.
    def valued_hops(self, state, value):
        n, (moment, i), _ = state
        hops = [to for to, _ in self.model.hops(self.body, state)]
        if moment == 'left':
            return [(to, value if i[0] == 'normal' else None) for to in hops]
        kind, acts = self.rows[n]['kind'], self.model.acts(n)
        if i >= len(acts):
            return [(to, self.kept(n, kind, value)) for to in hops]
        act = acts[i][0]
        if act == 'event' and self.label(state) is None:
            return [(hops[0], None)]
        if act == 'node' and kind == 'Not':
            return [(hops[0], None if value is None else not value)]
        if act == 'quit' and kind == 'Binary':
            short = self.rows[n]['a']['op'] == '||'
            return [(hops[0], None)] * (value is not short) + [(hops[1], short)] * (value is not (not short))
        if act in ('quit', 'fork'):
            on, off = (1, 0) if kind == 'Do' else (0, 1)
            return [(hops[on], None)] * (value is not False) + [(hops[off], None)] * (value is not True)
        return [(to, value if act in ('go', 'part') else None) for to in hops]

    def kept(self, n, kind, value):
        constant = re.match(r'Some\(Bool\((\w+)\)\)', self.rows[n]['constant'])
        if constant:
            return constant.group(1) == 'true'
        return value if kind in ('Paren', 'Not', 'Conditional') or kind == 'Binary' and self.rows[n]['a']['op'] in ('&&', '||') else None

    def graph(self, with_values):
        found = Graph()
        start = ((self.body, ('at', 0), ()), None)
        numbers, order = {start: found.add(None)}, [start]
        for state, value in order:
            hops = self.valued_hops(state, value) if with_values else [(to, None) for to, _ in self.model.hops(self.body, state)]
            for to in hops:
                if to not in numbers:
                    numbers[to] = found.add(self.label(to[0]))
                    order.append(to)
                found.next[numbers[state, value]].append(numbers[to])
        return found

    def plain(self):
        """Points and steps by row and kind, as the code tells them."""
        points, steps = model.graph((self.body, ('at', 0), ()), lambda x: self.model.hops(self.body, x), lambda x: self.model.point(self.body, x), lambda x: x)
        return points, steps


KINDS = {'entry': 'Entry', 'exit': 'Exit', 'thrown': 'Thrown', 'node': 'Node'}


def shown_point(point):
    n, kind = point
    return n, KINDS.get(kind[0]) or '%s { local: %d }' % ({'def': 'Definition', 'use': 'Use'}[kind[0]], kind[1])


def is_of_code(drawn, told_graph):
    """The graph of the model is the one of the code: walked side by side, by row, kind and throw, from the entry on."""
    points, steps = drawn.plain()
    mine, theirs = Graph(), Graph()
    numbers = {place: mine.add(shown_point(drawn.model.point(drawn.body, place))) for place in points}
    for point in told_graph[0]:
        theirs.add(point)
    step_sets = [{}, {}]
    for k, graph, found in ((0, mine, [(numbers[a], numbers[b], t) for a, b, t in steps]), (1, theirs, told_graph[1])):
        for a, b, is_throw in found:
            graph.next[a].append((b, is_throw))
    start = numbers[(drawn.body, ('at', 0), ())]
    seen, open_ = set(), [(frozenset([start]), frozenset([0]))]
    while open_:
        pair = open_.pop()
        if pair in seen:
            continue
        seen.add(pair)
        step_sets = []
        for graph, places in ((mine, pair[0]), (theirs, pair[1])):
            by = {}
            for place in places:
                for b, is_throw in graph.next[place]:
                    by.setdefault((graph.labels[b], is_throw), set()).add(b)
            step_sets.append(by)
        if set(step_sets[0]) != set(step_sets[1]):
            return False
        open_ += [(frozenset(step_sets[0][key]), frozenset(step_sets[1][key])) for key in step_sets[0]]
    exits = 3 - len({label for label in mine.labels if label[0] == drawn.body and label[1] in ('Entry', 'Exit', 'Thrown')})
    return len(points) + exits == len(told_graph[0]) and len(steps) == len(told_graph[1])


# ---- bytecode

class Code:
    """A method of javap: its instructions, lines, handlers and locals."""

    def __init__(self, name, text):
        self.name, self.ops, self.lines, self.handlers, self.variables = name, [], [], [], []
        part, switch = None, None
        for line in text:
            words = line.split() or ['']
            if re.match(r' {4}[A-Z]', line):
                part = words[0]
            elif part == 'Code:' and switch is not None:
                self.ops[-1][2].append(int(words[-1])) if words[0] != '}' else None
                switch = None if words[0] == '}' else switch
            elif part == 'Code:' and re.match(r'\s+\d+: ', line):
                at, op = int(words[0][:-1]), words[1]
                switch = True if op.endswith('switch') else None
                self.ops.append((at, op, [] if switch else words[2:]))
            elif part == 'Exception' and words[0].isdigit():
                self.handlers.append((int(words[0]), int(words[1]), int(words[2]), words[3] == 'any'))
            elif part == 'LineNumberTable:' and words[0] == 'line':
                self.lines.append((int(words[2]), int(words[1][:-1])))
            elif part == 'LocalVariableTable:' and words[0].isdigit():
                self.variables.append((int(words[0]), int(words[0]) + int(words[1]), int(words[2]), words[3]))
        self.lines.sort()

    def line(self, at):
        return [line for start, line in self.lines if start <= at][-1]

    def local(self, slot, at):
        return next((name for start, end, number, name in self.variables if number == slot and start <= at < end), None)


def codes_of(folder, classes):
    found = {}
    for name in classes:
        text = subprocess.run(['javap', '-c', '-l', '-p', '-cp', folder, name], stdout=subprocess.PIPE, check=True).stdout.decode().split('\n')
        at = [k for k, line in enumerate(text) if re.match(r'  \S.*\);$|  \S.*\) throws .*;$|  static \{\};', line)]
        for k, end in zip(at, at[1:] + [len(text)]):
            head = re.search(r'([\w$]+)\(', text[k])
            code = Code(head.group(1) if head else '<clinit>', text[k + 1:end])
            if code.ops:
                found[name, code.name, code.line(0)] = code
    return found


DIVIDE = {'idiv', 'irem', 'ldiv', 'lrem'}
ARRAYS = {'newarray', 'anewarray', 'multianewarray'}


class Bytecode:
    def __init__(self, code, parameters, caught):
        self.code, self.parameters, self.caught_at = code, parameters, caught
        self.events, self.allocated = [], 0
        for k, (at, op, words) in enumerate(code.ops):
            behind = code.ops[k + 1][0] if k + 1 < len(code.ops) else at + 1
            self.events.append([(code.line(at), what) for what in self.whats(k, at, behind, op, words)])
        self.merge_steps()

    def whats(self, k, at, behind, op, words):
        """The events of an instruction."""
        comment = ' '.join(map(str, words)).partition('// ')[2]
        member = re.match(r'(?:Interface)?(?:Method|Field) (?:([\w/$]+)\.)?"?([\w$<>]+)"?:(\S+)', comment)
        if op.startswith('invoke'):
            owner, name, form = member.groups()
            if owner == 'java/lang/StringBuilder':
                is_null = k > 0 and self.code.ops[k - 1][1] == 'aconst_null'
                return ['text'] if form.startswith('(Ljava/lang/Object;)') and not is_null else []
            return ['init' if name == '<init>' else 'call ' + name]
        if op in ('getfield', 'getstatic', 'putfield', 'putstatic'):
            return [('read ' if op.startswith('get') else 'write ') + member.group(2)]
        if op == 'new':
            self.allocated += not comment.endswith('StringBuilder')
            return []
        if op in DIVIDE:
            return ['div']
        if op in ARRAYS:
            return ['array']
        simple = {'checkcast': 'cast', 'arraylength': 'length', 'athrow': 'throw'}.get(op)
        if simple == 'throw' and k and self.is_hidden(k - 1):
            return []
        if simple:
            return [simple]
        if re.fullmatch('[ilabcs]aload', op):
            return ['item']
        if re.fullmatch('[ilabcs]astore', op):
            return ['put item']
        return self.local_whats(at, behind, op, words)

    def slot(self, op, words):
        found = re.fullmatch(r'[ila](load|store)(?:_(\d))?', op)
        return (found.group(1), int(found.group(2) or words[0])) if found else None

    def is_hidden(self, k):
        """A load of what has no name: of a throw that waits for the end of a `finally`."""
        at, op, words = self.code.ops[k]
        found = self.slot(op, words)
        return found is not None and self.code.local(found[1], at) is None

    def local_whats(self, at, behind, op, words):
        if op in ('iinc', 'iinc_w'):
            name = self.code.local(int(words[0].rstrip(',')), at)
            return ['use ' + name, 'def ' + name]
        found = self.slot(op, words)
        name = found and (found[0] == 'store' and self.code.local(found[1], behind) or self.code.local(found[1], at))
        if name is None and any(target == at and not takes_all for _, _, target, takes_all in self.code.handlers):
            # The parameter of a catch with an empty block is in no table.
            name = self.caught_at[self.code.line(at)]
        return [] if name in (None, 'this') else [('use ' if found[0] == 'load' else 'def ') + name]

    def merge_steps(self):
        """A load beside a step of the same local in one line is the use of that step."""
        for k, events in enumerate(self.events):
            if len(events) == 2:
                beside = [j for j in (k - 1, k + 1) if 0 <= j < len(self.events) and self.events[j] == events[:1]]
                if beside:
                    self.events[beside[0]] = []

    def targets(self, k):
        at, op, words = self.code.ops[k]
        behind = [self.code.ops[k + 1][0]] if k + 1 < len(self.code.ops) else []
        if op.startswith('if'):
            return behind + [int(words[0])]
        if op in ('goto', 'goto_w'):
            return [int(words[0])]
        if op.endswith('switch'):
            return words
        return [] if op.endswith('return') or op == 'athrow' else behind

    def caught(self, at):
        """Where a throw at the place goes, and whether it may leave the method."""
        to = []
        for start, end, target, takes_all in self.code.handlers:
            if start <= at < end:
                to.append(target)
                if takes_all:
                    return to, False
        return to, True

    def graph(self):
        found = Graph()
        found.add(None)
        last = 0
        for line, name in self.parameters:
            found.next[last].append(found.add((line, 'def ' + name)))
            last = len(found.labels) - 1
        places = {op[0]: found.add(None) for op in self.code.ops}
        done, thrown = found.add(EXIT), found.add(THROWN)
        found.next[last].append(places[self.code.ops[0][0]])
        for k, (at, op, _) in enumerate(self.code.ops):
            here = places[at]
            handlers, leaves = self.caught(at)
            throws = [places[target] for target in handlers] + [thrown] * leaves
            for event in self.events[k]:
                on = found.add(event)
                found.next[here].append(on)
                if not event[1].startswith(('use ', 'def ')):
                    found.next[on] += throws
                here = on
            if op == 'athrow' and not self.events[k]:
                found.next[here] += throws
            found.next[here] += [done] if op.endswith('return') else [places[target] for target in self.targets(k)]
        return found


# ---- comparison

def stepped(graph, places):
    """The events that may be next behind any of the places, each with its places."""
    seen, open_, by = set(), list(places), {}
    while open_:
        for to in graph.next[open_.pop()]:
            if to in seen:
                continue
            seen.add(to)
            label = graph.labels[to]
            if label is None:
                open_.append(to)
            else:
                by.setdefault(label, set()).add(to)
    return by


def walked(one, other, only_more):
    """The pairs of events that follow each other in each, and the first words by which they differ. With `only_more` the first may have more."""
    seen, open_, differing = {}, [(frozenset([0]), frozenset([0]), ())], []
    for a, b, word in open_:
        if (a, b) in seen:
            continue
        seen[a, b] = True
        mine, theirs = stepped(one, a), stepped(other, b)
        for label in sorted(set(mine) | set(theirs)):
            if label in mine and label in theirs:
                open_.append((frozenset(mine[label]), frozenset(theirs[label]), word + (label,)))
            elif label in theirs or not only_more:
                differing.append((word, label, 'definition' if label in mine else 'bytecode'))
    return differing


def successions(graph):
    pairs, seen, open_ = set(), set(), [(frozenset([0]), (0, 'entry'))]
    while open_:
        places, label = open_.pop()
        if (places, label) in seen:
            continue
        seen.add((places, label))
        for to, found in stepped(graph, places).items():
            pairs.add((label, to))
            open_.append((frozenset(found), to))
    return pairs


def shown_event(event):
    return '%s:%s' % event if event[0] else event[1]


def compare(drawn, code, show):
    """The successions of the definition, of it with the values of conditions, and of the bytecode; what each lacks; and what was left aside."""
    meaning, rows = drawn.meaning, drawn.rows
    parameters = [(rows[k]['line'], rows[k]['name']) for k in meaning.children(drawn.body) if rows[k]['kind'] == 'Parameter']
    caught = {row['line']: row['name'] for row in rows if row['kind'] == 'Parameter' and rows[row['parent']]['kind'] == 'Catch' and row['unit'] == rows[drawn.body]['unit']}
    bytecode = Bytecode(code, parameters, caught)
    plain, valued, other = drawn.graph(False), drawn.graph(True), bytecode.graph()
    pairs = [successions(graph) for graph in (plain, valued, other)]
    if show:
        for pair in sorted(pairs[0] | pairs[2]):
            print('  ', shown_event(pair[0]), '->', shown_event(pair[1]), '' if pair in pairs[1] and pair in pairs[2] else 'bytecode' if pair in pairs[2] else 'definition' if pair in pairs[1] else 'values')
    return pairs, walked(plain, other, True), walked(valued, other, False), (len(drawn.sums), len(drawn.constants), bytecode.allocated)


def bodies(meaning, graphs):
    """Methods and constructors, and an initializer or static field that is all of its class's `<clinit>`."""
    static = {}
    for body in sorted(graphs):
        row = meaning.rows[body]
        is_constant = row['kind'] == 'Field' and row['says']['is_final'] and meaning.is_constant(body + 2)
        if row['kind'] in ('Field', 'Initializer') and row['says']['is_static'] and not is_constant:
            static.setdefault(class_round(meaning.rows, body), []).append(body)
    for body in sorted(graphs):
        row, over = meaning.rows[body], class_round(meaning.rows, body)
        if row['kind'] in ('Method', 'Constructor'):
            yield body, over, row['name'] if row['kind'] == 'Method' else over
        elif static.get(over) == [body]:
            yield body, over, '<clinit>'


def class_round(rows, n):
    while rows[n]['kind'] not in ('Class', 'Interface'):
        n = rows[n]['parent']
    return rows[n]['name']


def code_of(codes, rows, body, over, name):
    """The code of a method of that name, with a line among those of the body."""
    lines = [rows[k]['line'] for k in range(body, rows[body]['end'])]
    return next(code for (owner, other, line), code in codes.items() if (owner, other) == (over, name) and min(lines) <= line <= max(lines) + 1)


def tell(name, count, compared):
    """Whether the body differs."""
    pairs, missing, differing, _ = compared
    print('%-18s %4d points; successions: definition %4d, with values %4d, bytecode %4d, both %4d' % (name, count, *map(len, pairs), len(pairs[1] & pairs[2])))
    for kind, found in (('not in the definition', missing), ('differs', differing)):
        for word, label, side in found[:3]:
            print('  %s: %s alone has %s behind %s' % (kind, side, shown_event(label), ' '.join(map(shown_event, word[-4:]))))
    return bool(missing or differing)


def read(args):
    """The meaning of the rows, the graphs that the code draws, and the code of methods."""
    paths = sorted(args.files or glob.glob(HERE + '/cases/flow/*.java'), key=os.path.basename)
    with tempfile.TemporaryDirectory() as folder:
        binary = args.bin or folder + '/shown'
        if not args.bin:
            subprocess.run([sys.executable, os.path.join(TOP, 'tools', 'unproved.py'), HERE + '/flow.txt', binary], check=True)
        files = [(os.path.basename(path), open(path, 'rb').read()) for path in paths]
        subprocess.run(['javac', '-g', '-nowarn', '-Xlint:-options', '--release', args.release, '-d', folder, *paths], check=True)
        rows, graphs = rows_of(told(binary, files), [[0] + [m.end() for m in re.finditer(b'\n', text)] for _, text in files])
        codes = codes_of(folder, sorted(name[:-6] for name in os.listdir(folder) if name.endswith('.class')))
    return Meaning(rows), graphs, codes


def main():
    parser = argparse.ArgumentParser(description=__doc__, formatter_class=argparse.RawDescriptionHelpFormatter)
    parser.add_argument('--bin')
    parser.add_argument('--show', action='store_true')
    parser.add_argument('--release', default='7')
    parser.add_argument('files', nargs='*')
    args = parser.parse_args()
    meaning, graphs, codes = read(args)
    methods = points = wrong = 0
    sums, aside = [0] * 4, [0] * 3
    for body, over, name in bodies(meaning, graphs):
        drawn = Drawn(meaning, body)
        if not is_of_code(drawn, graphs[body]):
            wrong += 1
            print('%s.%s: the graph of the model is not that of the code' % (over, name))
        compared = compare(drawn, code_of(codes, meaning.rows, body, over, name), args.show)
        wrong += tell(over + '.' + name, len(graphs[body][0]), compared)
        methods += 1
        points += len(graphs[body][0])
        pairs = compared[0]
        sums = [old + len(found) for old, found in zip(sums, (*pairs, pairs[1] & pairs[2]))]
        aside = [old + found for old, found in zip(aside, compared[3])]
    print('%d methods, %d points; successions: definition %d, with the values of conditions %d, bytecode %d, both %d; %d differences' % (methods, points, *sums, wrong))
    print('left aside: %d sums of strings that show no object, %d uses of constant locals, %d times `new` before its arguments' % tuple(aside))
    return 1 if wrong else 0


if __name__ == '__main__':
    sys.exit(main())
