#!/usr/bin/env python3
"""Writes the tables of the worked programs: reads programs.txt, has the product's parser print the rows of each unit, and writes specs and contracts.

Usage, in crates/jr_outline: `python3 ../../tools/worked/rows.py`. It runs `rt try jr_outline`, whose answer it keeps in the file
that is named behind it, if any, and writes crates/jr_worked/specs/GROUP.antt, src/law.rt and
proofs/law. What names refer to comes from programs.txt alone; the rows come from the parser.
Of the programs on cycles it writes the rows alone, crates/jr_worked_bindings/specs/Cycles.antt.
Then `rt tidy` in both crates takes out the imports that nothing uses."""
import os
import re
import subprocess
import sys

HERE = os.path.dirname(os.path.abspath(__file__))
sys.path.insert(0, os.path.join(HERE, '..', 'javac'))
from compare import parse_debug

CRATE = os.path.join(HERE, '..', '..', 'crates', 'jr_worked')
BINDINGS = os.path.join(HERE, '..', '..', 'crates', 'jr_worked_bindings')
CYCLES = 'Cycles'
OBJECT = 'public class Object { }'
FIELDS = {'Import': ['kind'], 'Name': ['kind', 'place', 'is_qualified'], 'TypeUse': ['primitive', 'dims'], 'Class': ['modifiers', 'is_member'],
          'Interface': ['modifiers', 'is_member'], 'EmptyDecl': ['is_member'], 'Fields': ['modifiers'], 'Field': ['modifiers', 'dims'],
          'Method': ['modifiers', 'is_void', 'has_body'], 'Constructor': ['modifiers'], 'Initializer': ['is_static'], 'Parameter': ['is_final', 'dims'],
          'Local': ['is_final', 'dims'], 'For': ['has_first', 'has_condition'], 'Break': ['has_label'], 'Continue': ['has_label'], 'Try': ['has_finally'],
          'ConstructorCall': ['which'], 'Assign': ['op'], 'Binary': ['op'], 'Unary': ['op'], 'PreStep': ['op'], 'PostStep': ['op'], 'Literal': ['kind'],
          'This': ['is_qualified'], 'Call': ['receiver'], 'NewArray': ['primitive', 'lengths', 'more']}
MODULES = {'receiver': 'on', 'place': 'place', 'which': 'which', 'op': 'y', 'primitive': 'primitive'}


class Program:
    def __init__(self, number, name):
        self.number, self.name, self.lang, self.units, self.lines, self.claims = number, name, OBJECT, [], [], []

    def sources(self):
        """The texts of the units. A mark stands behind its name, so that the row of the name has it; `Rows` takes it off again."""
        return ['package java.lang; ' + self.lang] + [re.sub(r'/\*(\d+)\*/(\w+)', r'\2__\1', text) for _, text in self.units]


def read_programs(path):
    """The groups, each with its heading and programs."""
    groups = []
    for line in open(path, encoding='utf-8'):
        line = line.rstrip('\n')
        if line.startswith('# group '):
            name, heading = line[8:].split(': ', 1)
            groups.append((name, heading, []))
        elif line.startswith('== '):
            number, name = line[3:].split(' ')
            groups[-1][2].append(Program(number, name))
        elif line and not line.startswith('#'):
            add_line(groups[-1][2][-1], line)
    return groups


def add_line(program, line):
    if line.startswith('lang: '):
        program.lang = line[6:]
    elif line.startswith('claim '):
        program.claims.append(line[6:].split(' ', 1))
    elif ' -> ' in line:
        program.lines.append(line.split(' -> '))
    else:
        program.units.append(tuple(line.split(': ', 1)))


def printed(sources):
    """What the parser prints of the sources; it is kept in the file that is named on the command line, if any."""
    kept = sys.argv[1] if len(sys.argv) > 1 else None
    data = b''.join(s.encode() + b'\0' for s in sources)
    if kept and os.path.exists(kept):
        with open(kept, 'rb') as file:
            old, _, text = file.read().partition(b'\1')
        if old == data:
            return text
    text = subprocess.run(['rt', 'try', 'jr_outline'], input=data, stdout=subprocess.PIPE, check=True).stdout
    if kept:
        with open(kept, 'wb') as file:
            file.write(data + b'\1' + text)
    return text


def outlines(sources):
    """The rows of each source as the parser prints them: parent, name and label."""
    done = printed(sources).decode().split('\n')
    found, rows = [], []
    for line in done:
        if line == '.':
            found.append(rows)
            rows = []
        elif line.startswith('fault'):
            raise SystemExit('%s in %s' % (line, sources[len(found)]))
        elif re.match(r'\d+ \S+ [A-Z]', line):
            parent, name, label = line.split(' ', 2)
            rows.append((int(parent), '' if name == '-' else name, parse_debug(label)))
    assert len(found) == len(sources), (len(found), len(sources))
    return found


class Rows:
    """The rows of a program: that of the program itself, and those of its units behind each other."""

    def __init__(self, units):
        self.parent, self.name, self.label, self.marks = [0], [''], [('Program', None)], {}
        for rows in units:
            shift = len(self.label) - 1
            for parent, name, label in rows[1:]:
                name, _, mark = name.partition('__')
                if mark:
                    self.marks[mark] = len(self.label)
                self.parent.append(parent + shift if parent else 0)
                self.name.append(name)
                self.label.append(label)
        count = len(self.label)
        self.end = [n + 1 for n in range(count)]
        for n in range(count - 1, 0, -1):
            self.end[self.parent[n]] = max(self.end[self.parent[n]], self.end[n])
        self.previous, last = [], {}
        for n in range(count):
            self.previous.append(last.get(self.parent[n], self.parent[n]))
            last[self.parent[n]] = n

    def head(self, n):
        return self.label[n][0]

    def field(self, n, name):
        return self.label[n][1][name]

    def kids(self, n):
        return [k for k in range(1, len(self.parent)) if self.parent[k] == n]

    def occurrence(self, n):
        """The name of the occurrence, if the row is one."""
        head = self.head(n)
        if head == 'Name':
            return None if self.field(n, 'kind')[0] == 'Package' else self.name[n]
        if head in ('Select', 'SuperSelect', 'Call', 'Constructor'):
            return self.name[n]
        if head in ('Break', 'Continue'):
            return self.name[n] or None
        if head == 'New':
            return 'new'
        if head == 'ConstructorCall':
            return self.field(n, 'which')[0].lower() + '()'
        return 'super()' if head == 'ImplicitCall' else None

    def declares(self, n):
        return self.name[n] if self.head(n) in ('Class', 'Interface', 'Field', 'Method', 'Parameter', 'Local', 'Labeled') else None

    def constructors(self, name):
        """The constructors of the types of the name."""
        types = [n for n in range(len(self.label)) if self.head(n) in ('Class', 'Interface') and self.name[n] == name]
        return [n for n in range(len(self.label)) if self.head(n) in ('Constructor', 'DefaultConstructor') and self.parent[self.parent[n]] in types]

    def names_no_superclass(self, n):
        """The implicit call stands in a class that names no superclass."""
        of = self.parent[self.parent[self.parent[n]]]
        return not any(self.head(k) == 'Name' and self.field(k, 'place')[0] == 'Superclass' for k in self.kids(of))


def only(found, what):
    if len(found) != 1:
        raise SystemExit('%s stands for %s' % (what, found))
    return found[0]


class Names:
    """What the words of a program's lines stand for."""

    def __init__(self, rows):
        self.rows = rows

    def target(self, word):
        rows = self.rows
        if word in rows.marks:
            return rows.marks[word]
        if word.endswith('()'):
            return only(rows.constructors(word[:-2]), word)
        return only([n for n in range(len(rows.label)) if rows.declares(n) == word], word)


SPECIAL = {'-': 'Unbound', '?': 'Ambiguous', 'pkg': 'Package', 'length': 'ArrayLength'}


def table_of(program, rows):
    """The expected entries, and the rows of the occurrences by their names."""
    names = Names(rows)
    lines, entries, occurrences = list(program.lines), [], {}
    for n in range(len(rows.label)):
        name = rows.occurrence(n)
        if name is None or rows.head(n) == 'ImplicitCall' and rows.name[rows.parent[rows.parent[rows.parent[n]]]] == 'Object':
            continue
        if rows.head(n) == 'ImplicitCall' and rows.names_no_superclass(n):
            entries.append((n, 'Declared %d None' % names.target('Object()')))
            continue
        if not lines:
            raise SystemExit('%s: no line for %s, row %d' % (program.name, name, n))
        said, target = lines.pop(0)
        if said != name:
            raise SystemExit('%s: row %d is %s, not %s' % (program.name, n, name, said))
        occurrences.setdefault(name, []).append(n)
        entries.append((n, entry(names, target)))
    if lines:
        raise SystemExit('%s: no row for %s' % (program.name, lines))
    return names, entries, occurrences


def entry(names, target):
    if target in SPECIAL:
        return SPECIAL[target]
    word, _, level = target.partition(' at ')
    return 'Declared %d %s' % (names.target(word), '(Some %d)' % names.target(level) if level else 'None')


def claim_text(text, names, occurrences):
    def row(word):
        if word.startswith(':'):
            return names.target(word[1:])
        if word in names.rows.marks:
            return names.rows.marks[word]
        found = re.fullmatch(r'([A-Za-z]+)(\d*)', word)
        if word in occurrences:
            return occurrences[word][0]
        return occurrences[found[1]][int(found[2]) - 1]
    text = re.sub(r'\(\$(\w+) - (\d+)\)', lambda m: str(row(m[1]) - int(m[2])), text)
    return re.sub(r'\$(:?\w+(?:\(\))?)', lambda m: str(row(m[1])), text)


# ---- antt

def value(name, v):
    head, inner = v if isinstance(v, tuple) else (v, None)
    if isinstance(v, int):
        return str(v)
    if name == 'modifiers':
        on = [k[3:].capitalize() for k, b in inner.items() if b[0] == 'true']
        return '(modifiers_of (%s[]))' % ''.join('modifier.%s ∷ ' % m for m in on) if on else 'bare'
    if head in ('true', 'false'):
        return head
    if name == 'primitive':
        return 'None' if head == 'None' else '(Some primitive.%s)' % inner[0]
    return '%s.%s' % (MODULES[name], head)


def label_text(label):
    head, fields = label
    if head == 'Import':
        return '(is.Import importing.%s)' % fields['kind'][0]
    if head == 'Name':
        return '(is.Name kind.%s place.%s %s)' % (fields['kind'][0], fields['place'][0], fields['is_qualified'][0])
    if head == 'Literal':
        return '(is.Literal %s)' % literal_text(fields['kind'])
    if head not in FIELDS:
        return 'is.' + head
    return '(is.%s %s)' % (head, ' '.join(value(f, fields[f]) for f in FIELDS[head]))


def literal_text(kind):
    head, inner = kind
    if head == 'Word':
        return '(token.Word word.%s)' % inner[0]
    if head == 'Str':
        return '(token.Str (codes "%s"))' % ''.join(map(chr, inner[1]['units']))
    return '(token.Int (pos %d))' % inner if head == 'Int' else '(token.%s %d)' % (head, inner)


def rows_text(rows):
    lines, line = [], '    '
    for n in range(len(rows.label)):
        one = 'r %d %d %d %s %s' % (rows.parent[n], rows.end[n], rows.previous[n], label_text(rows.label[n]), '(codes "%s")' % rows.name[n] if rows.name[n] else '[]')
        if len(line) + len(one) > 150:
            lines.append(line.rstrip())
            line = '    '
        line += one + ' ∷ '
    return '\n'.join(lines + [line + '[]'])


def java_text(program):
    return '-- %s\n%s' % (program.number, '\n'.join('-- %s: %s' % unit for unit in program.units))


def cycle_text(program, rows):
    return '%s\nabbrev pub %s : Rows\n%s =\n%s\n' % (java_text(program), program.name, program.name, rows_text(rows))


def program_text(program, rows, entries):
    told = ' ∷ '.join('(%d, %s)' % e for e in entries)
    return '''%s
abbrev pub %s : Worked
%s = record {
  rows =
%s;
  targets = %s ∷ [];
}
''' % (java_text(program), program.name, program.name, rows_text(rows), told)


IMPORTS = '''use Rattle.std.specs.Prelude.{ℕ, true, false, List, [], ◌∷◌, Some, None, codes, pos}
use Rattle.jr_base.specs.declared.kind.Kind.TheVariants as token
use Rattle.jr_base.specs.declared.kind.Keyword.TheVariants as word
use Rattle.jr_base.specs.declared.kind.Symbol.TheVariants as y
use Rattle.jr_tree.specs.declared.tree.Modifier.TheVariants as modifier
use Rattle.jr_tree.specs.declared.tree.Primitive.TheVariants as primitive
use Rattle.jr_tree.specs.declared.tree.ThisOrSuper.TheVariants as which
use Rattle.jr_tree.specs.declared.label.Label.TheVariants as is
use Rattle.jr_tree.specs.declared.label.ImportKind.TheVariants as importing
use Rattle.jr_tree.specs.declared.label.NameKind.TheVariants as kind
use Rattle.jr_tree.specs.declared.label.NamePlace.TheVariants as place
use Rattle.jr_tree.specs.declared.label.ReceiverKind.TheVariants as on
use Rattle.jr_tree.specs.Decls.{modifiers_of}
use Rattle.jr_tree.specs.Rows.{Rows}
use Rattle.jr_defs.specs.declared.referent.Referent.TheVariants.{Unbound, Ambiguous, ArrayLength, Package, Declared}
use Rattle.jr_worked.specs.Tables.{Worked, r, bare}
'''


def main():
    groups = read_programs(os.path.join(HERE, 'programs.txt'))
    programs = [p for _, _, all in groups for p in all]
    found = iter(outlines([s for p in programs for s in p.sources()]))
    laws, uses = [], []
    for group, heading, all in groups:
        parsed = [(program, Rows([next(found) for _ in program.sources()])) for program in all]
        if group == CYCLES:
            write_specs(BINDINGS, group, heading, [cycle_text(program, rows) for program, rows in parsed])
            continue
        texts, clauses = [], []
        for program, rows in parsed:
            names, entries, occurrences = table_of(program, rows)
            texts.append(program_text(program, rows, entries))
            clauses.append((program, [(c, claim_text(t, names, occurrences)) for c, t in program.claims]))
        write_specs(CRATE, group, heading, texts)
        uses.append(write_law(group, heading, clauses, laws))
    with open(os.path.join(CRATE, 'src', 'law.rt'), 'w', encoding='utf-8') as out:
        out.write(open(os.path.join(HERE, 'law_head.txt'), encoding='utf-8').read() + ''.join(uses) + '\n' + '\n'.join(laws))


def write_specs(crate, group, heading, texts):
    with open(os.path.join(crate, 'specs', group + '.antt'), 'w', encoding='utf-8') as out:
        out.write('-- Worked programs. %s\n%s\n%s' % (heading, IMPORTS, '\n'.join(texts)))


# The lemma that a test tells whether a fact holds; the second ask that headers stand below types.
TELLS = {'InStaticContext': 'static_context_tells', 'IsOccurrence': 'occurrence_tells', 'IsPart': 'part_tells', 'IsPublic': 'public_tells',
         'IsStatic': 'static_tells', 'SingleImport': 'single_import_tells'}
HEADED = {'IsAccessible': 'accessible_tells'}


def claim_of(text, whole):
    """A claim as a clause, and its proof."""
    p, t = '(rows_of %s)' % whole, '(table_of %s)' % whole
    negated = text.startswith('no ')
    relation, _, rest = text[3 if negated else 0:].partition(' p ')
    with_table, rest = rest.startswith('t '), rest[2:] if rest.startswith('t ') else rest
    if relation in ('Constant', 'TypeOf'):
        lemma = relation[:4].lower() if relation == 'TypeOf' else 'constant'
        form = ' (HasConstantForm %s %s)' % (p, t) if relation == 'TypeOf' else ''
        kind = 'RowType' if relation == 'TypeOf' else 'Const'
        if negated:
            return '(v : %s) → %s %s %s%s %s v → ⊥' % (kind, relation, p, t, form, rest), 'no_%s %s refl %s refl' % (lemma, whole, rest)
        return '%s %s %s%s %s' % (relation, p, t, form, rest), '%s_is %s refl %s _ refl' % (lemma, whole, rest.split(' ', 1)[0])
    args = '%s %s %s' % (p, t, rest) if with_table else '%s %s' % (p, rest)
    tells = '%s %s' % (TELLS[relation], args) if relation in TELLS else '%s %s %s (typable_of %s refl).headed %s' % (HEADED[relation], p, t, whole, rest)
    if negated:
        return '%s %s → ⊥' % (relation, args), 'no (%s) refl' % tells
    return '%s %s' % (relation, args), '(%s).0 refl' % tells


def write_law(group, heading, clauses, laws):
    """One function for the group, with a clause for each program and each claim, and its proof. Answers the import of the group's programs."""
    module = group.lower()
    law = 'worked_' + module
    lines, fields = [], []
    for program, claims in clauses:
        whole = module + '.' + program.name
        lines.append('    ensures %s { IsLookedUp %s }' % (program.name, whole))
        fields.append('%s = looked_up %s refl' % (program.name, whole))
        for name, text in claims:
            clause, proof = claim_of(text, whole)
            lines.append('    ensures %s_%s { %s }' % (program.name, name, clause))
            fields.append('%s_%s = %s' % (program.name, name, proof))
    laws.append('/// %s\npub fn %s()\n%s\n{}\n' % (heading, law, '\n'.join(lines)))
    folder = os.path.join(CRATE, 'proofs', 'law', law)
    os.makedirs(folder, exist_ok=True)
    head = open(os.path.join(HERE, 'answers_head.txt'), encoding='utf-8').read()
    with open(os.path.join(folder, 'Answers.antt'), 'w', encoding='utf-8') as out:
        out.write('%suse Rattle.jr_worked.specs.%s as %s\nuse Rattle.jr_worked.proofs.law.%s.Goals as goal\n\npub returns : goal.returns\nreturns c = record {\n%s}\n'
                  % (head, group, module, law, ''.join('  %s;\n' % f for f in fields)))
    return 'ghost use Rattle.jr_worked.specs.%s as %s;\n' % (group, module)


if __name__ == '__main__':
    main()
