#!/usr/bin/env python3
"""Respells this repository's own definitions and lemmas as today's Rattle spells names: words in snake case, types and facts in camel case.

Run once, at the top, on what port.py made. Names of the library, of generated modules, of Rust functions and types, exported C names and
strings keep their spelling. With --list it writes nothing and prints what falls together.
"""
import collections
import glob
import re
import sys

CRATES = [line.split(':')[0].split()[0] for line in open('crates.txt') if line.strip() and not line.startswith('#')]
# One name for two things after the respelling, or a word of a clause's own: named anew by hand.
BY_HAND = {
    'result': 'result_number',
    'node_at': 'node_at_lem',
    'place_at': 'place_at_lem',
    'link-at': 'link_at_lem',
    'run-at': 'run_at_lem',
    'start-at': 'start_at_lem',
    'is_digit': 'is_digit_lem',
    'no_place': 'no_place_lem',
    'samePlace': 'is_same_place',
    'in-time': 'ends_in_time',
    'good-run': 'good_run_is',
    'node-count': 'node_count_is',
    'task-count': 'task_count_is',
    'link-count': 'link_count_is',
}
# Such a name is turned only where it is declared or comes from there.
ONLY_FROM = {'result': 'Refusals', 'node_at': 'EntryLaws', 'place_at': 'EntryLaws', 'is_digit': 'ScanLaws', 'no_place': 'PlanLaws'}
NAME = r"[^\s(){}\[\];,.λ⌜⌝:|`\"]+"
DECLARED = re.compile(r"^\s*(?:(?:pub|abbrev|unfoldable)\s+)*(" + NAME + r") (?::|\{)")
TYPE = re.compile(r"^\s*(?:pub\s+)?(?:record|data)\s+(" + NAME + ")")
USE = re.compile(r"\buse ([^\s{;]+?)\.\{([^}]*)\}")


def antt_files():
    return sorted(f for c in CRATES for d in ('specs', 'proofs') for f in glob.glob(f'crates/{c}/{d}/**/*.antt', recursive=True))


def snake(name):
    if not name[0].islower():
        return name
    name = re.sub(r"(?<=[a-z0-9])([A-Z])", r"_\1", name)
    name = re.sub(r"(?<=[A-Z])([A-Z][a-z])", r"_\1", name)
    return name.replace('-', '_').lower()


def is_own(path):
    parts = path.split('.')
    return parts[0] == 'Rattle' and len(parts) > 1 and parts[1] in CRATES


def foreign(text):
    """Names that a file takes from the library."""
    return {n.strip().split(' as ')[-1] for path, names in USE.findall(text) if not is_own(path) for n in names.split(',')}


def elsewhere(f, text):
    """Names of ONLY_FROM that stand for another thing in this file."""
    return {n for n, m in ONLY_FROM.items() if not f.endswith(m + '.antt')
            and not any(path.endswith('.' + m) and n in re.split(r'[,\s]+', items) for path, items in USE.findall(text))}


def without_lambda(text):
    """A clause that port.py left with its λ, since the repository had a definition named result."""
    def one(m):
        body = re.sub(r"(?<![\w.«])result(?![\w])", BY_HAND['result'], m.group(2))
        return ' { ' + (body if m.group(1) == '_' else re.sub(r"(?<![\w.])" + m.group(1) + r"(?![\w'])", 'result', body)) + ' }'
    text = re.sub(r"(?<=ensures)\*? \{ λ (\w+)\. ⌜ (.*?) ⌝ \}", one, text, flags=re.S)
    return re.sub(r"(ghost use [^;]*Refusals\.\{[^}]*)\bresult\b", r"\1" + BY_HAND['result'], text)


def declared():
    """Own names, each with the files that declare it."""
    names = collections.defaultdict(set)
    for f in antt_files():
        for line in open(f):
            for m in (DECLARED.match(line), TYPE.match(line)):
                if m:
                    names[m.group(1)].add(f)
    return names


def respelled(names):
    """The new name of each; a lemma or a field that would have a definition's name gets an ending."""
    new = {}
    taken = {snake(n) for n in names if '-' not in n and re.search('[A-Z]', n)} | {n for n in names if '-' not in n and snake(n) == n}
    for n in names:
        if n not in BY_HAND and '-' in n and '◌' not in n and n[0].islower() and snake(n) in taken:
            new[n] = snake(n) + '_lem'
        elif n in BY_HAND:
            new[n] = BY_HAND[n]
        elif '◌' in n:
            new[n] = n.replace('-', '_')
            if '-' in n and n != '◌-◌':
                new[n.replace('◌', '')] = new[n].replace('◌', '')
        elif re.fullmatch(r"[a-z][A-Za-z0-9_'-]*", n) and snake(n) != n:
            new[n] = snake(n)
    return new


def turn(text, new, kept, after_dot, local):
    """Each whole name of the text that is in new; a dashed name that is no one's in local text too."""
    def one(m):
        name, dot = m.group(0), m.start() > 0 and text[m.start() - 1] == '.'
        if name in kept or dot and name in ONLY_FROM:
            return name
        if name in new and not (dot and not after_dot and '-' in name):
            return new[name]
        if local and not dot and re.fullmatch(r"[a-z][a-z0-9_']*(?:-[a-z0-9_']+)+", name):
            return name.replace('-', '_')
        return snake(name) if re.fullmatch(r"[a-z]+(?:[A-Z][a-z]*)+", name) else name
    return re.sub(NAME, one, text)


def edit_line(line, new, code):
    """A line of a must-fail edit; what port.py makes of a projection and of a clause, too."""
    if line.startswith('#'):
        return turn(line, {n: v for n, v in new.items() if re.search('[A-Z]', n)}, set(), True, False)
    if not line.startswith(('old:', 'new:')):
        return line
    line = re.sub(r"(?<=[\w'»)]) \.(?=[\w(])", '.', turn(line, new, set(), True, False))
    line = line if code else re.sub(r"\((\w[\w']*(?:\.\w+)+)\)(?!\.)", r"\1", line)
    line = re.sub(r"Rattle·(\w+)(?:·\w+\.\w+)*", r"Rattle.\1", line) if '·' in line else line
    return line


def comments_apart(text, mark, change):
    return '\n'.join(change(a) + b + c for a, b, c in (line.partition(mark) for line in text.split('\n')))


def main():
    names = declared()
    new = respelled(names)
    if '--list' in sys.argv:
        back = collections.defaultdict(set)
        for n in names:
            back[new.get(n, n)].add(n)
        for n, olds in sorted(back.items()):
            if len(olds) > 1:
                print('together:', n, {o: sorted(names[o])[:3] for o in olds})
        outer = {n for f in antt_files() for n in foreign(open(f).read())}
        for n in sorted(names):
            if new.get(n, n) in outer:
                print('library:', n, '->', new.get(n, n), sorted(names[n])[:3])
        functions = {m for c in CRATES for f in glob.glob(f'crates/{c}/src/*.rt') for m in re.findall(r"\bfn (\w+)", open(f).read())}
        for n in sorted(new):
            if new[n] in functions:
                print('function:', n, '->', new[n], sorted(names.get(n, []))[:3])
        return
    for f in antt_files():
        text = open(f).read()
        walk = f.endswith('/Proof.antt')
        kept = foreign(text) | elsewhere(f, text)
        out = comments_apart(text, '-- ', lambda s: turn(s, new, kept, not walk, True))
        camel = {n: v for n, v in new.items() if re.search('[A-Z]', n)}
        out = '\n'.join(a + b + turn(c, camel, set(), True, False) for a, b, c in (line.partition('-- ') for line in out.split('\n')))
        if out != text:
            open(f, 'w').write(out)
    camel = {n: v for n, v in new.items() if '-' not in n or '◌' in n or n in ('or-else', 'or-refuse')}
    for c in CRATES:
        for f in sorted(glob.glob(f'crates/{c}/src/*.rt')):
            text = open(f).read()
            result = {n: v for n, v in camel.items() if n not in BY_HAND}
            out = without_lambda(turn(text, result, set(), True, False))
            if out != text:
                open(f, 'w').write(out)
        for f in sorted(glob.glob(f'crates/{c}/must-fail/*.edit')):
            text = open(f).read()
            dashed = new if 'file: src' not in text else camel
            dashed = {n: v for n, v in dashed.items() if n not in ONLY_FROM}
            out = '\n'.join(edit_line(line, dashed, 'file: src' in text) for line in text.split('\n'))
            if out != text:
                open(f, 'w').write(out)
    camel = {n: v for n, v in new.items() if '◌' not in n and (re.search('[A-Z]', n))}
    for f in ['README.md'] + sorted(glob.glob('docs/*.md')):
        text = open(f).read()
        out = re.sub(r"(?<![\w'.-])[a-z][A-Za-z0-9]*(?:-[A-Za-z0-9]+)*(?![\w'-])", lambda m: camel.get(m.group(0), m.group(0)), text)
        if out != text:
            open(f, 'w').write(out)


main()
