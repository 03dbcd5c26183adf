#!/usr/bin/env python3
"""Lists the places of the forms that docs/DESIGN-PASS.md counts, from the sources alone.

    tools/forms/count.py [--tree FOLDER] [POINT ..]

Points: 1 own enums, flags (a camera's mirror is a datum and none) and numbers in place of Option, Result and enums; 2 functions alike but for names, types and constants; 3 loops that count
an index by hand; 4 conversions and copies by hand; 5 parameters that travel together; 6 rows and lengths as separate fields and parameters; 7
switches. A line `// Stays (..)` above a place, in the comment of its function or type, or, of points 2 and 5, among the first three lines of
its file, marks it as kept.
"""
import argparse
import collections
import pathlib
import re

TOKEN = re.compile(r'"[^"]*"|b?\'[^\']*\'|0x[0-9A-Fa-f_]+|\d[\d_.e]*|\w+|[^\s\w]')
WORDS = set('if else while for in return let mut match as true false fn pub const struct self Self loop break continue'.split())


def sources(tree):
    for path in sorted(tree.glob('crates/*/src/*.rt')):
        yield path.relative_to(tree), path.read_text().split('\n')


def functions(lines):
    """Each function: its first line, its name, its head with clauses, its body, the comment above it."""
    i = 0
    while i < len(lines):
        m = re.match(r'( *)(?:pub(?:\(\w+\))? )?(?:extern "C" )?fn (\w+)', lines[i])
        if not m:
            i += 1
            continue
        pad, j = m.group(1), i
        while j < len(lines) and not re.match(pad + r'\}', lines[j]) and not (j == i and lines[j].endswith((';', '}'))):
            j += 1
        k = next((n for n in range(i, j + 1) if lines[n] == pad + '{' or re.match(pad + r'(\)|fn|pub)', lines[n]) and lines[n].endswith('{')), i)
        c = i
        while c and lines[c - 1].lstrip().startswith(('//', '#[')):
            c -= 1
        yield i + 1, m.group(2), '\n'.join(lines[i:k + 1]), lines[k + 1:j], '\n'.join(lines[c:i])
        i = j + 1


def kept(lines, at, comment='', whole_file=False):
    if 'Stays (' in comment + (''.join(lines[:3]) if whole_file else ''):
        return ' (stays)'
    c = at - 2
    while c >= 0 and lines[c].lstrip().startswith(('//', '#[')):
        if 'Stays (' in lines[c]:
            return ' (stays)'
        c -= 1
    return ''


def point1(tree):
    for path, lines in sources(tree):
        in_struct = False
        for n, line in enumerate(lines, 1):
            if re.match(r'\s*(pub(\(\w+\))? )?struct \w+.*\{$', line):
                in_struct = n
            elif line.startswith('}'):
                in_struct = False
            what = None
            if re.match(r'\s*(pub(\(\w+\))? )?enum ', line):
                what = 'enum'
            elif in_struct and re.match(r'\s+(pub )?(?!mirror|parity_flip)\w+: bool,', line):
                what = 'flag in a struct'
            elif in_struct and re.match(r'\s+(pub )?refusal: usize', line):
                what = 'number of a refusal in a struct'
            elif re.search(r'Refused\(usize\)|\b(refused|stopped)\(\d+\)|Refused\((\d+|UNSOUND)\)|const UNSOUND|\b(refused|stopped)\((&(mut )?self, )?(number|refusal): usize', line):
                what = 'number of a refusal'
            elif re.search(r'const (NEVER|NO_RESIDUAL)\b|return cap \+ 1', line):
                what = 'number in place of no answer'
            if what:
                mark = kept(lines, n) or (kept(lines, in_struct) if in_struct else '')
                yield path, n, what + ': ' + line.strip(), mark
        for n, name, head, body, comment in functions(lines):
            text = '\n'.join(body)
            if '-> usize' in head and re.search(r'refus', head + comment) and not re.search(r'refusal_of\(v', head) and re.search(r'return (\d+);|\bor_else\(|!= 0', text):
                yield path, n, 'answers the number of a refusal: ' + name, kept(lines, n, comment)


def shape(body):
    names, out = {}, []
    for t in TOKEN.findall(re.sub(r'//[^\n]*', '', '\n'.join(body))):
        if re.match(r'[0-9"\']', t):
            out.append('N')
        elif re.match(r'\w', t) and t not in WORDS:
            out.append(names.setdefault(t, 'x%d' % len(names)))
        else:
            out.append(t)
    return ' '.join(out)


def point2(tree):
    groups = collections.defaultdict(list)
    for path, lines in sources(tree):
        if path.parts[1] in ('trials',):
            continue
        for n, name, head, body, comment in functions(lines):
            s = shape(body)
            if len(s.split()) >= 9:
                groups[s].append((path, n, name, kept(lines, n, comment, whole_file=True)))
    for group in groups.values():
        if len(group) > 1:
            names = ', '.join('%s::%s' % (p.parts[1], f) for p, n, f, k in group)
            for p, n, f, k in group[1:]:
                yield p, n, 'alike: ' + names, k


def point3(tree):
    for path, lines in sources(tree):
        for n, name, head, body, comment in functions(lines):
            for at, line in enumerate(body):
                m = re.match(r'( *)while (.*) \{', line)
                if not m:
                    continue
                end = next(e for e in range(at, len(body)) if body[e] == m.group(1) + '}')
                inner = '\n'.join(body[at + 1:end])
                steps = set(re.findall(r'^ {%d}(\w+) \+= [12];' % (len(m.group(1)) + 4), inner, re.M))
                if any(re.search(r'\b%s\b' % s, m.group(2)) for s in steps) and '&&' not in m.group(2):
                    row = n + head.count('\n') + at + 1
                    yield path, row, name + ': while ' + m.group(2), kept(lines, row, comment)


def point4(tree):
    for path, lines in sources(tree):
        for n, line in enumerate(lines, 1):
            if re.search(r'\{ (1|0) \} else \{ (0|1) \}', line):
                above = [f[4] for f in functions(lines) if f[0] <= n]
                yield path, n, 'a bool as a number: ' + line.strip(), kept(lines, n, above[-1] if above else '')
        for n, name, head, body, comment in functions(lines):
            text = ' '.join(b.strip() for b in body)
            copied = re.findall(r'\b(\w+): (\w+)\.\1\b|let (\w+) = (\w+)\.\3;', text)
            by = collections.Counter(b or d for a, b, c, d in copied)
            for source, count in by.items():
                if count >= 3:
                    yield path, n, '%s: %d fields of %s by hand' % (name, count, source), kept(lines, n, comment)


def point5(tree):
    sets = {'distances, indices': ('distances', 'indices'), 'out, at': ('out', 'at'), 'basis, t': ('basis', 't'),
            'numbers, floats, distances, indices': ('numbers', 'floats', 'distances', 'indices'), 'spots, directions': ('spots', 'directions'),
            'k, room': ('k', 'room'), 'a, m, e, to': ('a', 'm', 'e', 'to'), 'bytes, at': ('bytes', 'at'), 'pose, cut': ('pose', 'cut')}
    for path, lines in sources(tree):
        for n, name, head, body, comment in functions(lines):
            params = set(re.findall(r'(\w+): (?!usize[,)])', head.split('->')[0].split('ensures')[0].split('requires')[0]))
            params |= set(re.findall(r'\b(at|room|a|m|e|to): usize', head.split('->')[0].split('ensures')[0].split('requires')[0]))
            for title, group in sets.items():
                if set(group) <= params:
                    yield path, n, '%s: %s' % (title, name), kept(lines, n, comment, whole_file=True)


def point6(tree):
    for path, lines in sources(tree):
        for n, line in enumerate(lines, 1):
            m = re.match(r'\s+pub (?:\w+?)(0|_x): \[f(?:32|64); [23]\],', line)
            if m:
                yield path, n, 'rows of a matrix as fields: ' + line.strip(), kept(lines, n)


def point7(tree):
    for path, lines in sources(tree):
        for n, name, head, body, comment in functions(lines):
            params = head.split('->')[0]
            for p in re.findall(r'(\w+): bool\b', params):
                if re.search(r'\bif !?%s\b' % p, '\n'.join(body)) or p in ('fitting', 'weight', 'strips', 'option', 'sampled', 'plain'):
                    yield path, n, '%s(%s: bool)' % (name, p), kept(lines, n, comment)


def main():
    parser = argparse.ArgumentParser()
    parser.add_argument('--tree', default=pathlib.Path(__file__).resolve().parents[2], type=pathlib.Path)
    parser.add_argument('--counts', action='store_true')
    parser.add_argument('points', nargs='*', type=int)
    args = parser.parse_args()
    for p in args.points or range(1, 8):
        found = list(globals()['point%d' % p](args.tree))
        stays = sum(1 for f in found if f[3])
        print('point %d: %d places, %d of them marked as kept' % (p, len(found), stays))
        if not args.counts:
            for path, n, what, mark in found:
                print('  %s:%d  %s%s' % (path, n, what, mark))


if __name__ == '__main__':
    main()
