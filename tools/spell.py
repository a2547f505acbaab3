#!/usr/bin/env python3
"""Spells the repository's own definitions and lemmas as the library spells its own.

Run at the top, after the toolchain's port.py, until it changes nothing more. A definition is in snake case, a type or a module in
camel case. In a lemma's name a dash joins two names that are defined, and an underscore adds a plain word.
"""
import collections
import glob
import re
import sys

HEAD = re.compile(r'^(\s*)(?:(?:pub|abbrev|unfoldable)\s+)*([^\s:(){}=,;.]+)(?:\s+[{(][^:]*?[)}]|\s+\{ℓ\})*\s+:\s')
TYPE = re.compile(r'^\s*(?:(?:pub|abbrev|unfoldable)\s+)*(?:record|data)\s+(\S+)')
TOKEN = re.compile(r"[^\s(){}\[\],;.\"`«»⌜⌝]+")
WORDS = set('''append cons nil suc zero add sub mul div mod pow le lt eq and or not xor cond length take drop
reverse map set get_or replicate sum bit_xor bit_and bit_or shl shr min max neg pos negsuc concat repeat'''.split())
# Where the rule gives two names one spelling.
CHOSEN = {'output-of': 'output_of_lem', 'isSigned': 'is_signed_of', 'noNan': 'not_nan', 'bit-and': 'bit-and', 'bit-xor': 'bit-xor'}


def files(*patterns):
    found = []
    for pattern in patterns:
        found += glob.glob(pattern, recursive=True)
    return sorted(set(found))


LEMMAS = [f for f in files('crates/*/specs/**/*.antt', 'crates/*/proofs/**/*.antt') if not f.endswith('/Proof.antt')]
ALL = files('crates/*/specs/**/*.antt', 'crates/*/proofs/**/*.antt', 'crates/*/src/**/*.rt')


def snake(name):
    parts = re.split(r'(-)', name)
    return ''.join(p if p == '-' or not re.match(r'^[a-z]', p) else re.sub(r'(?<=[a-z0-9])([A-Z])', lambda m: '_' + m.group(1).lower(), p)
                   for p in parts).replace('get_d', 'get_or')


def defined():
    """Own names, and those of them that specs/ defines or that name a type."""
    names, words = set(), set()
    for f in LEMMAS:
        for line in open(f):
            if line.lstrip().startswith('--') or re.match(r'^\s*(let|use|in|λ)\b', line):
                continue
            for m in (TYPE.match(line), HEAD.match(line)):
                if m:
                    name = m.group(m.lastindex)
                    names.add(name)
                    if '/specs/' in f or m.re is TYPE or name[0].isupper() or re.match(r'^\s*(pub\s+)?(abbrev|unfoldable)', line):
                        words.add(name)
    return names, words


def spelling(names, words):
    known = WORDS | {snake(w) for w in words if '-' not in w} | {snake(w).replace('-', '_') for w in words if w[0].islower()}
    out = {}
    for name in names:
        if name in words and name[0].islower():
            new = snake(name).replace('-', '_')
        else:
            parts = snake(name).split('-')
            # Names of several parts first: in_turn, fed_back, ..
            i, joined = 0, []
            while i < len(parts):
                for j in range(len(parts), i, -1):
                    word = '_'.join(parts[i:j])
                    if word in known or j == i + 1:
                        joined.append((word, word in known))
                        i = j
                        break
            new = joined[0][0]
            for (a, ka), (b, kb) in zip(joined, joined[1:]):
                new += ('-' if ka and kb else '_') + b
        new = CHOSEN.get(name, new)
        if new != name:
            out[name] = new
    # A lemma that would have the name of what it speaks of.
    own = {out.get(w, w) for w in words}
    for name in names - words:
        if '-' in name and out.get(name, name) in own:
            out[name] = out.get(name, name) + '_lem'
    return out


def local(texts, table):
    """Parameters and other names that no line defines."""
    out = {}
    for f, text in texts.items():
        if f.endswith('.rt'):
            continue
        for line in text.split('\n'):
            for t in TOKEN.findall(line.split('--')[0]):
                if t not in table and re.fullmatch(r'[a-z]+([A-Z][a-z]*)+', t):
                    out[t] = snake(t)
    return out


def turned(text, is_code, table):
    def token(m):
        return table.get(m.group(0), m.group(0))
    lines = []
    for line in text.split('\n'):
        mark = '//' if is_code else '--'
        at = line.find(mark)
        body, note = (line, '') if at < 0 else (line[:at], line[at:])
        if is_code:
            pieces = re.split(r'("(?:[^"\\]|\\.)*")', body)
            body = ''.join(p if p.startswith('"') else TOKEN.sub(token, p) for p in pieces)
        else:
            body = TOKEN.sub(token, body)
        # In a comment only what no English word looks like.
        note = TOKEN.sub(lambda m: table.get(m.group(0), m.group(0)) if re.match(r'^[a-z]+[A-Z]', m.group(0)) else m.group(0), note)
        lines.append(body + note)
    return '\n'.join(lines)


def main():
    names, words = defined()
    table = spelling(names, words)
    texts = {f: open(f).read() for f in ALL}
    table.update(local(texts, table))
    clashes = collections.defaultdict(set)
    for name in names:
        clashes[table.get(name, name)].add(name)
    bad = False
    for new, olds in sorted(clashes.items()):
        if len(olds) > 1:
            print('one spelling for', *sorted(olds), '->', new)
            bad = True
    for f, text in texts.items():
        tokens = set(TOKEN.findall(text))
        for t in sorted(tokens & set(table)):
            if table[t] in tokens:
                print('in', f, ':', t, '->', table[t], 'stands there already')
                bad = True
    # What is printed was looked at: a function and its definition may share a name, and so may fields of two records.
    if bad and '--force' not in sys.argv:
        sys.exit('nothing was written')
    if '--table' in sys.argv:
        for old, new in sorted(table.items()):
            print(old, new)
        return
    for f, text in texts.items():
        new = turned(text, f.endswith('.rt'), table)
        if new != text:
            open(f, 'w').write(new)


if __name__ == '__main__':
    main()
