#!/usr/bin/env python3
"""Counts, for each point of docs/DESIGN-PASS.md, where src/ may still read like the older language.

    tools/places.py             counts in the working tree
    tools/places.py --list      with each place
    tools/places.py REV [..]    the same at a commit

A pattern finds candidates; which of them are places is said in the page.
"""
import re
import subprocess
import sys

args = [a for a in sys.argv[1:] if not a.startswith('--')]
show = '--list' in sys.argv
rev = args[0] if args else None


def git(*words):
    return subprocess.run(('git',) + words, capture_output=True, text=True, check=True).stdout


def files(pattern):
    if rev:
        names = git('ls-tree', '-r', '--name-only', rev).split()
    else:
        names = git('ls-files', '-co', '--exclude-standard').split()
    return sorted(n for n in names if re.fullmatch(pattern, n))


def text(name):
    if rev:
        return git('show', f'{rev}:{name}')
    with open(name) as f:
        return f.read()


def gather(pattern):
    found = {}
    for name in files(pattern):
        try:
            found[name] = text(name)
        except FileNotFoundError:
            pass
    return found


sources = gather(r'crates/[^/]+/src/.*\.rt')
proofs = gather(r'crates/[^/]+/(proofs|specs)/.*\.antt')


def report(label, places):
    print(f'{label}: {len(places)}')
    if show:
        for place in places:
            print('    ' + place)


def lines(label, pattern):
    report(label, [f'{name}:{i}: {line.strip()}'
                   for name, body in sources.items()
                   for i, line in enumerate(body.split('\n'), 1)
                   if re.search(pattern, line) and not line.lstrip().startswith('//')])


def bodies():
    """Each function's name, parameters and body, the body found by its own line of `{`."""
    for name, body in sources.items():
        rows = body.split('\n')
        i = 0
        while i < len(rows):
            m = re.match(r'^( *)(pub(\(crate\))? )?(const )?fn (\w+)', rows[i])
            if not m:
                i += 1
                continue
            indent = m.group(1)
            # the head ends with the `{` of the body, with `{}`, or with the `;` of a declaration
            j = i
            while j < len(rows) and not re.fullmatch(indent + r'\{(\})?|.*[^{]\{|.*\{\}|.*;', rows[j].split('//')[0].rstrip()):
                j += 1
            if j < len(rows) and rows[j].rstrip().endswith('{'):
                while j < len(rows) and rows[j] != indent + '}':
                    j += 1
            yield name, i + 1, m.group(5), rows[i:j + 1]
            i = j + 1


def parameters(rows):
    head = ' '.join(rows)
    m = re.search(r'fn \w+(?:<.*?>)?\((.*?)\)(?: ->|\s*$|\s*\{|\s+(?:requires|ensures))', head)
    if not m:
        return 0
    depth, count, word = 0, 0, ''
    for c in m.group(1):
        depth += (c in '([<') - (c in ')]>')
        if c == ',' and depth == 0:
            count += word.strip() != ''
            word = ''
        else:
            word += c
    return count + (word.strip() != '')


def code(rows):
    """The tokens of a function without comments and clauses, names and literals told apart by their kind alone."""
    kept = [r for r in rows if not re.match(r'^ *(//|ensures|requires|ghost|\(λ|×)', r)]
    tokens = re.findall(r"b?'(?:\\.|[^'])'|b?\"[^\"]*\"|[A-Za-z_]\w*|0x[0-9a-f]+|\d[\d_]*|\S", ' '.join(kept))
    words = {'fn', 'pub', 'let', 'mut', 'if', 'else', 'match', 'for', 'in', 'return', 'while', 'loop', 'self', 'Self', 'Some', 'None', 'Ok', 'Err',
             'true', 'false', 'as', 'crate'}
    return tuple(t if t in words or not re.match(r"[A-Za-z_0-9b'\"]", t) else
                 ('L' if re.match(r"\d|b?['\"]", t) else 'N') for t in tokens)


print('Point 1')
lines('own enums', r'^ *(pub(\(crate\))? )?enum ')
lines('bool fields and variants', r'^ *(pub(\(crate\))? )?[a-z_]+: bool,|\(bool\)|\{.*: bool.*\}')
report('functions that answer a bool', [f'{n}:{i}: {f}' for n, i, f, rows in bodies() if any(re.search(r'\) -> bool\b', r) for r in rows)])
lines('numbers for nothing or for no value', r'\(\) -> u8$|usize::MAX|unreachable\(\)')
lines('numbers for kinds', r'fn (\w+_)?number\(.*\) -> u(8|64)|: (bool|u8) as u64|\.attackers as u64')

print('Point 2')
groups = {}
for n, i, f, rows in bodies():
    t = code(rows)
    if len(t) >= 22:
        groups.setdefault(t, []).append(f'{n}:{i} {f}')
report('groups of functions of one shape', [' ~ '.join(g) for g in groups.values() if len(g) > 1])
runs = []
for name, body in sources.items():
    flat = re.sub(r'\(\s*', '(', re.sub(r',\s*\)', ')', re.sub(r'\s*\n\s*', ' ', body)))
    for m in re.finditer(r'(?:[|;&{]+ ?(\w+)\([^;|&{}]*?\)\s*)(?:(?:[|;&]+ ?)\1\([^;|&{}]*\)\s*){2,}', flat):
        runs.append(f'{name}: {m.group(1)}')
report('three or more calls in a row that differ in a constant', runs)
lines('impl of the game trait', r'^impl.* Game for ')

print('Point 3')
lines('loops over a range of numbers', r'^ *for .* in .*\.\.')
lines('loops with a counted index beside the thing', r'enumerate\(\)')
lines('other loops', r'^ *(while|loop) ')

print('Point 4')
lines('an Option or Result passed on by hand', r'None => (None|return|Err)|Err\(\w+\) => (Err|return|unreachable)|Ok\(_\) => |Err\(_\) ')
lines('words and letters printed by hand', r'=> (b?"[^"]*"|b?\'.\'),?$')
lines('conversions by hand', r'fn (of_|\w+_for\b|\w+_number|\w+_word|letter|mark)\w*\(')

print('Point 5')
report('functions of six or more parameters', [f'{n}:{i}: {f} {parameters(rows)}' for n, i, f, rows in bodies() if parameters(rows) >= 6])
needs = {}
for name, body in sources.items():
    for line in body.split('\n'):
        m = re.match(r'^ *requires (?:\w+ )?\{(.*)\}', line)
        if m:
            needs.setdefault(m.group(1).strip(), []).append(name)
report('requires that stand three times or more', [f'{len(v)}: {k}' for k, v in needs.items() if len(v) >= 3])

print('Point 6')
lines('a length or a count as a field', r'^ *(pub(\(crate\))? )?(len|count|played|limit|lines): usize,')
lines('arrays as fields', r'^ *(pub(\(crate\))? )?\w+: \[.*;.*\],')

print('Point 7')
lines('a switch on a step', r'= match (step|turn) \{')

print('Point 8')
report('files of answers and invariants', [n for n in proofs if '/proofs/' in n and n.count('/') > 3])
print('lines in proofs/: %d' % sum(b.count('\n') for n, b in proofs.items() if '/proofs/' in n))
print('lines in specs/: %d' % sum(b.count('\n') for n, b in proofs.items() if '/specs/' in n))
print('lines in src/: %d' % sum(b.count('\n') for b in sources.values()))
