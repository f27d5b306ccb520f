#!/usr/bin/env python3
"""Lists the places in crates/*/src where a form of the language could be another, by eight points.

    tools/forms.py [FOLDER]         the number of places for each kind of place, in FOLDER or here
    tools/forms.py -v [FOLDER]      and each of them
    tools/forms.py tokens [FOLDER]  the same points counted in a second way, from the tokens of each function

What it prints are places to look at: docs/DESIGN-PASS.md says of each what became of it.
"""
import difflib
import glob
import itertools
import os
import re
import sys


def sources(root):
    for path in sorted(glob.glob(os.path.join(root, 'crates/*/src/**/*.rt'), recursive=True)):
        yield os.path.relpath(path, root), open(path, encoding='utf-8').read()


def functions(text):
    """(line, name, signature with its clauses, body) of each function that has a body."""
    for found in re.finditer(r'^([ \t]*)(?:pub(?:\(crate\))? )?fn (\w+)', text, re.M):
        indent = found.group(1)
        one = re.compile(r'^' + indent + r'\{\}\s*$|^' + indent + r'\{\s*$', re.M).search(text, found.end())
        same = re.compile(r'\{\s*$|;\s*$', re.M).search(text, found.end())
        if one is None and same is None:
            continue
        line_end = text.index('\n', found.end())
        first = text[found.start():line_end]
        if first.rstrip().endswith('{'):
            start = line_end
        elif one is not None and (';' not in text[found.end():one.start()].split('\n\n')[0] or True):
            stop = re.compile(r';\s*$', re.M).search(text, found.end())
            if stop is not None and stop.start() < one.start():
                continue
            start = one.end()
        else:
            continue
        close = re.compile(r'^' + indent + r'\}', re.M).search(text, start)
        end = close.start() if close else len(text)
        if one is not None and text[one.start():one.end()].rstrip().endswith('{}') and start == one.end():
            end = start
        line = text.count('\n', 0, found.start()) + 1
        yield line, found.group(2), text[found.start():start], text[start:end]


def places(root):
    kinds = {}

    def add(kind, path, line, what):
        kinds.setdefault(kind, []).append(f'{path}:{line}: {what.strip()}')

    by_line = [
        ('1 enums of its own', r'^\s*(pub(\(crate\))? )?enum \w+'),
        ('1 flags in a struct', r'^\s+(pub(\(crate\))? )?\w+: bool,'),
        ('1 numbers for kinds, in arms', r'^\s+[0-9]+ => |=> \(?[0-9]+,?$|=> \([0-9]+, '),
        ('3 loops over a range, or with a test of their own', r'^\s*(.\w+: )?(for \w+ in [^{]*\.\.|while |loop \{)'),
        ('4 impls of equality, order, copying, conversion, printing', r'^impl.* (PartialEq|Eq|PartialOrd|Ord|Clone|Default|(Try)?From<.*>|Display|Debug|fmt::Display) for '),
        ('6 arrays of a fixed size', r'\[[\w:]+; [0-9A-Z_]+\]'),
    ]
    clauses, parameters, bodies = {}, {}, []
    for path, text in sources(root):
        for number, line in enumerate(text.split('\n'), 1):
            if line.lstrip().startswith('//'):
                continue
            for kind, pattern in by_line:
                if re.search(pattern, line):
                    add(kind, path, number, line)
        for number, name, head, body in functions(text):
            code = re.sub(r'//.*', '', body)
            if re.search(r'-> (Result<String, AllocError>|&\'static str)', head):
                add('4 functions that print a part into a text', path, number, name)
            arms = re.findall(r'=> ([^,{]*)', code)
            if len(arms) >= 2 and re.match(r'\s*match \S+ \{', code) and all(re.match(r'[\w:.&*()\[\]\s]*\($|[\w.:]+\(', arm.strip()) for arm in arms):
                add('7 functions that choose which function to call', path, number, name)
            if re.search(r'match \w+[^{]*\{\s*(Some\(|Ok\(|None|Err\()', code) and re.search(r'(None => (None|return None|return Err)|Err\((\w+)\) => (return )?Err)', code):
                add('1 matches that pass on None or Err', path, number, name)
            if re.search(r'^\s*match self \{|^\s*match \w+ \{', code) and re.search(r'=> (true|false|Some\((true|false)\)|"[^"]*"|b\'.\'|[0-9]+),', code):
                add('4 functions that turn an enum into another value', path, number, name)
            bodies.append((f'{path}:{number}: {name}', re.findall(r'\w+|[^\w\s]', code)))
            for clause in re.findall(r'^\s+(?:requires|ensures)(?: \w+)? \{(.*)\}\s*$', head, re.M):
                key = re.sub(r'\.(now|old|new)\b', '', clause).strip()
                key = re.sub(r'\b(self|elimination|standing)\b', '_', key)
                clauses.setdefault(key, []).append(f'{path}:{number}: {name}')
            inside = re.sub(r'\n', ' ', head).split('(', 1)[1].rsplit(')', 1)[0] if '(' in head else ''
            inside = inside.split(') ->')[0]
            names = sorted(set(re.findall(r'(\w+: &?(?:mut )?[\w\[\]:; ]+)', inside)))
            for pair in itertools.combinations(names, 2):
                parameters.setdefault(pair, []).append(f'{path}:{number}: {name}')
    for key, where in clauses.items():
        if len(where) >= 3:
            kinds.setdefault('5 clauses that stand in three functions or more', []).append(f'{key}: {len(where)}: ' + '; '.join(where))
    for pair, where in parameters.items():
        if len(where) >= 3:
            kinds.setdefault('5 pairs of parameters in three functions or more', []).append(' + '.join(pair) + f': {len(where)}')
    shapes = []
    for where, tokens in bodies:
        names = {}
        shapes.append((where, [names.setdefault(t, f'n{len(names)}') if re.match(r'[A-Za-z_]', t) and t not in KEYWORDS else t for t in tokens]))
    for (a, s), (b, t) in itertools.combinations(shapes, 2):
        if min(len(s), len(t)) >= 24 and min(len(s), len(t)) >= 0.75 * max(len(s), len(t)):
            match = difflib.SequenceMatcher(None, s, t, autojunk=False)
            if match.real_quick_ratio() >= 0.85 and match.quick_ratio() >= 0.85 and match.ratio() >= 0.85:
                kinds.setdefault('2 pairs of functions of one shape', []).append(f'{a} ~ {b}')
    answers = glob.glob(os.path.join(root, 'crates/*/proofs/**/*.antt'), recursive=True)
    count = {'Answers': [0, 0], 'Invariants': [0, 0], 'Proof': [0, 0], 'lemmas': [0, 0]}
    for path in answers:
        name = os.path.basename(path)[:-5]
        kind = name if name in count else 'lemmas'
        count[kind][0] += 1
        count[kind][1] += open(path, encoding='utf-8').read().count('\n')
    for kind, (files, lines) in count.items():
        kinds['8 proof files: ' + kind] = [None] * files
        kinds['8 lines in ' + kind] = [None] * lines
    return kinds


KEYWORDS = set('fn let mut if else match for in while loop return break Some None Ok Err true false self Self as'.split())


def tokens(root):
    """The second way: by what stands inside each function."""
    rows = []
    for path, text in sources(root):
        for number, name, head, body in functions(text):
            code = re.sub(r'//.*', '', body)
            counted = re.findall(r'for (\w+) in ', code)
            by_index = [v for v in counted if re.search(r'\[[^\]]*\b' + v + r'\b[^\]]*\]', code)]
            stepped = re.findall(r'\b(\w+) [+-]= ', code) if re.search(r'\b(while|loop)\b', code) else []
            literals = re.findall(r'\b(?:Fault|Flaw|Misfit) \{', code)
            if by_index:
                rows.append(('3', path, number, name, 'indexed by ' + ', '.join(by_index)))
            if stepped:
                rows.append(('3', path, number, name, 'steps ' + ', '.join(sorted(set(stepped)))))
            if len(literals) > 0:
                rows.append(('2', path, number, name, f'{len(literals)} refusals spelled out'))
            nested = re.findall(r'Option<bool>|Result<Option|Option<Result', head)
            if nested:
                rows.append(('1', path, number, name, ', '.join(nested)))
            if re.search(r'-> bool', head) and re.search(r'return true;[\s\S]*return false|return false;[\s\S]*return true', code):
                rows.append(('1', path, number, name, 'a bool for two ends'))
            if re.search(r'_len|width|count', head) and re.search(r'&?\[\w+(; \w+)?\]', head):
                rows.append(('6', path, number, name, 'a buffer and a number'))
    return rows


def main():
    args = sys.argv[1:]
    verbose = '-v' in args
    second = 'tokens' in args
    root = ([a for a in args if a not in ('-v', 'tokens')] or [os.path.dirname(os.path.dirname(os.path.abspath(__file__)))])[0]
    if second:
        for row in tokens(root):
            print('{}  {}:{}: {}: {}'.format(*row))
        return
    for kind, where in sorted(places(root).items()):
        print(f'{kind}: {len(where)}')
        if verbose:
            for place in where:
                if place is not None:
                    print('    ' + place)


if __name__ == '__main__':
    main()
