#!/usr/bin/env python3
"""Counts, in the code of all crates, the places that docs/DESIGN-PASS.md speaks of, a line for each count.

    python3 tools/forms.py          at the top of the repository
    python3 tools/forms.py -v       and where each place is
"""
import glob
import re
import sys

FN = re.compile(r'(?m)^( *)(?:pub )?fn (\w+)')


def functions():
    """(crate, name, signature, body) of every function."""
    for path in sorted(glob.glob('crates/*/src/**/*.rt', recursive=True)):
        text = open(path, encoding='utf-8').read()
        crate = path.split('/')[1]
        for m in FN.finditer(text):
            rest = text[m.start():]
            end = re.search(r'(?m)^' + m.group(1) + r'\}', rest)
            whole = rest[:end.end()] if end else rest
            start = re.search(r'(?m)^' + m.group(1) + r'\{|\{\s*$', whole)
            cut = start.start() if start else len(whole)
            yield crate, m.group(2), whole[:cut], whole[cut:]


def texts():
    for path in sorted(glob.glob('crates/*/src/**/*.rt', recursive=True)):
        yield path, open(path, encoding='utf-8').read()


def types(word):
    """(crate, name, inner lines) of every enum or struct."""
    for path, text in texts():
        for m in re.finditer(r'(?ms)^(?:pub )?' + word + r' (\w+)[^{;]*\{\n(.*?)^\}', text):
            lines = [x.strip() for x in m.group(2).split('\n') if x.strip() and not x.strip().startswith('//')]
            yield path.split('/')[1], m.group(1), lines


def inner(body, m):
    """What stands in the block that a match opens."""
    return body[m.end():re.compile(r'(?m)^' + m.group(1) + r'\}').search(body, m.end()).start()]


def tokens(body):
    body = re.sub(r'//[^\n]*', '', body)
    return re.findall(r'\w+|[^\w\s]', body)


def twins(fns):
    """Functions of at least 25 tokens that differ in names and numbers alone."""
    groups = {}
    for crate, name, head, body in fns:
        ts = tokens(body)
        if len(ts) < 25:
            continue
        shape = ' '.join('n' if re.match(r'\w', t) and t not in KEYWORDS else t for t in ts)
        groups.setdefault(shape, []).append(f'{crate}::{name}')
    return [g for g in groups.values() if len(g) > 1]


KEYWORDS = set('let mut if else match return while for in loop fn as'.split()
               + 'true false Some None Ok Err break continue'.split())
HANDED_ON = r'(\w+)::Refused \{ number, left \} => (return )?\w+::Refused|\w+::Stuck => (return )?\w+::Stuck'


def main():
    fns = list(functions())
    out = []

    def count(what, places):
        out.append((what, list(places)))

    enums = list(types('enum'))
    count('1 own enums', (f'{c}::{n}' for c, n, l in enums))
    count('1 enums of two variants, one with a value', (f'{c}::{n}' for c, n, l in enums
          if len(l) == 2 and sum('(' in x or '{' in x for x in l) == 1))
    count('1 structs of a flag and a value', (f'{c}::{n}' for c, n, l in types('struct')
          if len(l) == 2 and any(x.endswith(': bool,') for x in l)))
    count('1 functions that give a number for a refusal', (f'{c}::{n}' for c, n, h, b in fns
          if re.search(r'-> u8\s', h)))
    count('1 functions that read or write and give a bool', (f'{c}::{n}' for c, n, h, b in fns
          if re.search(r'-> bool\s', h + ' ') and re.search(r'(from|to): &mut', h)))
    count('1 arms that hand a refusal on', (f'{p}' for p, t in texts()
          for _ in re.finditer(HANDED_ON, t)))
    count('2 groups of functions that differ in names and numbers', (' '.join(g) for g in twins(fns)))
    count('3 while loops', (f'{c}::{n}' for c, n, h, b in fns for _ in re.finditer(r'(?m)^ *while ', b)))
    count('3 while loops that step a number by one', (f'{c}::{n}' for c, n, h, b in fns
          for m in re.finditer(r'(?m)^( *)while [^\n]*\{\n', b)
          if re.search(r'\b\w+ [+-]= 1;', inner(b, m))))
    count('3 loop and for', (f'{c}::{n}' for c, n, h, b in fns for _ in re.finditer(r'(?m)^ *(loop \{|for )', b)))
    count('4 functions that are one operator or one cast', (f'{c}::{n}' for c, n, h, b in fns
          if re.fullmatch(r'\{\s*\w+ (==|!=|<|<=|as|>|>=) \w+\s*\}', b)))
    count('4 ranges of records and places of operands written out', (p for p, t in texts()
          for _ in re.finditer(r'(?<!struct )\b(?:Range|Operands) \{', t)))
    count('5 parameters of an opened sheet and its directory', (f'{c}::{n}' for c, n, h, b in fns
          if 'directory: &Directory' in h))
    count('5 clauses that the directory is the sheet\'s', (f'{c}::{n}' for c, n, h, b in fns
          if re.search(r'requires.*directory_of', h)))
    count('5 parameters of a sheet and its table of cells', (f'{c}::{n}' for c, n, h, b in fns
          if 'sheet: &' in h and 'cells: &CellLayout' in h))
    count('5 clauses that the sheet is passed', (f'{c}::{n}' for c, n, h, b in fns
          if re.search(r'requires.*\bPassed\b', h)))
    count('5 parameters of a sheet and a running body', (f'{c}::{n}' for c, n, h, b in fns
          if 'sheet: &' in h and 'context: &Frame' in h))
    count('6 functions with several arrays by the same index', (f'{c}::{n}' for c, n, h, b in fns
          if len(re.findall(r'&(?:mut )?ByRecord', h)) > 1))
    count('6 functions with a buffer and a place in it', (f'{c}::{n}' for c, n, h, b in fns
          if re.search(r'out: &mut \[u8\],\s*at: usize', h)))
    count('6 numbers in an array by a named place', (f'{p}' for p, t in texts() for _ in
          re.finditer(r'\[(?:ELEMENT|BINDING|CHART|FIRST_BODY|BODY|CELLS|FIRST_RECORD)\b', t)))
    count('7 functions that take a closure', (f'{c}::{n}' for c, n, h, b in fns if re.search(r'F: Fn', h)))
    answers = [a for p in glob.glob('crates/*/proofs/**/Answers.antt', recursive=True)
               for a in re.findall(r'(?m)^pub [^\n]* : goal\.', open(p, encoding='utf-8').read())]
    count('8 answers', answers)
    lines = sum(open(p, encoding='utf-8').read().count('\n')
                for p in glob.glob('crates/*/proofs/*/**/*.antt', recursive=True))
    for what, places in out:
        print(f'{len(places):5}  {what}')
        if '-v' in sys.argv and not what.startswith('8'):
            for place in places:
                print(f'         {place}')
    print(f'{lines:5}  8 lines of answers and invariants')


main()
