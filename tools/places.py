#!/usr/bin/env python3
"""Lists places in crates/*/src that may be written in an older form: places.py [POINT..]. docs/DESIGN-PASS.md names the points.

A hit is a place to look at, and no verdict. With no POINT it prints the number of hits of each."""
import glob
import re
import sys

LINES = {
    '1a': r'\benum [A-Z]',
    '1b': r"\bop: u8\b|const [A-Z]+: u8 = [0-9]|\[&'static str; [0-9]+\]|^ +[0-9]+(\.\.=[0-9]+)?( if [^=]*)? =>|\(u8, usize\)",
    '1c': r'^ +(pub )?[a-z_]+: (bool|usize|u8|u16|u32),$',
    '3': r'\bwhile\b|\bloop \{|\bfor .* in .*\.\.|\.enumerate\(\)|\+= 1;',
    '4a': r'\bas (u8|u16|u32|u64|usize|i32|i64|char)\b',
    '4b': r'\bfn (equal|is|is_text|is_letter|is_digit|are_[a-z]+|instruction|mnemonic|told|told_by|refused)\b'
    r'|struct [A-Z][A-Za-z]+\(pub [A-Z][A-Za-z]+\);',
    '4c': r'Err\(Refusal \{|refused\(Reason|Refused\(Refusal \{',
    '5a': r'^ +requires',
    '6': r'^ +(pub )?(count|seen|written|at|left|right|index|inner|rest|block|body): usize,'
    r'|: \[[A-Z][A-Za-z]+; [A-Z_]+\]|: &.*mut \[',
    '7': r'\bfn\(|\bdyn |Fn(Mut|Once)?\(|match .*\bop\b',
}
KEYWORDS = set('as break const continue else false fn for if in let loop match mut ref return self Self true while '
               'Some None Ok Err'.split())
TOKEN = re.compile(r'//[^\n]*|b?"[^"]*"|b?\'(?:\\.|[^\'\\])\'|\'[a-z_]+|\w+|\S')
FUNCTION = re.compile(r'^( *)(?:pub(?:\(crate\))? )?fn (\w+)(?:<[^(]*>)?\(([^)]*)\)'
                      r'(?:[^\n{;]* \{\n|[^\n{;]*\n(?:\1[ a-z][^\n]*\n|\n)*?\1\{\n)(.*?)^\1\}', re.M | re.S)


def sources():
    for path in sorted(glob.glob('crates/*/src/**/*.rt', recursive=True)):
        yield path, open(path, encoding='utf-8').read()


def lines(pattern):
    for path, text in sources():
        for number, line in enumerate(text.splitlines(), 1):
            if re.search(pattern, line):
                yield f'{path}:{number}: {line.strip()}'


def functions():
    for path, text in sources():
        for _, name, params, body in FUNCTION.findall(text):
            yield f'{path}: {name}', [p for p in params.split(',') if p.strip()], body


def shape(body):
    """The code with each name, number and text made the same."""
    words = [w for w in TOKEN.findall(body) if not w.startswith('//')]
    return ' '.join(w if w in KEYWORDS or not (w[0].isalnum() or w[0] in '_"\'') else 'x' for w in words)


def twins():
    alike = {}
    for name, _, body in functions():
        if len(shape(body).split()) >= 12:
            alike.setdefault(shape(body), []).append(name)
    return ['; '.join(names) for names in alike.values() if len(names) > 1]


def many_parameters():
    return [f'{name}: {len(params)} parameters' for name, params, _ in functions() if len(params) >= 4]


def hits(point):
    if point == '2':
        return twins()
    if point == '5b':
        return many_parameters()
    return list(lines(LINES[point]))


points = sys.argv[1:]
for point in points or sorted([*LINES, '2', '5b']):
    found = hits(point)
    if points:
        print('\n'.join(found))
    print(point, len(found))
