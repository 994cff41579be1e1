#!/usr/bin/env python3
"""Counts the places of older forms in crates/*/src, point by point, as docs/DESIGN-PASS.md lists them.

    python3 tools/forms.py [--list] [FOLDER]

FOLDER is a checkout of the repository (this one, if none is given); --list names each place.
"""
import pathlib
import re
import sys

FUNCTION = re.compile(r'^(?: {4})?(?:pub )?(?:extern "C" )?fn (\w+)', re.M)


class Function:
    """A function of a source file: its name, its head up to the body, and its body."""

    def __init__(self, place, name, text):
        self.place, self.name, self.text = place, name, text
        head, _, self.body = text.partition('\n{\n')
        if not self.body:
            head, _, self.body = text.partition(' {\n')
        self.head = head


def sources(top):
    for path in sorted(top.glob('crates/*/src/**/*.rt')):
        text = re.sub(r'^\s*//.*\n', '', path.read_text(), flags=re.M)
        yield path.relative_to(top / 'crates'), text


def functions(top):
    for path, text in sources(top):
        starts = [m.start() for m in FUNCTION.finditer(text)]
        for start, end in zip(starts, starts[1:] + [len(text)]):
            piece = text[start:end]
            yield Function(str(path), FUNCTION.match(piece).group(1), piece)


def types(top, word):
    for path, text in sources(top):
        for m in re.finditer(word + r' (\w+)(?:<[^>]*>)? \{\n(.*?)\n\}', text, re.S):
            yield str(path), m.group(1), m.group(2)


def own_options(top):
    """1a. Enums with one variant that holds something, or two, and one that holds nothing or a refusal."""
    refusal = r'Bad|Defective|Refused|RefusedAt|Full|Malformed|Unsupported'
    for place, name, body in types(top, 'enum'):
        flat = re.sub(r'\{[^{}]*\}', '()', body)
        variants = re.findall(r'^ {4}(\w+)(\()?', flat, re.M)
        holding = [v for v, held in variants if held]
        empty = [v for v, held in variants if not held]
        if len(holding) == 1 and empty and len(variants) <= 3 or any(re.fullmatch(refusal, v) for v, _ in variants) or 'None' in empty:
            yield f'{place} {name}'


def flags(top):
    """1b. Structs with a flag that says whether the rest holds."""
    for place, name, body in types(top, 'struct'):
        if re.search(r'\b(?:ok|found): bool', body):
            yield f'{place} {name}'


def numbers(top):
    """1c. Numbers given for reasons, defects and kinds: fields and parameters, and literals."""
    for f in functions(top):
        for m in re.finditer(r'(?:reply|refused|bad_image|counted|Bad|Refused|Defective|bad_change)\((\d+)|\breason: (\d+)|\b(?:reason|defect): u32', f.text):
            yield f'{f.place} {f.name}: {m.group(0)}'
    for place, name, body in types(top, 'struct'):
        for m in re.finditer(r'\b(?:reason|defect): u32', body):
            yield f'{place} {name}: {m.group(0)}'


def shape(f):
    """The words of a function without its own name, literals, and names of types, variants and constants."""
    text = re.sub(r"b?'(?:\\.|[^'])'|b?\"[^\"]*\"|\b\d\w*", '#', f.text)
    text = re.sub(r'\s(?:requires|ensures)(?: \w+)? \{.*\}\n', '\n', text)
    words = re.findall(r'\w+|\S', text)
    return ' '.join('T' if re.match(r'[A-Z]', w) else w for w in words if w != f.name)


def twins(top):
    """2. Functions of at least 40 words that differ in a literal, a size, a type or a constant."""
    seen = {}
    for f in functions(top):
        s = shape(f)
        if len(s.split()) >= 40 and not f.place.startswith('rdap_c'):
            seen.setdefault(s, []).append(f'{f.place} {f.name}')
    for group in seen.values():
        if len(group) > 1:
            yield '; '.join(group)


def loops(top):
    """3. Loops that count by hand: every `while` and `loop`."""
    for f in functions(top):
        for m in re.finditer(r'\b(?:while .*|loop) \{', f.body):
            yield f'{f.place} {f.name}: {m.group(0)}'
        for m in re.finditer(r'for (\w+) in 0\.\.\w+\.len\(\)', f.body):
            yield f'{f.place} {f.name}: {m.group(0)}'


def by_hand(top):
    """4. Conversions, orders, copies and minima written by hand: functions that only cast, match to numbers, or choose the lesser."""
    for f in functions(top):
        body = f.body.strip().rstrip('}').strip()
        cast = re.fullmatch(r'\w+ as \w+', body)
        least = re.fullmatch(r'if .* \{\s*\w+\s*\} else \{\s*\w+\s*\}', body)
        arms = re.findall(r'=> (\w+)', body) if body.startswith('match') else []
        if cast or least or (arms and all(re.fullmatch(r'\d+|true|false', a) for a in arms)) or f.name in ('compare', 'copied', 'padded', 'equal', 'folded'):
            yield f'{f.place} {f.name}'


def clauses(top):
    """5a. Facts that stand in the `requires` of three functions or more."""
    seen = {}
    for f in functions(top):
        for m in re.finditer(r'requires(?: \w+)? \{(.*?)\}\n', f.text, re.S):
            for fact in m.group(1).split('×'):
                seen.setdefault(' '.join(fact.split()).strip('() '), []).append(f'{f.place} {f.name}')
    for fact, where in sorted(seen.items()):
        if len(where) >= 3:
            yield f'{fact}: {len(where)}'


def groups(top):
    """5b. Three parameters or more that stand side by side in three functions or more."""
    seen = {}
    for f in functions(top):
        m = re.search(r'\((.*?)\)\s*(?:->|$|\n)', f.head, re.S)
        params = [p.strip() for p in re.sub(r"'a ", '', m.group(1)).split(',') if ':' in p] if m else []
        for n in range(3, len(params) + 1):
            for i in range(len(params) - n + 1):
                seen.setdefault(', '.join(params[i:i + n]), []).append(f.name)
    often = {k: v for k, v in seen.items() if len(v) >= 3}
    for k, v in sorted(often.items()):
        if not any(k in o and k != o and len(often[o]) == len(v) for o in often):
            yield f'{k}: {len(v)}'


def buffers(top):
    """6. Structs of a buffer and its length; tables of numbers that say where texts start."""
    for place, name, body in types(top, 'struct'):
        if re.search(r': \[\w+; \w+\]', body) and re.search(r'\blen: usize', body):
            yield f'{place} {name}'
    for path, text in sources(top):
        for m in re.finditer(r'const (?:STARTS|TEXTS)\b|b"\\x\d\d', text):
            yield f'{path} {m.group(0)}'


def switches(top):
    """7. Flags given to a function that choose which step it takes."""
    for f in functions(top):
        for m in re.finditer(r'\b(\w+): bool\b', f.head):
            yield f'{f.place} {f.name}: {m.group(1)}'


POINTS = [own_options, flags, numbers, twins, loops, by_hand, clauses, groups, buffers, switches]


def main():
    words = [w for w in sys.argv[1:] if w != '--list']
    top = pathlib.Path(words[0] if words else pathlib.Path(__file__).resolve().parent.parent)
    for point in POINTS:
        places = list(point(top))
        print(f'{len(places):4}  {" ".join(point.__doc__.split())}')
        if '--list' in sys.argv:
            for place in places:
                print(f'        {place}')


main()
