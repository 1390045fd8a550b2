#!/usr/bin/env python3
"""respell [ROOT]: turns this repository's own names to the spelling of the present Rattle, after port.py.

Words are in snake case, types and facts in camel case. A dash joins two functions' names in the name of a law,
as in `word-fill_other`; other parts are joined by an underscore. Names of src/, exported names and strings stay.
The names are those that crates/*/specs and crates/*/proofs declare; a second run changes nothing.
"""
import glob, os, re, sys

ROOT = sys.argv[1] if len(sys.argv) > 1 else '.'
TOKEN = re.compile(r"[^\s(){};,.\"@⌜⌝|`]+")
# what a law's name may join by dashes
JOINED = set('word part tab fill view upd set length take drop map append get put min max neg le round times plus minus sign padded sums bytes rows dot words'.split())
# the numbers of the area's vectors, which were in upper camel case like types
VECTORS = {'X': 'vector_x', 'G': 'vector_g', 'Lower': 'vector_lower', 'Upper': 'vector_upper', 'X0': 'vector_x0', 'Trial': 'vector_trial',
           'TrialGradient': 'vector_trial_gradient', 'Direction': 'vector_direction', 'Velocity': 'vector_velocity',
           'Displacement': 'vector_displacement', 'Active': 'vector_active', 'Cauchy': 'vector_cauchy', 'Target': 'vector_target',
           'ProductD': 'vector_product_d', 'ProductZ': 'vector_product_z', 'Step': 'vector_step'}
BY_HAND = {'getD-tab': 'get_or-tab'}


def snake(word):
    word = re.sub(r"([a-z0-9])([A-Z])", r"\1_\2", word)
    return re.sub(r"([A-Z]+)", lambda m: m.group(1).lower(), word)


def is_camel(token):
    return re.match(r"^[a-z][A-Za-z0-9_'₀-₉-]*$", token) and re.search(r"[a-z0-9][A-Z]", token)


def law(name):
    """The spelling of a name with dashes."""
    parts = [snake(p) if is_camel(p) else p for p in name.split('-')]
    out = parts[0]
    joins = parts[0].split('_')[0] in JOINED
    for p in parts[1:]:
        out += ('-' if joins and p.split('_')[0] in JOINED else '_') + p
    return out


def spelled(name):
    return law(name) if '-' in name else snake(name) if is_camel(name) else name


def declared(files):
    """The names that change by more than their capitals: those with dashes, and those of laws that would have a function's name."""
    seen = declarations(files)
    places = {}
    for name in seen:
        places.setdefault(spelled(name), set()).add(name)
    names = {}
    for name, where in seen.items():
        new = spelled(name)
        others = places[new] - {name}
        if others and not is_camel(name) and not any('/specs/' in f for f in where):
            new += '_lem'
        if new != name and not is_camel(name):
            names[name] = new
    return names


def declarations(files):
    """Each declared name with its files, but for the names of goals and of functions' proofs."""
    names = {}
    for f in files:
        for line in open(f, encoding='utf8'):
            if line.strip().startswith(('--', 'use ', 'infix', 'let ')):
                continue
            m = re.match(r"^\s*(?:(?:pub|abbrev|unfoldable|private) )*([^:={}()λ,;]+?) :(?: (.*)|)$", line)
            if m and not (m.group(2) or '').startswith(('tie.', 'statement', '{M : Type 1} → statement', 'goal.')):
                for name in m.group(1).split():
                    if re.match(r"^[A-Za-z][A-Za-z0-9_'₀-₉-]*$", name):
                        names.setdefault(name, set()).add(f)
    return names


def area_names(text, path):
    """The vectors' names that this file takes from crate area."""
    if path.endswith('crates/area/specs/Area.antt'):
        return dict(VECTORS)
    found = {}
    for m in re.finditer(r"use Rattle\.area\.specs\.Area\.\{([^}]*)\}", text):
        for name in m.group(1).split(','):
            name = name.strip()
            if name in VECTORS:
                found[name] = VECTORS[name]
    return found


def turned(text, dashed, vectors):
    out = []
    last = 0
    for m in TOKEN.finditer(text):
        t = m.group(0)
        before = text[m.start() - 1] if m.start() else ' '
        new = t
        path = re.search(r"([A-Za-z0-9_'-]+)\.$", text[max(0, m.start() - 60):m.start()]) if before == '.' else None
        module = path and re.match(r"^[A-Z]", path.group(1))
        mixed = re.match(r"^◌(.*)◌$", t)
        if mixed and is_camel(mixed.group(1)):
            new = '◌' + snake(mixed.group(1)) + '◌'
        elif t in BY_HAND:
            new = BY_HAND[t]
        elif t in dashed and (before != '.' or module):
            new = dashed[t]
        elif is_camel(t):
            new = law(t) if '-' in t else snake(t)
        elif t in vectors and before != '.':
            new = vectors[t]
        if new != t:
            out.append(text[last:m.start()] + new)
            last = m.end()
    return ''.join(out) + text[last:]


def in_source(text, dashed, vectors):
    """A .rt file: comments, strings and code keep their words; `ghost use` lines and clauses are turned."""
    out = []
    depth = 0
    for line in text.split('\n'):
        if depth == 0 and line.lstrip().startswith('//'):
            out.append(line)
            continue
        if depth > 0 or re.match(r"^\s*(ghost use|ghost|requires|ensures)\b", line):
            line_code = line
            depth += line.count('{') - line.count('}')
            line = turned(line_code, dashed, vectors)
            if re.match(r"^\s*ghost use", line_code) and ';' in line_code:
                depth = 0
        out.append(line)
    return '\n'.join(out)


def main():
    os.chdir(ROOT)
    antt = sorted(glob.glob('crates/*/specs/*.antt') + glob.glob('crates/*/proofs/**/*.antt', recursive=True))
    dashed = declared(antt)
    fields = field_names(antt, dashed)
    for f in antt + sorted(glob.glob('crates/*/src/**/*.rt', recursive=True)):
        text = open(f, encoding='utf8').read()
        vectors = area_names(text, f)
        names = dict(dashed)
        new = in_source(text, names, vectors) if f.endswith('.rt') else turned_fields(turned(text, names, vectors), fields)
        if new != text:
            open(f, 'w', encoding='utf8').write(new)
    for f in ['README.md'] + sorted(glob.glob('docs/*.md')):
        if f.endswith('PORT.md'):
            continue
        text = open(f, encoding='utf8').read()
        new = re.sub(r"`[^`\n]+`", lambda m: turned_doc(m.group(0), dashed), text)
        if new != text:
            open(f, 'w', encoding='utf8').write(new)


def field_names(files, names_of_laws):
    """Fields with dashes of the records that the files declare."""
    names = {}
    for f in files:
        kind = False
        for line in open(f, encoding='utf8'):
            if re.match(r"^\s*(?:(?:pub|abbrev) )*record\s", line):
                kind = True
                continue
            if line.strip() and not line.startswith(' '):
                kind = False
            m = re.match(r"^\s+(?:pub )?([a-z][A-Za-z0-9_'-]*-[A-Za-z0-9_'-]*) : ", line)
            if kind and m:
                names[m.group(1)] = names_of_laws.get(m.group(1), law(m.group(1)))
    return names


def turned_fields(text, fields):
    return re.sub(r"\.([a-z][A-Za-z0-9_']*(?:-[A-Za-z0-9_']+)+)", lambda m: '.' + fields.get(m.group(1), m.group(1)), text)


def turned_doc(text, dashed):
    return turned_fields(turned(text, dashed, {}), {}) if '/' not in text or '.' not in text.split('/')[0] else text


if __name__ == '__main__':
    main()
