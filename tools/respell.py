#!/usr/bin/env python3
"""Brings the names of the definitions, fields and lemmas of specs/ and proofs/ to snake case.

  tools/respell.py            respells every crate, must-fail and more-edits, README and docs
  tools/respell.py --list     prints the names that change, old and new, and changes nothing

Words are in snake case, types and facts in camel case. A dash is kept where it joins two names of definitions, as in
`length-over`; else the parts are joined by `_`. A lemma that would have its function's name gets `_lem`. Names of src/, of
Rust's fields and variants, of goals and of places in generated modules keep their spelling.
"""
import collections
import os
import re
import sys

ROOT = os.path.join(os.path.dirname(os.path.abspath(__file__)), '..')
# words of std that a lemma's name has on either side of a dash
STD = set('''length append take drop set get_or replicate map cons nil zero suc add sub mul div mod pow min max and or not
true false cond eqb leb ltb paste sets sum reverse part over get prefix eq le lt ne some none fst snd'''.split())
# facts that were spelled as functions
FACTS = {'foundIn': 'FoundIn', 'airportIs': 'AirportIs'}
# what would fall together with another name, or be unclear, is named here by hand
BY_HAND = {
    'textCodes': 'codes_of_text', 'recordCodes': 'codes_of_record', 'noChange': 'no_change_text', 'goesOn': 'going_on',
    'inWindow': 'is_in_window',
}

NAME = re.compile(r"[^\s(){};,.\[\]⟦⟧]+")
DEFINITION = re.compile(
    r'^( *)((?:pub |abbrev |unfoldable )*)(data |record )?([^\s:(){},;=λ→]+)((?: \{[^}]*\})*) ?((?:\([^)]*\) ?)*): (.*)$', re.M)


def crates():
    with open(os.path.join(ROOT, 'crates.txt')) as f:
        return [line.split(':')[0].split()[0] for line in f if re.match(r'[a-z]', line)]


def files(crate, *endings):
    for folder, _, names in os.walk(os.path.join(ROOT, 'crates', crate)):
        if '/out' in folder:
            continue
        for name in sorted(names):
            if name.endswith(endings):
                yield os.path.join(folder, name)


def snake(name):
    return re.sub(r'(?<=[a-z0-9])([A-Z])', lambda m: '_' + m.group(1).lower(), name)


def is_camel(name):
    return re.match(r'[a-z]', name) and re.search(r'[a-z0-9][A-Z]', name)


def definitions():
    """The names that specs/ and the lemma files of proofs/ define: name -> is it a definition and no lemma; and the fields."""
    found = collections.defaultdict(set)
    fields = set()
    for crate in crates():
        for path in files(crate, '.antt'):
            if os.path.basename(path) in ('Lib.antt', 'Proof.antt'):
                continue
            with open(path) as f:
                text = f.read()
            for m in DEFINITION.finditer(text):
                indent, words, kind, name = m.group(1), m.group(2), m.group(3), m.group(4)
                if name in ('let', 'use', 'in', '--', 'infixr', 'infixl', 'infix', 'mod') or name.startswith('--'):
                    continue
                plain = 'abbrev' in words or 'unfoldable' in words or bool(kind)
                found[name].add('definition' if plain else 'lemma')
            for m in re.finditer(r'^(?:pub )?(?:record|data) .*where\n((?:  .*\n|\n(?=  ))*)', text, re.M):
                for name in re.findall(r'^  (?:pub )?([^\s:]+) :', m.group(1), re.M):
                    fields.add(name)
                    found[name].add('definition')
    return found, fields


def dashed(name, known):
    """A name with dashes: they stay between two known names."""
    parts = name.split('-')
    out = parts[0]
    start = 0
    for i in range(1, len(parts)):
        left = any('_'.join(parts[k:i]) in known for k in range(start, i))
        right = any('_'.join(parts[i:k]) in known for k in range(i + 1, len(parts) + 1))
        if left and right:
            out += '-' + parts[i]
            start = i
        else:
            out += '_' + parts[i]
    return out


def renamed():
    found, fields = definitions()
    new = {}
    for name in found:
        if name in FACTS:
            new[name] = FACTS[name]
        elif '◌' in name:
            if is_camel(name.strip('◌')):
                new[name] = '◌' + snake(name.strip('◌')) + '◌'
        elif is_camel(name) and '-' not in name:
            new[name] = snake(name)
    known = STD | {snake(n) for n in found if 'definition' in found[n] and '-' not in n} | {n for n in found if re.match(r'[A-Z]', n)}
    for name in found:
        if '-' in name:
            parts = '-'.join(snake(p) if is_camel(p) else p for p in name.split('-'))
            spelled = dashed(parts, known)
            if spelled != name:
                new[name] = spelled
    # a lemma that has the name of a definition now
    given = collections.Counter(new.values())
    kept = {n for n in found if n not in new}
    for name in list(found):
        to = new.get(name, name)
        if found[name] == {'lemma'} and (to in {new[o] for o in new if o != name and 'definition' in found[o]} or
                                         (name in new and to in kept)):
            new[name] = to + '_lem'
    new.update(BY_HAND)
    return new, found, fields


def outside(text):
    """What a file imports from modules that are no crate's: those names keep their spelling in it."""
    own = '|'.join(crates())
    names = set()
    for m in re.finditer(r'^(?:ghost )?(?:pub )?use ([^\s{}]+)\.\{([^}]*)\}', text, re.M):
        if not re.match(r'Rattle\.(%s)\.' % own, m.group(1)):
            names |= {w.strip().split(' as ')[0] for w in m.group(2).split(',')}
    return names


def respell(text, new, fields):
    away = outside(text)
    aliases = set(re.findall(r'^use Rattle\.(?:%s)\.(?:specs|proofs)\.\S+ as (\S+)' % '|'.join(crates()), text, re.M)) - {'tie', 'goal'}

    def one(m):
        name = m.group(0)
        if name not in new or name in away:
            return name
        before = text[max(0, m.start() - 200):m.start()]
        if before.endswith('.'):
            base = re.search(r"([^\s(){};,\[\]]+)\.$", before)
            base = base.group(1) if base else ''
            if base.split('.')[0] in ('tie', 'goal'):
                return name
            if base.startswith('Rattle.') and text[m.end():m.end() + 1] == '.':
                return name
            if not is_camel(name):
                own = base.startswith('Rattle.') or base in aliases
                if not own and not (name in fields and '-' in name):
                    return name
        return new[name]

    return NAME.sub(one, text)


def respell_rust(text, new, fields):
    """Rattle's sources: names in clauses, ghost items and comments; not in strings."""
    out = []
    for line in text.split('\n'):
        code = re.sub(r'b?"(?:[^"\\]|\\.)*"', lambda m: '\0' * len(m.group(0)), line)
        spelled = respell(code, new, fields)
        strings = re.findall(r'b?"(?:[^"\\]|\\.)*"', line)
        spelled = re.sub('\0+', lambda m: strings.pop(0), spelled) if strings else spelled
        out.append(spelled)
    return '\n'.join(out)


def mixfix(text, new):
    """Uses of operators: port.py has turned those of `andThen` already."""
    for name in new:
        if '◌' in name:
            text = re.sub(r'(?<=\s)%s(?=\s)' % re.escape(name.strip('◌')), new[name].strip('◌'), text)
    return text


def main():
    new, found, fields = renamed()
    if '--list' in sys.argv:
        for name in sorted(new):
            print(name, new[name])
        return
    # outside specs/ and proofs/ a name in snake case may be a function's
    sure = {n: s for n, s in new.items() if '-' in n or is_camel(n.strip('◌'))}
    for crate in crates():
        for path in files(crate, '.antt', '.rt', '.edit'):
            with open(path) as f:
                text = f.read()
            if path.endswith('.rt'):
                spelled = respell_rust(text, sure, fields)
            else:
                spelled = respell(text, new if path.endswith('.antt') else sure, fields)
            spelled = mixfix(spelled, new)
            if spelled != text:
                with open(path, 'w') as f:
                    f.write(spelled)
    pages = [os.path.join(ROOT, 'README.md'), os.path.join(ROOT, 'CONTRIBUTING.md')]
    for folder, _, names in os.walk(os.path.join(ROOT, 'docs')):
        pages += [os.path.join(folder, n) for n in names if n.endswith('.md')]
    for path in pages:
        with open(path) as f:
            text = f.read()
        spelled = re.sub(r'`[^`\n]+`', lambda m: re.sub(r"[A-Za-z][A-Za-z0-9_'-]*", lambda w: sure.get(w.group(0), w.group(0)), m.group(0)), text)
        if spelled != text:
            with open(path, 'w') as f:
                f.write(spelled)


if __name__ == '__main__':
    main()
