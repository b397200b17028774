#!/usr/bin/env python3
"""Brings the repository's own definitions, lemmas, record fields and constructors to one spelling: words in
snake case, types and modules in upper camel case. Run once, at the top, right after the toolchain's own port
script. `--look` writes nothing and lists names that would fall together.

Generated names (of goals, of steps, of variants) are left alone: they are not the repository's to choose."""
import os, re, sys

NAME = re.compile(r"[A-Za-z_α-ωΑ-Ω][\w'′-]*")
DECLARES = re.compile(r"^(?:pub )?(?:unfoldable )?(?:abbrev )?(?:pub )?([A-Za-z_][^\s:(){}]*) :(?: (.*))?$")
TYPES = re.compile(r"^(?:pub )?(?:record|data) (?:pub )?([^\s:(){}]+)")
FIELD = re.compile(r"^\s+pub ([A-Za-z_][^\s:(){}]*) :")
CAMEL = re.compile(r"(?<![\w'-])[a-z]{2}[a-z0-9]*(?:[A-Z][a-z0-9]*)+(?![\w'-])")
MEMBER = re.compile(r"^\s+\|?\s*([A-Za-z_][^\s:(){},.]*) :")
# Lemmas and fields that would fall together with a definition: the definition keeps the plain name. Each stands
# with the folder in which the old name is meant.
APART = {
    ('crates/statement_report', 'with-costs'): 'with_costs_made',
    ('crates/book/', 'told-figures'): 'told_figures_is',
    ('crates/line_rows', 'station-most'): 'station_most_holds',
    ('crates/line_rows', 'row-bytes'): 'row_bytes_within',
    ('crates/line_rows', 'station-digits'): 'station_digits_hold',
    ('crates/statement_report', 'refused-text'): 'refused_text_is',
    ('crates/unit_text', 'on-digits'): 'on_digits_is',
    ('crates/journal_book', 'not-offered'): 'not_offered_is',
    ('crates/billing', 'no-units'): 'no_units_share',
    ('crates/figures', 'last-pass-number'): 'at_the_last_pass_number',
    ('crates/bill_report', 'frozen-after'): 'frozen_after_is',
    ('crates/settling', 'frozen-after'): 'frozen_after_is',
    ('crates/book/', 'done-by'): 'done_by_same',
    ('crates/', 'at-end'): 'at_end_is',
    ('crates/unit_file', 'in_order'): 'in_order_tells',
    ('crates/unit_file', 'four_bytes'): 'four_bytes_of',
    ('crates/book/proofs', 'next_place'): 'next_place_is',
    ('crates/book_rules', 'units_in'): 'units_inside',
    ('crates/book_rules', 'costs-in'): 'costs_inside',
    ('crates/bill_rules', 'station-days'): 'station_days_alike',
    ('crates/journal_session', 'told-by'): 'told_by_is',
}
FROM_GOALS = re.compile(r"^use Rattle\.[\w.+'-]*\.(?:Goals|Given)\.\{([^}]*)\}", re.M)


def spelled(name):
    """The name in the one spelling."""
    name = name.replace('′', "'")
    parts = [p for p in name.split('-') if p]
    if name[0].isupper():
        return ''.join(p[0].upper() + p[1:] for p in parts)
    return re.sub(r'([a-z0-9])([A-Z])', lambda m: m.group(1) + '_' + m.group(2).lower(), '_'.join(parts))


def files(*ends):
    for folder, dirs, names in os.walk('crates'):
        dirs[:] = sorted(d for d in dirs if d != 'out')
        for name in sorted(names):
            if name.endswith(ends):
                yield os.path.join(folder, name)


def read(path):
    with open(path, encoding='utf-8') as file:
        return file.read()


def goals_of(text):
    """The generated names that a proof file answers or takes from the check."""
    names = set(re.findall(r"^(?:abbrev )?(?:pub )?([A-Za-z_][^\s:(){}]*) : goal\.", text, re.M))
    for line in FROM_GOALS.findall(text):
        names |= {n.strip() for n in line.split(',')}
    return names


def own_names():
    """Two sets: names that stand by themselves, and members of records (also reached by a dot)."""
    words, members = set(), set()
    for path in files('.antt'):
        text = read(path)
        generated = goals_of(text)
        words |= set(CAMEL.findall(text)) - generated
        kind = None
        for line in text.split('\n'):
            if line and not line[0].isspace():
                kind = None
            found = TYPES.match(line)
            if found:
                words.add(found.group(1))
                kind = 'record' if 'record' in line.split(found.group(1))[0] else 'data'
                continue
            found = FIELD.match(line)
            if found:
                members.add(found.group(1))
                continue
            found = DECLARES.match(line)
            if found and not line[0].isspace() and found.group(1) not in generated:
                words.add(found.group(1))
                continue
            found = MEMBER.match(line)
            if found and (kind or '-' in found.group(1) or path.find('/proofs/') > 0):
                (members if kind == 'record' else words).add(found.group(1))
    return words, members


def main():
    look = '--look' in sys.argv
    words, members = own_names()
    turned = {n: spelled(n) for n in words | members if spelled(n) != n}
    turned.update({n: spelled(n) for _, n in APART})
    if look:
        fall_together(words | members, turned)
    for path in files('.antt', '.rt'):
        text = read(path)
        skip = goals_of(text)
        clauses = path.endswith('.rt')

        def turn(found):
            name = found.group(0)
            apart = [new for (folder, n), new in APART.items() if n == name and path.startswith(folder)]
            if name not in turned or name in skip or (name == spelled(name) and (not apart or clauses)):
                return name
            before = text[found.start() - 1:found.start()]
            if before == '.' and name not in members and not apart:
                if look:
                    print(f'behind a dot, left: {path}: {name}')
                return name
            if clauses and before in '"\'':
                return name
            return apart[0] if apart else turned[name]

        new = NAME.sub(turn, text)
        if new != text and not look:
            with open(path, 'w', encoding='utf-8') as file:
                file.write(new)
    print(f'respell: {len(turned)} names')


def fall_together(own, turned):
    """Names that would mean something else after the turn."""
    by_new = {}
    for name in own:
        by_new.setdefault(turned.get(name, name), set()).add(name)
    for new, olds in sorted(by_new.items()):
        if len(olds) > 1:
            print(f'fall together: {new}: {sorted(olds)}')
    for path in files('.antt', '.rt'):
        text = read(path)
        here = set(NAME.findall(text))
        for name in sorted(here):
            if name in turned and turned[name] in here and turned[name] not in own:
                print(f'meets another name: {path}: {name} -> {turned[name]}')
            elif name in turned and turned[name] in here:
                print(f'meets an own name: {path}: {name} -> {turned[name]}')


if __name__ == '__main__':
    main()
