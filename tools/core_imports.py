#!/usr/bin/env python3
"""Brings the names that the proofs of the core's crates cite into one place, crates/core_records/proofs/Core.antt.

    tools/core_imports.py

The place passes on each name of the crates below (of std, of machine_data, of the tables, links, indexes and handles) and of the
specs of core_records that a proof file of the core brings in; every such file gets one `use` line for them, and one for the types
that core_records declares. It works as tools/imports.py does for the theory: write new names as `use` lines of the modules that
declare them, run this, then `rt fmt`.
"""
import pathlib
import re

CRATES = pathlib.Path(__file__).resolve().parent.parent / 'crates'
USE = re.compile(r'^use (Rattle\.[\w.]+)\.\{(.*)\}$')
ANY_USE = re.compile(r'^(unfoldable )?(pub )?use ')
PASSED_ON = re.compile(r'^(unfoldable )?pub use (Rattle\.[\w.]+)\.\{(.*)\}$')
UNFOLDABLE = re.compile(r'(?m)^\s*unfoldable pub (?:\{[^}]*\} )?(?!use )([^\s:]+)')
VARIANTS = re.compile(r'(?m)^use (Rattle\.[\w.]+\.(\w+))\.TheVariants as (\w+)$')
DECLARED = re.compile(r'^(Rattle\.\w+\.specs\.declared)\.')  # a crate's types, each in a module of its own, are passed on by one line
PRELUDE, COMMON = 'Rattle.std.specs.Prelude', 'Rattle.std.proofs.Common'  # the second passes on names of the first


class Place:
    """Where the names stand, for which crates, and of which modules they are."""

    def __init__(self, module, crates, below, title):
        self.module = 'Rattle.' + module
        self.file = CRATES / (module.replace('.', '/') + '.antt')
        self.crates = crates
        # other crates see no type that a crate passes on of its own, so that each file names these, by one line
        self.own = 'Rattle.' + module.split('.')[0] + '.specs.declared'
        self.shared = re.compile(rf'Rattle\.({"|".join(map(re.escape, below))})\.')
        self.title = title


PLACES = [
    Place(
        'core_records.proofs.Core',
        ['core_records', 'core_fields', 'core_queues', 'core_counts', 'core_places', 'core_fields', 'core_makes', 'core_removals',
         'core_removals', 'core_makes', 'core_makes', 'core_removals', 'core_state'],
        [f'{crate}.{kind}' for crate in ('std', 'machine_data', 'machine_rules', 'task_table', 'table_links', 'task_wait', 'table_lists',
                                         'task_handles', 'core_primitives') for kind in ('specs', 'proofs')] + ['core_records.specs'],
        '-- The names of std, of the machine, of the crates below and of the records that the proofs of the core cite, in one place.',
    ),
]


def names_of(group):
    return [name.strip() for name in group.split(',')]


def by_name(name):
    return (name.lower(), name)


def is_declared(module):
    return DECLARED.match(module) is not None


def is_cited(name, body):
    return all(part in body for part in name.split('◌') if part)


def unfoldable_names():
    """Pairs of a module and a name whose definition may be unfolded."""
    found = set()
    for file in CRATES.glob('*/specs/**/*.antt'):
        if 'out' not in file.parts:
            module = 'Rattle.' + '.'.join(file.relative_to(CRATES).with_suffix('').parts)
            found |= {(module, name) for name in UNFOLDABLE.findall(file.read_text())}
    return found


def passed_on(place):
    """What the place passes on now: the module of each name, and the pairs that it passes on unfoldable."""
    modules, unfoldable = {}, set()
    lines = place.file.read_text().split('\n') if place.file.exists() else []
    for line in lines:
        if match := PASSED_ON.match(line):
            for path in names_of(match[3]):
                *below, name = path.split('.')
                modules[name] = '.'.join([match[2], *below])
                if match[1]:
                    unfoldable.add((match[2], name))
    return modules, unfoldable


def behind_types(text):
    """The text with each variant written behind its type, and that type brought in."""
    for module, type_name, short in VARIANTS.findall(text):
        text = re.sub(rf'(?<![\w.]){short}\.(?=[A-Z])', f'{type_name}.', text)
        text = text.replace(f'use {module}.TheVariants as {short}\n', f'use {module}.{{{type_name}}}\n')
    return text


def read(place, file, modules):
    """The file's lines without those imports, where they stood, and what they bring in."""
    lines, where, brought = [], None, set()
    text = behind_types(file.read_text()).split('\n')
    body = '\n'.join(line for line in text if not ANY_USE.match(line))
    for line in text:
        match = USE.match(line)
        if not match or 'TheVariants' in match[1] or not (match[1] in (place.module, place.own) or place.shared.match(match[1])):
            lines.append(line)
            continue
        where = len(lines) if where is None else where
        names = names_of(match[2])
        if match[1] == place.own:
            brought |= {('.'.join([match[1], *name.split('.')[:-1]]), name.split('.')[-1]) for name in names if is_cited(name.split('.')[-1], body)}
            continue
        plain = [name for name in names if ' as ' not in name and '.' not in name]
        brought |= {(modules[name] if match[1] == place.module else match[1], name) for name in plain if is_cited(name, body)}
        if kept := [name for name in names if name not in plain]:
            lines.append(f'use {match[1]}.{{{", ".join(kept)}}}')
    return lines, where, brought


def gather(place):
    modules, unfoldable = passed_on(place)
    unfoldable |= unfoldable_names()
    files = {}
    for crate in place.crates:
        for file in sorted((CRATES / crate / 'proofs').rglob('*.antt')):
            if file != place.file:
                files[file] = read(place, file, modules)
    prelude = {name for _, _, brought in files.values() for module, name in brought if module == PRELUDE}
    for file, (lines, where, brought) in files.items():
        files[file] = lines, where, {(PRELUDE if module == COMMON and name in prelude else module, name) for module, name in brought}
    cites, users = {}, {}
    for file, (_, _, brought) in files.items():
        for pair in brought:
            cites[pair] = cites.get(pair, 0) + 1
            users.setdefault(pair[0], set()).add(file)
    owners = {}
    for module, name in sorted(cites, key=lambda pair: (-cites[pair], pair)):
        owners.setdefault(name, module)
    shared = {(module, name) for module, name in cites
              if owners[name] == module and not module.startswith(place.own + '.') and (len(users[module]) > 1 or is_declared(module))}
    text = [place.title]
    for root in sorted({DECLARED.match(module)[1] for module, _ in shared if is_declared(module)}):
        types = sorted(f'{module[len(root) + 1:]}.{name}' for module, name in shared if module.startswith(root + '.'))
        text.append(f'pub use {root}.{{{", ".join(types)}}}')
    for module in sorted({module for module, _ in shared if not is_declared(module)}):
        names = sorted((name for other, name in shared if other == module), key=by_name)
        for word, unfolds in (('', False), ('unfoldable ', True)):
            if group := [name for name in names if ((module, name) in unfoldable) == unfolds]:
                text.append(f'{word}pub use {module}.{{{", ".join(group)}}}')
    place.file.write_text('\n'.join(text) + '\n')
    for file, (lines, where, brought) in files.items():
        if where is None:
            continue
        groups = {}
        for module, name in brought:
            if module.startswith(place.own + '.'):
                groups.setdefault(place.own, []).append(f'{module[len(place.own) + 1:]}.{name}')
            else:
                groups.setdefault(place.module if (module, name) in shared else module, []).append(name)
        first = sorted(groups, key=lambda module: (module != place.module, module))
        lines[where:where] = [f'use {module}.{{{", ".join(sorted(groups[module], key=by_name))}}}' for module in first]
        new = '\n'.join(lines)
        if new != file.read_text():
            file.write_text(new)


def main():
    for place in PLACES:
        gather(place)


if __name__ == '__main__':
    main()
