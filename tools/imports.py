#!/usr/bin/env python3
"""Brings the names that the proofs of machine_rules, laws_states and laws_places cite into few places.

    tools/imports.py

Some files of proofs pass names on. machine_rules' Machine passes on each name of std, of machine_data's specs and of machine_rules' specs
that a proof file of these crates brings in, and each lemma of machine_data's proofs; its Walks those and the lemmas of moves to the
walks over the rows. laws_states' Rules passes all of the rules on to the laws, with the definitions of laws_states, and its Primitives what
is known of each word; laws_places' Laws passes that and the laws on to the laws of places. Every proof file gets one `use` line
for what such a file passes on to it, and one for the modules of a folder beside. In a proof file new names are written as `use` lines of the
modules that declare them; then this is run, and `rt fmt`. Names that a file no longer cites go. A variant is written behind its
type: where a file has `use ..Place.TheVariants as place`, each `place.Running` becomes `Place.Running`, and the line goes. What a
file else renames by `as`, a module of machine_data or of machine_rules' specs that one file alone cites, and a name that two modules
have, stay as they are.
"""
import pathlib
import re

CRATES = pathlib.Path(__file__).resolve().parent.parent / 'crates'
USE = re.compile(r'^use (Rattle\.[\w.]+)\.\{(.*)\}$')
WORD = re.compile(r"^[\w'-]+$")
ANY_USE = re.compile(r'^(unfoldable )?(pub )?use ')
PASSED_ON = re.compile(r'^(unfoldable )?pub use (Rattle\.[\w.]+)\.\{(.*)\}$')
UNFOLDABLE = re.compile(r'(?m)^\s*unfoldable pub (?:\{[^}]*\} )?(?!use )([^\s:]+)')
SHARED = re.compile(r'Rattle\.(machine_data\.specs|machine_data\.proofs|machine_rules\.specs|std\.specs|std\.proofs)\.')
VARIANTS = re.compile(r'(?m)^use (Rattle\.[\w.]+\.(\w+))\.TheVariants as (\w+)$')
MACHINE = 'Rattle.machine_rules.proofs.Machine'
WALKS = 'Rattle.machine_rules.proofs.Walks'
RULES = 'Rattle.laws_states.proofs.Rules'
WORDS = 'Rattle.laws_states.proofs.Primitives'
LAWS = 'Rattle.laws_places.proofs.Laws'
DECLARED = 'Rattle.machine_data.specs.declared'  # its types, each in a module of its own, are passed on by one line
PRELUDE, COMMON = 'Rattle.std.specs.Prelude', 'Rattle.std.proofs.Common'  # the second passes on names of the first
PLACES = {
    MACHINE: '-- The words of std, of the machine and of its rules that the proofs cite, in one place.',
    WALKS: '-- What the walks over the rows cite, in one place.',
    RULES: '-- What the laws cite of the rules, of their lemmas and of what the laws say, in one place.',
    WORDS: '-- What is known of each word, and what else the laws cite, in one place.',
    LAWS: '-- What the laws of places cite, in one place.',
}
MOVES = 'CallThreads ChainLemmas FreeLemmas MoveLemmas MuteLemmas PlacingLemmas PromotionLemmas ReleaseLemmas SayLemmas StandLemmas StopLemmas WalkEnds WalkMoves'
KNOWN = 'Basics CallsCame CallsLaw CallsSteps CameLemmas CountLemmas EachLemmas HandleTables HousedLemmas PolledWorks ReachLemmas SceneLemmas SetHandles WorksCame'
ROWS = 'WalkTask WalkParts WalkTakes WalkOps WalkSteps'


def modules_of(crate, stems):
    return {f'Rattle.{crate}.proofs.{stem}' for stem in stems.split()}


# of each of the other places: the one below it, which modules it passes on beside, and for which modules of proofs
ABOVE = {
    WALKS: (MACHINE, lambda module: module in modules_of('machine_rules', MOVES), lambda module: module in modules_of('machine_rules', ROWS)),
    RULES: (MACHINE, re.compile(r'Rattle\.(machine_rules\.proofs|laws_states\.specs)\.').match, re.compile(r'Rattle\.(laws_states|laws_places)\.').match),
    WORDS: (
        RULES, lambda module: module in modules_of('laws_states', KNOWN),
        lambda module: module.startswith('Rattle.laws_states.') and module not in modules_of('laws_states', KNOWN),
    ),
    LAWS: (RULES, re.compile(r'Rattle\.laws_states\.proofs\.').match, re.compile(r'Rattle\.laws_places\.').match),
}


def file_of(module):
    return CRATES / (module.removeprefix('Rattle.').replace('.', '/') + '.antt')


def module_of(file):
    return 'Rattle.' + '.'.join(file.relative_to(CRATES).with_suffix('').parts)


def names_of(group):
    return [name.strip() for name in group.split(',')]


def by_name(name):
    return (name.lower(), name)


def is_declared(module):
    return module.startswith(DECLARED + '.')


def is_cited(name, body):
    return all(part in body for part in name.split('◌') if part)


def unfoldable_names():
    """Pairs of a module and a name whose definition may be unfolded."""
    found = set()
    for crate in ('machine_data', 'machine_rules', 'laws_states'):
        for file in (CRATES / crate / 'specs').rglob('*.antt'):
            found |= {(module_of(file), name) for name in UNFOLDABLE.findall(file.read_text())}
    return found


def passed_on():
    """The module of each name that a place passes on now, and the pairs that it passes on unfoldable."""
    modules, unfoldable = {}, set()
    for place in PLACES:
        modules[place] = {}
        if not file_of(place).exists():
            continue
        for line in file_of(place).read_text().split('\n'):
            if match := PASSED_ON.match(line):
                for path in names_of(match[3]):
                    *below, name = path.split('.')
                    home = '.'.join([match[2], *below])
                    if home := modules[home].get(name) if home in PLACES else home:
                        modules[place][name] = home
                        if match[1]:
                            unfoldable.add((home, name))
    return modules, unfoldable


def behind_types(text):
    """The text with each variant written behind its type, and that type brought in."""
    for module, type_name, short in VARIANTS.findall(text):
        text = re.sub(rf'(?<![\w.]){short}\.(?=[A-Z])', f'{type_name}.', text)
        text = text.replace(f'use {module}.TheVariants as {short}\n', f'use {module}.{{{type_name}}}\n')
    return text


def read(file, modules):
    """The file's lines without the imports that may move, where they stood, and what they bring in."""
    lines, where, brought = [], None, set()
    text = behind_types(file.read_text()).split('\n')
    body = '\n'.join(line for line in text if not ANY_USE.match(line))
    for line in text:
        match = USE.match(line)
        if not match or 'TheVariants' in match[1] or ' as ' in match[2] and not SHARED.match(match[1]):
            lines.append(line)
            continue
        where = len(lines) if where is None else where
        names = names_of(match[2])
        plain = [name for name in names if ' as ' not in name]
        for path in plain:
            *below, name = path.split('.')
            module = '.'.join([match[1], *below])
            home = modules.get(module)
            if is_cited(name, body) and (home is None or name in home):
                brought.add((module if home is None else home[name], name))
        if kept := [name for name in names if name not in plain]:
            lines.append(f'use {match[1]}.{{{", ".join(kept)}}}')
    return lines, where, brought


def cited(files):
    """How many files cite each pair of a module and a name, and which files cite a module."""
    cites, users = {}, {}
    for file, (_, _, brought) in files.items():
        for pair in brought:
            cites[pair] = cites.get(pair, 0) + 1
            users.setdefault(pair[0], set()).add(file)
    return cites, users


def owned(cites):
    """The module from which a name is passed on: the one of which it is cited most."""
    owners = {}
    for module, name in sorted(cites, key=lambda pair: (-cites[pair], pair)):
        owners.setdefault(name, module)
    return {(module, name) for module, name in cites if owners[name] == module}


def written(word, pairs):
    """The lines that bring these pairs in, one for the modules of a folder; operators are brought in by their module alone."""
    folders, lines = {}, []
    for module, name in pairs:
        folders.setdefault(module.rpartition('.')[0], {}).setdefault(module, []).append(name)
    for folder, modules in folders.items():
        words = [] if len(modules) == 1 else sorted(
            f'{module.rpartition(".")[2]}.{name}' for module, names in modules.items() for name in names if WORD.match(name)
        )
        if words:
            lines.append((folder, words))
        for module, names in modules.items():
            if others := sorted((name for name in names if not (words and WORD.match(name))), key=by_name):
                lines.append((module, others))
    return [f'{word}use {module}.{{{", ".join(names)}}}' for module, names in sorted(lines)]


def grouped(pairs, unfoldable):
    """The lines that pass these pairs on, without those of machine_data's types."""
    below = {pair for pair in pairs if pair[0] in PLACES}
    for group in (below, pairs - below):
        for word, unfolds in (('pub ', False), ('unfoldable pub ', True)):
            yield from written(word, {pair for pair in group if (pair in unfoldable) == unfolds})


def write(place, lines):
    file_of(place).write_text('\n'.join([PLACES[place], *lines]) + '\n')


def main():
    modules, unfoldable = passed_on()
    unfoldable |= unfoldable_names()
    files = {}
    for crate in ('machine_rules', 'laws_states', 'laws_places'):
        for file in sorted((CRATES / crate / 'proofs').rglob('*.antt')):
            if file not in map(file_of, PLACES):
                files[file] = read(file, modules)
    prelude = {name for _, _, brought in files.values() for module, name in brought if module == PRELUDE}
    for file, (lines, where, brought) in files.items():
        files[file] = lines, where, {(PRELUDE if module == COMMON and name in prelude else module, name) for module, name in brought}
    cites, users = cited(files)
    by_machine = {
        (module, name) for module, name in owned({pair: count for pair, count in cites.items() if SHARED.match(pair[0])})
        if len(users[module]) > 1 or is_declared(module)
    }
    types = sorted(f'{module[len(DECLARED) + 1:]}.{name}' for module, name in by_machine if is_declared(module))
    others = {pair for pair in by_machine if not is_declared(pair[0])}
    write(MACHINE, [f'pub use {DECLARED}.{{{", ".join(types)}}}', *grouped(others, unfoldable)])
    passed = {MACHINE: by_machine}
    homes = {file: {pair: MACHINE for pair in brought & by_machine} for file, (_, _, brought) in files.items()}
    for place, (below, passes, is_for) in ABOVE.items():
        users = {file for file in files if is_for(module_of(file))}
        cites, _ = cited({file: files[file] for file in users})
        pairs = owned({pair: count for pair, count in cites.items() if pair in passed[below] or passes(pair[0])})
        passed[place] = pairs
        from_below = {(below, name): (module, name) for module, name in pairs & passed[below]}
        marked = unfoldable | {key for key, pair in from_below.items() if pair in unfoldable}
        write(place, grouped(set(from_below) | (pairs - passed[below]), marked))
        homes |= {file: {pair: place for pair in files[file][2] & pairs} for file in users}
    for file, (lines, where, brought) in files.items():
        if where is None:
            continue
        pairs = {(homes[file].get(pair, pair[0]), pair[1]) for pair in brought}
        passed_pairs = {pair for pair in pairs if pair[0] in PLACES}
        lines[where:where] = [*written('', passed_pairs), *written('', pairs - passed_pairs)]
        text = '\n'.join(lines)
        if text != file.read_text():
            file.write_text(text)


if __name__ == '__main__':
    main()
