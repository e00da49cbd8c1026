"""How the definitions of this repository run a program, for the evaluator of definitions."""
from typing import NamedTuple

from javascript.adapters import NotRun, Told, told_as_record

# as many steps as no program of the tests comes to
MOST_STEPS = 1 << 60
DEFAULT_BUDGET = 100_000_000


class Compiled(NamedTuple):
    """A program's trees by name, the names that are known from the start, and its table of modules."""
    trees: list
    names: object
    table: object


def flat_limits(definitions, budget):
    """The limits of a boot, in which first writes aren't counted."""
    return definitions.record(budget=budget, slots=1_048_576, units=4_194_304, first_writes=False)


def numbered_names(definitions, codes):
    """The names of the realm, then each module's, each once, as lists of units."""
    names, known = [], set()
    realm = definitions.plain(definitions.value('es_rows/Realm.realm_names'))
    for text in [*realm, *(name for code in codes for name in definitions.plain(code)['names'])]:
        if tuple(text) not in known:
            known.add(tuple(text))
            names.append(text)
    return names


def compiled(definitions, program):
    """The code of each module, names being numbered by the realm's and all modules' names."""
    trees = [(definitions.text(name), definitions.tree(tree)) for name, tree in program.modules]
    own = [definitions.call('code_gen/Modules.compiled', tree, name) for name, tree in trees]
    texts = numbered_names(definitions, own)
    numbers = {tuple(text): number for number, text in enumerate(texts, 1)}

    def numbering(text):
        return numbers[tuple(definitions.plain(text))]

    names = definitions.list(definitions.list(text) for text in texts)
    modules = definitions.list(definitions.call('code_gen/Modules.code_of', tree, name, numbering) for name, tree in trees)
    return Compiled(trees, names, definitions.record(names=names, modules=modules))


def preloads_of(definitions, program):
    return definitions.list(definitions.text(name) for name in program.preloads)


def machine(definitions, program):
    """The code of each module, and their boot by the byte machine."""
    ending = definitions.plain(definitions.call(
        'es_machine/Boot.boot', compiled(definitions, program).table, MOST_STEPS, preloads_of(definitions, program),
        flat_limits(definitions, DEFAULT_BUDGET), definitions.text(program.main), definitions.bytes(program.input),
        flat_limits(definitions, program.budget)))
    if ending[0] == 'Refuses':
        return Told(3, b'')
    return told_as_record(ending[1])


def texts_in(tree):
    """Every text that a tree has as a name, a key or a literal."""
    if isinstance(tree, list):
        if tree and all(isinstance(unit, int) for unit in tree):
            yield tree
        else:
            for part in tree:
                yield from texts_in(part)
    elif isinstance(tree, tuple):
        for part in tree:
            yield from texts_in(part)


def known_names(definitions, modules):
    """The names of the realm, then all texts of the modules, each once."""
    names, known = [], set()
    realm = definitions.plain(definitions.value('es_rows/Realm.realm_names'))
    for text in [*realm, *(text for _, tree in modules for text in texts_in(tree))]:
        if tuple(text) not in known:
            known.add(tuple(text))
            names.append(text)
    return definitions.list(definitions.list(text) for text in names)


def evaluation(definitions, program):
    """The trees of all modules, booted by evaluation."""
    tables = definitions.list(
        definitions.call('es_eval/ModuleTables.module_table', definitions.text(name), definitions.tree(tree))
        for name, tree in program.modules)
    ending = definitions.plain(definitions.call(
        'es_eval/Boot.boot', tables, known_names(definitions, program.modules),
        definitions.list(definitions.text(name) for name in program.preloads), flat_limits(definitions, DEFAULT_BUDGET),
        definitions.text(program.main), definitions.bytes(program.input), flat_limits(definitions, program.budget)))
    if ending[0] == 'Refuses':
        raise NotRun(f'refused: {ending[1]}')
    return told_as_record(ending[1])


# ---- both sides: evaluation of the trees and the machine on their code, with all that they leave

def end_of(definitions, engine, start, for_main, program):
    """What a boot comes to, its state included, and what it tells; nothing is told of a refusal."""
    ready = definitions.call('es_ops/Boot.preloaded', engine, preloads_of(definitions, program), start)
    if ready[0] == 'Refused':
        return ready, None
    main = definitions.text(program.main)
    started = definitions.call('es_ops/Boot.started', engine, main, for_main(ready[1]))
    if started[0] == 'NoPlan':
        return started, None
    outcome = definitions.call('es_ops/Boot.gone', engine, definitions.constructor('None'), started[1])
    return outcome, definitions.call('es_ops/Boot.told', engine, main, outcome)


def differences(a, b, path=''):
    """Where two plain values differ."""
    if type(a) is not type(b):
        yield f'{path}: {str(a)[:100]} and {str(b)[:100]}'
    elif isinstance(a, dict):
        for key in a:
            yield from differences(a[key], b[key], f'{path}.{key}')
    elif isinstance(a, (list, tuple)):
        if len(a) != len(b):
            yield f'{path}: lengths {len(a)} and {len(b)}'
        for place, (one, other) in enumerate(zip(a, b)):
            yield from differences(one, other, f'{path}[{place}]')
    elif a != b:
        yield f'{path}: {a} and {b}'


def agreement(definitions, program):
    """Both sides; not run where their outcomes, stores, meters, counts or traces differ."""
    code = compiled(definitions, program)
    tables = definitions.list(definitions.call('es_eval/ModuleTables.module_table', name, tree) for name, tree in code.trees)
    limits, main_limits = flat_limits(definitions, DEFAULT_BUDGET), flat_limits(definitions, program.budget)
    given = definitions.bytes(program.input)
    by_machine, told = end_of(
        definitions, definitions.call('es_machine/Bodies.engine', code.table, definitions.value('es_rows/BuiltIns.row'), MOST_STEPS),
        definitions.call('es_rows/Start.start', definitions.call('es_machine/Tables.sorts_in', code.table), code.names, limits),
        lambda state: definitions.call('es_ops/Boot.for_main', main_limits, given, state), program)
    by_evaluation, _ = end_of(
        definitions, definitions.call('es_eval/Boot.engine', tables),
        definitions.call('es_rows/Start.start', definitions.call('es_eval/ModuleTables.sorts', tables), code.names, limits),
        lambda state: definitions.call('es_ops/Boot.for_main', main_limits, given, state), program)
    found = list(differences(definitions.plain(by_machine), definitions.plain(by_evaluation)))
    if found:
        raise NotRun(f'machine and evaluation differ in {len(found)} places: ' + '; '.join(found[:3]))
    return told_as_record(definitions.plain(told)) if told else Told(3, b'')


ADAPTERS = {
    'evaluation': evaluation,
    'machine': machine,
    'agreement': agreement,
}
