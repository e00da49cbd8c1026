#!/usr/bin/env python3
"""Writes the generated files of es_model's specs/ from the table of the grammar below.

    python3 tools/trees.py              (at the top of the repository)
    python3 tools/trees.py --check      writes nothing, and fails where a file isn't what it would write

Written in crates/es_model/specs: Tree.antt (the pure trees and their size), Codes.antt (that a tree's
code gives it back), View.antt and ModuleView.antt (what the types of src/ are as pure trees).

A row is a constructor of the pure trees, the Rust variant that it shows, and its fields in the
order of the Rust type. A field's type is a sort, 'L:' a list of it, 'O:' an option of it, or plain
data, 'D:' and its type.
"""

import sys

TEXT, BOOL, SEMI, PLACE, INTEGER = 'D:Text', 'D:Bool', 'D:Semi', 'D:ℕ', 'D:ℤ'
WORD, WORDS, MAYBE_WORD = 'D:Identifier', 'D:List Identifier', 'D:Option Identifier'
E, S = 'Expression', 'Statement'

GRAMMAR = {
    'Expression': [
        ('This', 'This', []),
        ('Null', 'Null', []),
        ('True', 'True', []),
        ('False', 'False', []),
        ('Name', 'Name', [('name', WORD)]),
        ('Number', 'Number', [('value', INTEGER)]),
        ('String', 'String', [('text', TEXT)]),
        ('Template', 'Template', [('texts', 'D:List Text'), ('values', 'L:' + E)]),
        ('Array', 'Array', [('items', 'L:' + E)]),
        ('Object', 'Object', [('members', 'L:Member')]),
        ('Function', 'Function', [('function', 'Function')]),
        ('Class', 'Class', [('class', 'Class')]),
        ('Paren', 'Paren', [('of', E)]),
        ('Dot', 'Dot', [('of', E), ('name', TEXT)]),
        ('Index', 'Index', [('of', E), ('key', E)]),
        ('SuperDot', 'SuperDot', [('at', PLACE), ('name', TEXT)]),
        ('SuperIndex', 'SuperIndex', [('at', PLACE), ('key', E)]),
        ('Call', 'Call', [('callee', E), ('arguments', 'L:' + E)]),
        ('New', 'New', [('callee', E), ('arguments', 'O:L:' + E)]),
        ('SuperCall', 'SuperCall', [('at', PLACE), ('arguments', 'L:' + E)]),
        ('Update', 'Update', [('at', PLACE), ('up', BOOL), ('prefix', BOOL), ('target', E)]),
        ('Unary', 'Unary', [('operator', 'D:UnaryOperator'), ('of', E)]),
        ('Typeof', 'Typeof', [('of', E)]),
        ('Void', 'Void', [('of', E)]),
        ('Delete', 'Delete', [('at', PLACE), ('of', E)]),
        ('Binary', 'Binary', [('operator', 'D:BinaryOperator'), ('left', E), ('right', E)]),
        ('In', 'In', [('left', E), ('right', E)]),
        ('InstanceOf', 'InstanceOf', [('left', E), ('right', E)]),
        ('And', 'And', [('left', E), ('right', E)]),
        ('Or', 'Or', [('left', E), ('right', E)]),
        ('Nullish', 'Nullish', [('left', E), ('right', E)]),
        ('Conditional', 'Conditional', [('test', E), ('yes', E), ('no', E)]),
        ('Assign', 'Assign', [('at', PLACE), ('target', E), ('operator', 'D:Option BinaryOperator'), ('value', E)]),
        ('Comma', 'Comma', [('left', E), ('right', E)]),
    ],
    'Key': [
        ('KeyWord', 'Word', [('name', TEXT)]),
        ('KeyString', 'String', [('text', TEXT)]),
        ('KeyNumber', 'Number', [('value', INTEGER)]),
        ('KeyComputed', 'Computed', [('key', E)]),
    ],
    'Member': [
        ('MemberOf', None, [('at', PLACE), ('fixed', BOOL), ('kind', 'D:MemberKind'), ('key', 'Key'), ('value', 'O:' + E), ('function', 'O:Function')]),
    ],
    'Function': [
        ('FunctionOf', None, [('at', PLACE), ('name', MAYBE_WORD), ('kind', 'D:FunctionKind'), ('parameters', WORDS), ('body', 'Body')]),
    ],
    'Body': [
        ('BodyStatements', 'Statements', [('statements', 'L:' + S)]),
        ('BodyExpression', 'Expression', [('value', E)]),
    ],
    'Class': [
        ('ClassOf', None, [('at', PLACE), ('name', MAYBE_WORD), ('parent', 'O:' + E), ('members', 'L:Member')]),
    ],
    'Head': [
        ('HeadNothing', 'Nothing', []),
        ('HeadValue', 'Value', [('value', E)]),
        ('HeadDeclare', 'Declare', [('constant', BOOL), ('names', 'L:Declarator')]),
    ],
    'Declarator': [
        ('DeclaratorOf', None, [('name', WORD), ('value', 'O:' + E)]),
    ],
    'Case': [
        ('CaseOf', None, [('test', 'O:' + E), ('body', 'L:' + S)]),
    ],
    'Statement': [
        ('Empty', 'Empty', []),
        ('Value', 'Value', [('value', E), ('semi', SEMI)]),
        ('Declare', 'Declare', [('constant', BOOL), ('names', 'L:Declarator'), ('semi', SEMI)]),
        ('FunctionStatement', 'Function', [('function', 'Function')]),
        ('ClassStatement', 'Class', [('class', 'Class')]),
        ('Block', 'Block', [('statements', 'L:' + S)]),
        ('If', 'If', [('test', E), ('yes', S), ('other', 'O:' + S)]),
        ('For', 'For', [('head', 'Head'), ('test', 'O:' + E), ('step', 'O:' + E), ('body', S)]),
        ('While', 'While', [('test', E), ('body', S)]),
        ('DoWhile', 'DoWhile', [('body', S), ('test', E), ('semi', SEMI)]),
        ('Break', 'Break', [('at', PLACE), ('semi', SEMI)]),
        ('Continue', 'Continue', [('at', PLACE), ('semi', SEMI)]),
        ('Return', 'Return', [('at', PLACE), ('value', 'O:' + E), ('semi', SEMI)]),
        ('Throw', 'Throw', [('value', E), ('semi', SEMI)]),
        ('Try', 'Try', [('block', 'L:' + S), ('name', MAYBE_WORD), ('catch', 'O:L:' + S), ('finally', 'O:L:' + S)]),
        ('Switch', 'Switch', [('value', E), ('cases', 'L:Case')]),
    ],
    'Default': [
        ('DefaultFunction', 'Function', [('function', 'Function')]),
        ('DefaultClass', 'Class', [('class', 'Class')]),
        ('DefaultValue', 'Value', [('value', E)]),
    ],
    'Item': [
        ('Import', 'Import', [('from', TEXT), ('names', 'D:List Pair'), ('semi', SEMI)]),
        ('ExportFrom', 'ExportFrom', [('from', TEXT), ('names', 'D:List Pair'), ('semi', SEMI)]),
        ('ExportNames', 'ExportNames', [('names', 'D:List Pair'), ('semi', SEMI)]),
        ('ExportDeclaration', 'ExportDeclaration', [('statement', S)]),
        ('ExportDefault', 'ExportDefault', [('at', PLACE), ('value', 'Default'), ('semi', SEMI)]),
        ('Plain', 'Plain', [('statement', S)]),
    ],
}

KINDS = {
    'Semi': ['Written', 'Missing'],
    'FunctionKind': ['Plain', 'Arrow', 'Method', 'Getter', 'Setter', 'Base', 'Derived'],
    'MemberKind': ['Value', 'Short', 'Method', 'Getter', 'Setter'],
    'UnaryOperator': ['Not', 'Negate', 'Plus', 'BitNot'],
    'BinaryOperator': ['Add', 'Subtract', 'Multiply', 'Divide', 'Remainder', 'Power', 'BitAnd', 'BitOr', 'BitXor',
                       'ShiftLeft', 'ShiftRight', 'ShiftRightUnsigned', 'Less', 'Greater', 'LessOrEqual',
                       'GreaterOrEqual', 'Equal', 'NotEqual', 'StrictEqual', 'StrictNotEqual'],
}
NAMES = ['Identifier', 'Pair']
# types that lead back to themselves only through Expression and Statement, and have no box of their own
DIRECT = {'Body', 'Key', 'Default'}
# types of items, which hold functions, classes and expressions without a box
UNBOXED_IN = {'Default', 'Item'}

HEAD = '-- Generated by tools/trees.py from its table of the grammar: edit the table, and run it again.\n'


def snake(name):
    return ''.join(('_' if i and c.isupper() else '') + c.lower() for i, c in enumerate(name))


def is_data(kind):
    return kind.startswith('D:')


def sort(kind):
    if kind.startswith('L:'):
        return f'(list {sort(kind[2:])})'
    if kind.startswith('O:'):
        return f'(option {sort(kind[2:])})'
    return kind.lower()


def qualified_sort(kind):
    if kind.startswith('L:'):
        return f'(t.list {qualified_sort(kind[2:])})'
    if kind.startswith('O:'):
        return f'(t.option {qualified_sort(kind[2:])})'
    return 't.' + kind.lower()


def type_of(kind, of_sort=sort):
    if is_data(kind):
        return kind[2:] if ' ' not in kind else f'({kind[2:]})'
    return f'Tree {of_sort(kind)}'


def rows():
    for name, constructors in GRAMMAR.items():
        for number, (constructor, variant, fields) in enumerate(constructors):
            yield name, number, constructor, variant, fields


def pattern(constructor, fields, letter='a', prefix=''):
    names = ' '.join(f'{letter}{i}' for i in range(len(fields)))
    return f'({prefix}{constructor} {names})' if fields else prefix + constructor


def uses():
    out = ''.join(f'use Rattle.es_model.specs.declared.kinds.{k}.{{{k}}}\n' for k in KINDS)
    return out + ''.join(f'use Rattle.es_model.specs.declared.names.{n}.{{{n}}}\n' for n in NAMES)


def tree_file():
    out = HEAD + '-- Syntax trees as plain data (ECMA-262, 13 to 16): one family, indexed by the sort of tree.\n'
    out += '-- A place (ℕ) is the byte of the text at which the thing begins, from 0.\n'
    out += 'use Rattle.std.specs.Prelude.{ℕ, ◌+◌, Bool, List, [], ◌∷◌, Option}\nuse lib.IntN.{ℤ}\n' + uses()
    out += '\n-- a list of 16-bit units\nabbrev pub Text : Type 0\nText = List ℕ\n\npub data Sort : Type 0 where\n'
    out += ''.join(f'  {s.lower()} : Sort\n' for s in GRAMMAR)
    out += '  list : Sort → Sort\n  option : Sort → Sort\n\npub data Tree : Sort → Type 0 where\n'
    for name, _, constructor, _, fields in rows():
        parts = [type_of(kind) for _, kind in fields] + [f'Tree {name.lower()}']
        out += f'  {constructor} : ' + ' → '.join(parts) + '\n'
    out += '''  none : {s : Sort} → Tree (list s)
  more : {s : Sort} → Tree s → Tree (list s) → Tree (list s)
  absent : {s : Sort} → Tree (option s)
  present : {s : Sort} → Tree s → Tree (option s)

-- a list of trees as one tree
abbrev pub listed : {s : Sort} → List (Tree s) → Tree (list s)
listed [] = none
listed (a ∷ b) = more a (listed b)

-- the number of nodes; a list's cells and a present option count too
abbrev pub tree_size : {s : Sort} → Tree s → ℕ
'''
    for _, _, constructor, _, fields in rows():
        parts = [f'tree_size a{i}' for i, (_, kind) in enumerate(fields) if not is_data(kind)]
        out += f'tree_size {pattern(constructor, fields)} = ' + ' + '.join(parts + ['1']) + '\n'
    return out + '''tree_size none = 0
tree_size (more a b) = tree_size a + tree_size b + 1
tree_size absent = 0
tree_size (present a) = tree_size a + 1
'''


CODE = {TEXT: 'text_code', BOOL: 'coded_bool', PLACE: 'coded_ℕ', INTEGER: 'coded_ℤ', WORD: 'identifier_code',
        WORDS: 'identifiers_code', MAYBE_WORD: 'maybe_identifier_code', 'D:List Text': 'texts_code',
        'D:List Pair': 'pairs_code', 'D:Option BinaryOperator': 'maybe_binary_operator_code',
        **{f'D:{k}': snake(k) + '_code' for k in KINDS}}


def numeral(n):
    return 'zero' if n == 0 else f'(suc {numeral(n - 1)})'


def kind_codes():
    out = ''
    for kind, variants in KINDS.items():
        s = snake(kind)
        out += f'abbrev {s}_number : {kind} → ℕ\n' + ''.join(f'{s}_number {s}.{v} = {i}\n' for i, v in enumerate(variants))
        out += f'\nabbrev {s}_of : ℕ → {kind}\n'
        out += ''.join(f'{s}_of {numeral(i)} = {s}.{v}\n' for i, v in enumerate(variants[:-1])) + f'{s}_of _ = {s}.{variants[-1]}\n'
        out += f'\npub {s}_back : (k : {kind}) → {s}_of ({s}_number k) ≡ k\n' + ''.join(f'{s}_back {s}.{v} = refl\n' for v in variants)
        out += f'\nabbrev pub {s}_code : Coded {kind}\n{s}_code = record {{ code = λ k. gnum ({s}_number k); inj = λ x y e. sym ({s}_back x) ∙ ap (λ g. {s}_of (num g)) e ∙ {s}_back y }}\n\n'
    return out


CODES_HEAD = HEAD + '''-- A tree is written as a tree of numbers, which gives it back: by this a proof tells trees apart.
use Rattle.std.specs.Prelude.{◌≡◌, ℕ, zero, suc, Bool, List, Option, refl}
use Rattle.std.specs.Coded.{Coded, coded_ℕ, coded_ℤ, coded_bool, coded_list, coded_option}
use base.Stored.{Gv, gnil, gnum, gcons, num}
use mathlib.Core.Path.{sym, ◌∙◌, ap, subst}
use lib.Dec.{T, eqb, eqb_refl}
use lib.IntN.{ℤ}
use Rattle.es_model.specs.Tree as t
use Rattle.es_model.specs.Tree.{Tree, Text}
'''

CODES_DATA = '''abbrev head : Gv → Gv
head (gcons a b) = a
head g = g

abbrev tail : Gv → Gv
tail (gcons a b) = b
tail g = g

abbrev pub text_code : Coded Text
text_code = coded_list coded_ℕ

abbrev texts_code : Coded (List Text)
texts_code = coded_list text_code

pub identifier_once : (x y : Identifier) → gcons (coded_ℕ.code x.at) (text_code.code x.name) ≡ gcons (coded_ℕ.code y.at) (text_code.code y.name) → x ≡ y
identifier_once x y e = λ i. record { at = coded_ℕ.inj x.at y.at (ap head e) i; name = text_code.inj x.name y.name (ap tail e) i }

abbrev pub identifier_code : Coded Identifier
identifier_code = record { code = λ a. gcons (coded_ℕ.code a.at) (text_code.code a.name); inj = identifier_once }

abbrev identifiers_code : Coded (List Identifier)
identifiers_code = coded_list identifier_code

abbrev maybe_identifier_code : Coded (Option Identifier)
maybe_identifier_code = coded_option identifier_code

pub pair_once : (x y : Pair) → gcons (identifier_code.code x.taken) (identifier_code.code x.given) ≡ gcons (identifier_code.code y.taken) (identifier_code.code y.given) → x ≡ y
pair_once x y e = λ i. record { taken = identifier_code.inj x.taken y.taken (ap head e) i; given = identifier_code.inj x.given y.given (ap tail e) i }

abbrev pub pair_code : Coded Pair
pair_code = record { code = λ a. gcons (identifier_code.code a.taken) (identifier_code.code a.given); inj = pair_once }

abbrev pairs_code : Coded (List Pair)
pairs_code = coded_list pair_code

abbrev maybe_binary_operator_code : Coded (Option BinaryOperator)
maybe_binary_operator_code = coded_option binary_operator_code

-- the test of equality passes at equal numbers; at two written numbers that differ it is empty
equal_pass : {m n : ℕ} → m ≡ n → T (eqb m n)
equal_pass {m} e = subst (λ n. T (eqb m n)) e (eqb_refl m)

'''

CODES_LISTS = '''once_none : {s : t.Sort} → Once (t.none {s = s})
once_none t.none p = refl
once_none _ p = absurd (equal_pass (ap (λ g. num (head g)) p))

once_more : {s : t.Sort} (a : Tree s) (l : Tree (t.list s)) → Once a → Once l → Once (t.more a l)
once_more a l ra rl (t.more b k) p = λ i. t.more (ra b (ap (λ g. head (tail g)) p) i) (rl k (ap (λ g. tail (tail g)) p) i)
once_more a l ra rl _ p = absurd (equal_pass (ap (λ g. num (head g)) p))

once_absent : {s : t.Sort} → Once (t.absent {s = s})
once_absent t.absent p = refl
once_absent _ p = absurd (equal_pass (ap (λ g. num (head g)) p))

once_present : {s : t.Sort} (a : Tree s) → Once a → Once (t.present a)
once_present a ra (t.present b) p = λ i. t.present (ra b (ap tail p) i)
once_present a ra _ p = absurd (equal_pass (ap (λ g. num (head g)) p))

'''


def written():
    out = 'abbrev written : {s : t.Sort} → Tree s → Gv\n'
    for _, number, constructor, _, fields in rows():
        body = 'gnil'
        for i, (_, kind) in reversed(list(enumerate(fields))):
            part = f'{CODE[kind]}.code a{i}' if is_data(kind) else f'written a{i}'
            body = f'gcons ({part}) ({body})'
        out += f'written {pattern(constructor, fields, prefix="t.")} = gcons (gnum {number}) ({body})\n'
    return out + '''written t.none = gcons (gnum 0) gnil
written (t.more a b) = gcons (gnum 1) (gcons (written a) (written b))
written t.absent = gcons (gnum 0) gnil
written (t.present a) = gcons (gnum 1) (written a)

abbrev Once : {s : t.Sort} → Tree s → Type 0
Once {s} a = (b : Tree s) → written a ≡ written b → a ≡ b

'''


def once(name, constructor, fields):
    trees = [i for i, (_, kind) in enumerate(fields) if not is_data(kind)]
    signature = ' '.join(f'(a{i} : {type_of(kind, qualified_sort)})' for i, (_, kind) in enumerate(fields))
    premises = ''.join(f'Once a{i} → ' for i in trees)
    arguments = ' '.join([f'a{i}' for i in range(len(fields))] + [f'r{i}' for i in trees])
    arguments = arguments + ' ' if arguments else ''

    def field(i, kind):
        path = 'g'
        for _ in range(i + 1):
            path = f'(tail {path})'
        path = f'(ap (λ g. head {path}) p)'
        return f'({CODE[kind]}.inj a{i} b{i} {path} i)' if is_data(kind) else f'(r{i} b{i} {path} i)'

    body = 'refl'
    if fields:
        body = f'λ i. t.{constructor} ' + ' '.join(field(i, kind) for i, (_, kind) in enumerate(fields))
    out = f'once_{constructor} : ' + (signature + ' → ' if signature else '') + premises + f'Once {pattern(constructor, fields, prefix="t.")}\n'
    out += f'once_{constructor} {arguments}{pattern(constructor, fields, "b", "t.")} p = {body}\n'
    if len(GRAMMAR[name]) > 1:
        out += f'once_{constructor} {arguments}_ p = absurd (equal_pass (ap (λ g. num (head g)) p))\n'
    return out + '\n'


def codes_file():
    out = CODES_HEAD + uses()
    out += ''.join(f'use Rattle.es_model.specs.declared.kinds.{k}.TheVariants as {snake(k)}\n' for k in KINDS) + '\n'
    out += kind_codes() + CODES_DATA + written()
    calls = ''
    for name, _, constructor, _, fields in rows():
        out += once(name, constructor, fields)
        parts = [f'a{i}' for i in range(len(fields))]
        parts += [f'(once a{i})' for i, (_, kind) in enumerate(fields) if not is_data(kind)]
        calls += ' '.join([f'once {pattern(constructor, fields, prefix="t.")} = once_{constructor}'] + parts) + '\n'
    return out + CODES_LISTS + 'pub once : {s : t.Sort} → (a : Tree s) → Once a\n' + calls + '''once t.none = once_none
once (t.more a b) = once_more a b (once a) (once b)
once t.absent = once_absent
once (t.present a) = once_present a (once a)

abbrev pub code_of : (s : t.Sort) → Coded (Tree s)
code_of s = record { code = written; inj = once }
'''


LETTER = {'Expression': 'e', 'Statement': 's', 'Key': 'k', 'Body': 'b', 'Head': 'h', 'Default': 'd', 'Item': 'i'}
DECLARED = {'Expression': 'ExpressionForm', 'Statement': 'StatementForm', 'Body': 'FunctionBody'}
FILE = {'Default': 'items', 'Item': 'items'}
STRUCTS = ['Function', 'Class', 'Member', 'Declarator', 'Case']


def seen(owner, kind, a):
    if is_data(kind):
        return a
    if kind.startswith('L:'):
        inner = kind[2:]
        return f'(listed {a})' if inner in (E, S) else f'(listed (map {inner.lower()}_of {a}))'
    if kind.startswith('O:L:'):
        return f'(optional_list {a})'
    if kind in ('O:' + E, 'O:' + S):
        return f'(optional {a})'
    if kind == 'O:Function':
        return f'(optional_function {a})'
    value = a if owner in UNBOXED_IN or kind in DIRECT else f'{a}.value'
    return value if kind in (E, S) else f'({kind.lower()}_of {value})'


def view_file():
    out = HEAD + '-- What the types of src/ are, as pure trees: each is seen one level deep, and a child is its value.\n'
    out += 'use Rattle.std.specs.Prelude.{map, List, Option, Some, None, Box}\nuse Rattle.std.specs.declared.alloc.Global.{Global}\n'
    for name, letter in LETTER.items():
        declared, file = DECLARED.get(name, name), FILE.get(name, 'tree')
        out += f'use Rattle.es_model.specs.declared.{file}.{declared}.{{{declared}}}\n'
        out += f'use Rattle.es_model.specs.declared.{file}.{declared}.TheVariants as {letter}\n'
    out += ''.join(f'use Rattle.es_model.specs.declared.tree.{name}.{{{name}}}\n' for name in STRUCTS)
    out += '''use Rattle.es_model.specs.Tree as t
use Rattle.es_model.specs.Tree.{Tree, listed}

abbrev pub optional : {s : t.Sort} → Option (Box (Tree s) Global) → Tree (t.option s)
optional None = t.absent
optional (Some a) = t.present a.value

abbrev pub optional_list : {s : t.Sort} → Option (List (Tree s)) → Tree (t.option (t.list s))
optional_list None = t.absent
optional_list (Some a) = t.present (listed a)

'''
    for name in ['Key', 'Body', 'Function', 'Member', 'Class', 'Declarator', 'Case', 'Head', 'Expression', 'Statement']:
        out += viewed(name)
        if name == 'Function':
            out += '''abbrev pub optional_function : Option (Box Function Global) → Tree (t.option t.function)
optional_function None = t.absent
optional_function (Some a) = t.present (function_of a.value)

'''
    return out.rstrip('\n') + '\n', MODULE_VIEW + viewed('Default') + viewed('Item').rstrip('\n') + '\n'


MODULE_VIEW = HEAD + '''-- What a module's items are, as pure trees.
use Rattle.es_model.specs.declared.items.Default.{Default}
use Rattle.es_model.specs.declared.items.Default.TheVariants as d
use Rattle.es_model.specs.declared.items.Item.{Item}
use Rattle.es_model.specs.declared.items.Item.TheVariants as i
use Rattle.es_model.specs.Tree as t
use Rattle.es_model.specs.Tree.{Tree}
use Rattle.es_model.specs.View.{function_of, class_of}

'''


def viewed(name):
    declared = DECLARED.get(name, name)
    out = f'abbrev pub {name.lower()}_of : {declared} → Tree t.{name.lower()}\n'
    for constructor, variant, fields in GRAMMAR[name]:
        if variant is None:
            left, right = 'a', [seen(name, kind, f'a.{field}') for field, kind in fields]
        else:
            left = pattern(variant, fields, prefix=LETTER[name] + '.')
            right = [seen(name, kind, f'a{i}') for i, (_, kind) in enumerate(fields)]
        out += f'{name.lower()}_of {left} = ' + ' '.join([f't.{constructor}'] + right) + '\n'
    return out + '\n'


def main():
    specs = 'crates/es_model/specs/'
    view, module_view = view_file()
    # the module's types stand in a file of their own, which the trees' files must not name
    view = '\n'.join(line for line in view.split('\n') if 'declared.items.' not in line)
    texts = {'Tree': tree_file(), 'Codes': codes_file(), 'View': view, 'ModuleView': module_view}
    if sys.argv[1:] == ['--check']:
        stale = [name for name, text in texts.items() if open(f'{specs}{name}.antt').read() != text]
        if stale:
            sys.exit('not what tools/trees.py writes: ' + ', '.join(f'{specs}{name}.antt' for name in stale))
        return
    for name, text in texts.items():
        with open(f'{specs}{name}.antt', 'w') as file:
            file.write(text)


if __name__ == '__main__':
    main()
