#!/usr/bin/env python3
"""Writes a grammar's instance of c_parser's trait Grammar from the grammar's text.

usage: tables.py CRATE_FOLDER TYPE

reads  CRATE_FOLDER/grammar.txt   the lines and the classes
writes CRATE_FOLDER/src/grammar.rt        the enums, the alternatives, the look-ahead, the impl for TYPE
       CRATE_FOLDER/specs/Grammar.antt    what the impl's ghost members are
       CRATE_FOLDER/specs/GrammarHolds.antt  the proof that the look-ahead is right

It stops where one token of look-ahead isn't enough. tools/README.md has the form of grammar.txt.
"""
import os
import re
import sys


def words_of_camel(name):
    return re.sub(r'(?<!^)(?=[A-Z])', '_', name).upper()


class Grammar:
    """The lines of the text, and what may come first in each and after it."""

    def __init__(self, text):
        self.classes, self.order, self.lines, self.actions, self.notes = [], [], {}, [], {}
        self.names = ('Name', 'TypeName')
        self.read(text)
        self.lines = {line: [[self.symbol(word) for word in row if word != 'empty'] for row in rows] for line, rows in self.lines.items()}
        for line in self.order:
            for row in self.lines[line]:
                for symbol in row:
                    if symbol[0] == 'make' and symbol[1] not in self.actions:
                        self.actions.append(symbol[1])
        self.look_ahead()

    def read(self, text):
        line = None
        for raw in text.split('\n'):
            words = raw.split('#')[0].split()
            if not words:
                continue
            if words[0] == 'classes':
                self.classes += words[1:]
            elif words[0] == 'names':
                self.names = (words[1], words[2])
            elif words[1:2] == ['=']:
                line = words[0]
                if line in self.lines:
                    raise SystemExit(f'the line {line} stands twice')
                self.order.append(line)
                self.lines[line] = [words[2:]]
            elif words[0] == '|' and line:
                self.lines[line].append(words[1:])
            else:
                raise SystemExit('no line of a grammar: ' + raw)
        for name in self.names:
            if name not in self.classes:
                raise SystemExit(f'the class {name} is missing')
        self.class_of = {words_of_camel(name): name for name in self.classes}

    def symbol(self, word):
        if word.startswith('<') and word.endswith('>'):
            return ('make', word[1:-1])
        if word in ('{', '}', 'learn'):
            return ('turn', {'{': 'Enter', '}': 'Leave', 'learn': 'Learn'}[word])
        if word in self.lines:
            return ('line', word)
        mark = word[0] if word[0] in '+!~' else ''
        name = word[len(mark):]
        if name not in self.class_of:
            raise SystemExit('neither a line nor a class: ' + word)
        if mark == '~':
            return ('not', self.class_of[name])
        return ('token', self.class_of[name], {'+': 'Opens', '!': 'Declares', '': 'Nothing'}[mark])

    def begins(self, row):
        """The classes that may come first in the row, and whether it may read nothing."""
        found, barred = set(), set()
        for symbol in row:
            if symbol[0] == 'token':
                return found | ({symbol[1]} - barred), False
            if symbol[0] == 'line':
                found |= self.first[symbol[1]] - barred
                if not self.empty[symbol[1]]:
                    return found, False
            if symbol == ('turn', 'Learn'):
                found |= set(self.classes)
            if symbol[0] == 'not':
                barred.add(symbol[1])
        return found, True

    def look_ahead(self):
        self.first = {line: set() for line in self.order}
        self.follow = {line: set() for line in self.order}
        self.empty = {line: False for line in self.order}
        changes = True
        while changes:
            changes = False
            for line in self.order:
                for row in self.lines[line]:
                    found, empty = self.begins(row)
                    if not found <= self.first[line] or (empty and not self.empty[line]):
                        changes = True
                        self.first[line] |= found
                        self.empty[line] |= empty
        changes = True
        while changes:
            changes = False
            for line in self.order:
                for row in self.lines[line]:
                    for i, symbol in enumerate(row):
                        if symbol[0] == 'line':
                            found, empty = self.begins(row[i + 1:])
                            found = found | (self.follow[line] if empty else set())
                            if not found <= self.follow[symbol[1]]:
                                changes = True
                                self.follow[symbol[1]] |= found

    def goes_on(self, line, row):
        found, empty = self.begins(row)
        barred = {symbol[1] for symbol in row if symbol[0] == 'not'}
        return found | ((self.follow[line] - barred) if empty else set())

    def clashes(self):
        out = []
        for line in self.order:
            rows = self.lines[line]
            for i in range(len(rows)):
                for j in range(i):
                    both = self.goes_on(line, rows[i]) & self.goes_on(line, rows[j])
                    if both:
                        out.append(f'{line}: alternatives {j + 1} and {i + 1} both go on with ' + ' '.join(sorted(both)))
            if sum(self.begins(row)[1] for row in rows) > 1:
                out.append(f'{line}: two alternatives may read nothing')
        return out

    def in_order(self, classes):
        return [name for name in self.classes if name in classes]


def rust_symbol(symbol):
    kind = symbol[0]
    if kind == 'token':
        return f'Symbol::Token(Class::{symbol[1]}, Effect::{symbol[2]})'
    if kind == 'line':
        return f'Symbol::Line(Line::{symbol[1]})'
    if kind == 'make':
        return f'Symbol::Make(Action::{symbol[1]})'
    if kind == 'turn':
        return f'Symbol::Turn(Turn::{symbol[1]})'
    return f'Symbol::NotNext(Class::{symbol[1]})'


def rust_enum(comment, name, items):
    return [f'/// {comment}', '#[derive(Clone, Copy, Debug, PartialEq, Eq)]', f'pub enum {name} {{'] + [f'    {item},' for item in items] + ['}', '']


def write_rust(grammar, crate, type_name):
    out = ['//! The grammar, as tools/tables.py writes it from grammar.txt.', '']
    used = {'Symbol'}
    for line in grammar.order:
        for row in grammar.lines[line]:
            for symbol in row:
                used |= {'token': {'Effect'}, 'turn': {'Turn'}}.get(symbol[0], set())
    out += ['use c_parser::{' + ', '.join(sorted(used | {'Grammar'})) + '};', '']
    out += rust_enum('What a token is to the grammar.', 'Class', grammar.classes)
    out += rust_enum('A line of the grammar.', 'Line', grammar.order)
    out += rust_enum('What is made where a part has been read.', 'Action', grammar.actions)
    for line in grammar.order:
        rows = grammar.lines[line]
        out.append(f'static {words_of_camel(line)}: [&[Symbol<Class, Line, Action>]; {len(rows)}] = [')
        out += ['    &[' + ', '.join(rust_symbol(symbol) for symbol in row) + '],' for row in rows]
        out += ['];', '']
    for line in grammar.order:
        for kind, classes in (('FIRST', grammar.first[line]), ('FOLLOW', grammar.follow[line])):
            ones = grammar.in_order(classes)
            out += [f'static {words_of_camel(line)}_{kind}: [Class; {len(ones)}] = [' + ', '.join('Class::' + one for one in ones) + '];', '']
    out += [f'/// The grammar of grammar.txt.', '#[derive(Clone, Copy, Debug, PartialEq, Eq)]', f'pub struct {type_name};', '']
    spec = f'Rattle.{crate}.specs.Grammar'
    out += [
        f'impl Grammar for {type_name} {{',
        f'    ghost use {spec}.{{rules, table}};',
        f'    ghost use Rattle.{crate}.specs.GrammarHolds.{{is_right}};',
        '',
        '    type Class = Class;',
        '    type Line = Line;',
        '    type Action = Action;',
        '',
        '    ghost rules = { rules };',
        '',
        '    ghost table = { table };',
        '',
        '    ghost right = { is_right };',
        '',
    ]

    def method(signature, unfolded, body):
        return [f'    #[tactic(auto, unfolding({", ".join("crate::specs::Grammar::" + name for name in unfolded)}))]', f'    fn {signature} {{'] + body + ['    }', '']

    def by_line(arms):
        return ['        match line {'] + [f'            Line::{line} => {arm},' for line, arm in arms] + ['        }']

    out += method('number(class: Class) -> u8', ['rules', 'number'], ['        match class {'] + [f'            Class::{name} => {i},' for i, name in enumerate(grammar.classes)] + ['        }'])
    out += method('name() -> Class', ['rules'], [f'        Class::{grammar.names[0]}'])
    out += method('type_name() -> Class', ['rules'], [f'        Class::{grammar.names[1]}'])
    out += method('start() -> Line', ['rules'], [f'        Line::{grammar.order[0]}'])
    out += method("alternatives(line: Line) -> &'static [&'static [Symbol<Class, Line, Action>]]", ['rules', 'lines'], by_line((line, '&' + words_of_camel(line)) for line in grammar.order))
    out += method("first(line: Line) -> &'static [Class]", ['table', 'first'], by_line((line, f'&{words_of_camel(line)}_FIRST') for line in grammar.order))
    out += method("follow(line: Line) -> &'static [Class]", ['table', 'follow'], by_line((line, f'&{words_of_camel(line)}_FOLLOW') for line in grammar.order))
    out += method('is_empty(line: Line) -> bool', ['table', 'empty'], by_line((line, 'true' if grammar.empty[line] else 'false') for line in grammar.order))
    out[-1] = '}'
    return '\n'.join(out) + '\n'


def write_spec(grammar, crate):
    constants = [words_of_camel(line) + end for line in grammar.order for end in ('', '_FIRST', '_FOLLOW')]
    declared = f'Rattle.{crate}.specs.declared.grammar'
    out = [
        '-- The grammar and its look-ahead, as tools/tables.py writes them from grammar.txt.',
        'use Rattle.std.specs.Prelude.{ℕ, Bool, true, false, List, [], ◌∷◌, map}',
        f'use {declared}.Class.{{Class}}',
        f'use {declared}.Class.TheVariants as class',
        f'use {declared}.Line.{{Line}}',
        f'use {declared}.Line.TheVariants as line',
        f'use {declared}.Action.{{Action}}',
        f'use {declared}.TheConstants.{{' + ', '.join(constants) + '}',
        'use Rattle.c_parser.specs.Rules.{Row, Rules}',
        'use Rattle.c_parser.specs.LookAhead.{Table}',
        '',
        '-- the alternatives of each line',
        'unfoldable pub lines : Line → List (Row Class Line Action)',
    ]
    out += [f'lines line.{line} = map (λ row. row.now) {words_of_camel(line)}' for line in grammar.order]
    out += ['', '-- the classes by number', 'unfoldable pub number : Class → ℕ']
    out += [f'number class.{name} = {i}' for i, name in enumerate(grammar.classes)]
    out += ['', 'unfoldable pub rules : Rules Class Line Action', f'rules = record {{ lines = lines; start = line.{grammar.order[0]}; number = number; name = class.{grammar.names[0]}; type_name = class.{grammar.names[1]} }}']
    for kind, what in (('first', 'what may come first in a line'), ('follow', 'what may come after a line')):
        out += ['', f'-- {what}', f'unfoldable pub {kind} : Line → List Class']
        out += [f'{kind} line.{line} = {words_of_camel(line)}_{kind.upper()}' for line in grammar.order]
    out += ['', '-- whether a line may read nothing', 'unfoldable pub empty : Line → Bool']
    out += [f'empty line.{line} = ' + ('true' if grammar.empty[line] else 'false') for line in grammar.order]
    out += ['', '-- all classes and all lines', 'unfoldable pub classes : List Class', 'classes = ' + ' ∷ '.join('class.' + name for name in grammar.classes) + ' ∷ []']
    out += ['', 'unfoldable pub all_lines : List Line', 'all_lines = ' + ' ∷ '.join('line.' + line for line in grammar.order) + ' ∷ []']
    out += ['', 'unfoldable pub line_number : Line → ℕ']
    out += [f'line_number line.{line} = {i}' for i, line in enumerate(grammar.order)]
    out += ['', 'unfoldable pub table : Table Class Line', 'table = record { first = first; empty = empty; follow = follow; classes = classes; lines = all_lines; line_number = line_number }']
    return '\n'.join(out) + '\n'


def write_proof(grammar, crate):
    declared = f'Rattle.{crate}.specs.declared.grammar'
    out = [
        '-- The look-ahead is right: the test of it computes to yes.',
        'use Rattle.std.proofs.Common.{◌≡◌, true, Some, refl}',
        f'use {declared}.Class.{{Class}}',
        f'use {declared}.Class.TheVariants as class',
        f'use {declared}.Line.{{Line}}',
        f'use {declared}.Line.TheVariants as line',
        f'use Rattle.{crate}.specs.Grammar.{{lines, number, rules, first, follow, empty, classes, all_lines, line_number, table}}',
        'use Rattle.c_parser.specs.LookAhead.{nth, table_holds, IsRight}',
        '',
        'class_at : (c : Class) → nth table.classes (rules.number c) ≡ Some c',
        'unfolding rules table number classes',
    ]
    out += [f'class_at class.{name} = refl' for name in grammar.classes]
    out += ['', 'line_at : (l : Line) → nth table.lines (table.line_number l) ≡ Some l', 'unfolding table line_number all_lines']
    out += [f'line_at line.{line} = refl' for line in grammar.order]
    out += ['', 'holds : table_holds rules table ≡ true', 'unfolding rules table lines number first follow empty classes all_lines line_number', 'holds = refl', '']
    out += ['pub is_right : IsRight rules table', 'is_right = record { class_at = class_at; line_at = line_at; holds = holds }']
    return '\n'.join(out) + '\n'


def main():
    if len(sys.argv) != 3:
        raise SystemExit(__doc__)
    folder, type_name = sys.argv[1].rstrip('/'), sys.argv[2]
    crate = os.path.basename(os.path.abspath(folder))
    grammar = Grammar(open(folder + '/grammar.txt').read())
    for path, text in (
        ('src/grammar.rt', write_rust(grammar, crate, type_name)),
        ('specs/Grammar.antt', write_spec(grammar, crate)),
        ('specs/GrammarHolds.antt', write_proof(grammar, crate)),
    ):
        open(f'{folder}/{path}', 'w').write(text)
    print(f'{len(grammar.order)} lines, {sum(len(grammar.lines[line]) for line in grammar.order)} alternatives, {len(grammar.actions)} actions, {len(grammar.classes)} classes')
    clashes = grammar.clashes()
    for clash in clashes:
        print(clash)
    sys.exit(1 if clashes else 0)


if __name__ == '__main__':
    main()
