#!/usr/bin/env python3
"""Writes the numbers of values that the lines of a grammar need and leave: python3 tools/effects.py GRAMMAR_CRATE CRATE

Reads crates/GRAMMAR_CRATE/grammar.txt and crates/CRATE/effects.txt. A line `stack = path` of the latter says where a stack
stands in what was read; a line `Action: STACK .. -> STACK ..` has the stacks from which an action takes a value, and those
on which it leaves one, a word for each value. Writes, in crates/CRATE (run `rt fmt` there afterwards),

    specs/StackEffects    the tables: of each action, and of each line, solved from the alternatives
    specs/EffectsHold     the test that each alternative of each line leaves what the line leaves, which computes
    specs/Sizes           how many values stand on each stack
    proofs/ActionEffects  each action finds the values that it takes, and leaves those that it gives

What it writes needn't be believed: a wrong table is refused by the test, or by the proof of its action.
"""
import re
import sys
from collections import Counter


def read_grammar(path):
    lines, current = {}, None
    for text in open(path):
        text = text.split('#')[0].strip()
        if not text or text.startswith(('classes ', 'names ')):
            continue
        if text.startswith('|'):
            lines[current].append(text[1:].split())
        else:
            current, parts = (part.strip() for part in text.split('=', 1))
            lines[current] = [parts.split()]
    return lines


def read_effects(path):
    effects = {}
    for text in open(path):
        text = text.split('#')[0].strip()
        if ':' in text:
            action, change = text.split(':')
            taken, given = change.split('->')
            effects[action] = (taken.split(), given.split())
    return effects


def effect(part, effects, lines, net, need):
    """What a part of a row takes and gives, or None where it isn't known yet."""
    if part.startswith('<'):
        taken, given = effects[part[1:-1]]
        return Counter(taken), Counter(given)
    if part in lines:
        if net[part] is None:
            return None
        given = Counter(need[part])
        given.update(net[part])
        return Counter(need[part]), given
    return Counter(), Counter()


def row_net(row, effects, lines, net):
    total = Counter()
    for part in row:
        found = effect(part, effects, lines, net, {line: Counter() for line in lines})
        if found is None:
            return None
        total.subtract(found[0])
        total.update(found[1])
    return {stack: n for stack, n in total.items() if n}


def row_need(row, effects, lines, net, need):
    have, wanted = Counter(), Counter()
    for part in row:
        taken, given = effect(part, effects, lines, net, need)
        for stack, n in taken.items():
            if have[stack] < n:
                wanted[stack] += n - have[stack]
                have[stack] = n
            have[stack] -= n
        have.update(given)
    return wanted


def solve(lines, effects):
    net = {line: None for line in lines}
    changed = True
    while changed:
        changed = False
        for line in lines:
            for row in lines[line]:
                if net[line] is None:
                    net[line] = row_net(row, effects, lines, net)
                    changed |= net[line] is not None
    for line in lines:
        for row in lines[line]:
            if row_net(row, effects, lines, net) != net[line]:
                sys.exit(f'{line}: `{" ".join(row)}` leaves other values than the alternatives before it')
    need = {line: Counter() for line in lines}
    changed = True
    while changed:
        changed = False
        for line in lines:
            for row in lines[line]:
                for stack, n in row_need(row, effects, lines, net, need).items():
                    if need[line][stack] < n:
                        need[line][stack] = n
                        changed = True
    left = {}
    for line in lines:
        left[line] = Counter(need[line])
        left[line].update(net[line])
    return need, left


def read_paths(path):
    """Where each stack stands in what was read."""
    pairs = (text.split('#')[0].split('=') for text in open(path) if '=' in text.split('#')[0])
    return {stack.strip(): place.strip() for stack, place in pairs}


def words(counter, stacks):
    return ''.join(f'{name} ∷ ' * counter[key] for key, name in stacks) + '[]'


def stack_effects(grammar, lines, effects, stacks):
    need, left = solve(lines, effects)
    actions = []
    for rows in lines.values():
        for row in rows:
            actions += [p[1:-1] for p in row if p.startswith('<') and p[1:-1] not in actions]
    out = f'''-- Written by tools/effects.py from effects.txt and the grammar: which stacks each action takes values from and leaves
-- values on, and which values each line of the grammar needs and leaves.
use Rattle.std.specs.Prelude.{{List, [], ◌∷◌}}
use Rattle.{grammar}.specs.declared.grammar.Action.{{Action}}
use Rattle.{grammar}.specs.declared.grammar.Action.TheVariants as action
use Rattle.{grammar}.specs.declared.grammar.Line.{{Line}}
use Rattle.{grammar}.specs.declared.grammar.Line.TheVariants as line

pub data Stack : Type 0 where
'''
    out += ''.join(f'  {name} : Stack\n' for _, name in stacks)
    out += '\nabbrev pub stacks : List Stack\nstacks =\n    ' + ' ∷ '.join(name for _, name in stacks) + ' ∷ []\n'

    def table(comment, name, domain, kind, entries):
        text = f'\n-- {comment}\nunfoldable pub {name} : {domain} → List Stack\n'
        return text + ''.join(f'{name} {kind}.{key} = {words(value, stacks)}\n' for key, value in entries)

    out += table('an action takes a value from each of these', 'taken', 'Action', 'action', [(a, Counter(effects[a][0])) for a in actions])
    out += table('and leaves one on each of these', 'given', 'Action', 'action', [(a, Counter(effects[a][1])) for a in actions])
    out += table('a line needs a value on each of these', 'needed', 'Line', 'line', [(l, need[l]) for l in lines])
    out += table('and then leaves one on each of these', 'left', 'Line', 'line', [(l, left[l]) for l in lines])
    return out


def effects_hold(grammar, crate, names):
    numbers = ''.join(f'stack_number {name} = {n}\n' for n, name in enumerate(names))
    places = ''.join(f'stack_at {name} = refl\n' for name in names)
    return f'''-- Each alternative of each line of the grammar leaves the values that the line leaves.
use Rattle.std.specs.Prelude.{{◌≡◌, ℕ, zero, suc, Bool, true, ◌==◌, List, [], ◌∷◌, Some, refl, if◌then◌else◌}}
use Rattle.c_parser.specs.LookAhead.{{nth}}
use Rattle.stack_effects.specs.Effects.{{Effects, balances}}
use Rattle.{grammar}.specs.declared.grammar.Action.{{Action}}
use Rattle.{grammar}.specs.declared.grammar.Line.{{Line}}
use Rattle.{grammar}.specs.Grammar.{{rules, table, lines, number, first, follow, empty, classes, all_lines, line_number}}
use Rattle.{crate}.specs.StackEffects.{{Stack, {', '.join(names)}, stacks, taken, given, needed, left}}

unfoldable pub stack_number : Stack → ℕ
{numbers}
-- how often a stack is named
unfoldable pub times : Stack → List Stack → ℕ
times i [] = zero
times i (j ∷ js) = if stack_number i == stack_number j then suc (times i js) else times i js

unfoldable pub effects : Effects Line Action Stack
effects = record {{
  takes = λ a i. times i (taken a);
  gives = λ a i. times i (given a);
  needs = λ l i. times i (needed l);
  leaves = λ l i. times i (left l);
}}

pub stack_at : (i : Stack) → nth stacks (stack_number i) ≡ Some i
unfolding stack_number
{places}
pub holds : balances effects rules table stacks ≡ true
unfolding effects times stack_number taken given needed left rules table lines number first follow empty classes all_lines line_number
holds = refl
'''


def sizes_of(crate, names, places):
    sizes = ''.join(f'size v {name} = count v.{place}\n' for name, place in zip(names, places))
    return f'''-- How many values stand on each stack.
use Rattle.std.specs.Prelude.{{ℕ, zero, suc, List, [], ◌∷◌}}
use Rattle.file_actions.specs.Stacks.{{Values}}
use Rattle.{crate}.specs.StackEffects.{{Stack, {', '.join(names)}}}

abbrev pub count : {{X : Type 0}} → List X → ℕ
count [] = zero
count (x ∷ xs) = suc (count xs)

-- by stack
abbrev pub size : Values → Stack → ℕ
{sizes}'''


def action_effects(grammar, crate, effects, stacks, paths):
    names = [name for _, name in stacks]
    premises = ' → '.join(f'f {name} ≡ g {name}' for name in names)
    variables = ' '.join(f'x{n}' for n in range(len(names)))
    clauses = ''.join(f'by_stack f g {variables} {name} = x{n}\n' for n, name in enumerate(names))
    out = f'''-- Written by tools/effects.py: each action finds the values that it takes, and leaves those that it gives.
use Rattle.std.proofs.Common.{{◌≡◌, ℕ, zero, suc, List, [], ◌∷◌, refl, ap, Option, Some, None}}
use Rattle.rvt_tree.specs.declared.places.Place.{{Place}}
use Rattle.c_tokens.specs.declared.tokens.TokenClass.{{TokenClass}}
use Rattle.{grammar}.specs.declared.grammar.Action.{{Action}}
use Rattle.{grammar}.specs.declared.grammar.Action.TheVariants as action
use Rattle.stack_effects.specs.Effects.{{less, more}}
use Rattle.file_actions.specs.Made.{{made}}
use Rattle.file_actions.specs.Stacks.{{Values}}
use Rattle.{crate}.specs.EffectsHold.{{times, stack_number}}
use Rattle.{crate}.specs.Sizes.{{count, size}}
use Rattle.{crate}.specs.StackEffects.{{Stack, {', '.join(names)}, taken, given}}

-- what an action takes stands on the stacks, and this is left of them
abbrev pub Has : Action → Values → (Stack → ℕ) → Type 0
Has a v left = (i : Stack) → less (times i (taken a)) (size v i) ≡ Some (left i)

-- something was made, and the stacks hold so much
abbrev pub Gives : Option Values → (Stack → ℕ) → Type 0
Gives None after = ⊥
Gives (Some v) after = (i : Stack) → size v i ≡ after i

-- what an action gives stands on the stacks too
abbrev pub after : Action → (Stack → ℕ) → Stack → ℕ
after a left i = more (times i (given a)) (left i)

some_is : {{X : Type 0}} {{x y : X}} → Some x ≡ Some y → x ≡ y
some_is h = cc

by_stack : (f g : Stack → ℕ) → {premises} → (i : Stack) → f i ≡ g i
{clauses}
-- a list with one, two or three members at least
record First {{X : Type 0}} (xs : List X) (n : ℕ) : Type 0 where
  one : X
  rest : List X
  is : xs ≡ one ∷ rest
  counted : count rest ≡ n

record Two {{X : Type 0}} (xs : List X) (n : ℕ) : Type 0 where
  one : X
  two : X
  rest : List X
  is : xs ≡ one ∷ two ∷ rest
  counted : count rest ≡ n

record Three {{X : Type 0}} (xs : List X) (n : ℕ) : Type 0 where
  one : X
  two : X
  three : X
  rest : List X
  is : xs ≡ one ∷ two ∷ three ∷ rest
  counted : count rest ≡ n

first_of : {{X : Type 0}} (xs : List X) (n : ℕ) → less 1 (count xs) ≡ Some n → First xs n
first_of [] n h = absurd cc
first_of (x ∷ xs) n h = record {{ one = x; rest = xs; is = refl; counted = some_is h }}

two_of : {{X : Type 0}} (xs : List X) (n : ℕ) → less 2 (count xs) ≡ Some n → Two xs n
two_of [] n h = absurd cc
two_of (x ∷ []) n h = absurd cc
two_of (x ∷ y ∷ xs) n h = record {{ one = x; two = y; rest = xs; is = refl; counted = some_is h }}

three_of : {{X : Type 0}} (xs : List X) (n : ℕ) → less 3 (count xs) ≡ Some n → Three xs n
three_of [] n h = absurd cc
three_of (x ∷ []) n h = absurd cc
three_of (x ∷ y ∷ []) n h = absurd cc
three_of (x ∷ y ∷ z ∷ xs) n h = record {{ one = x; two = y; three = z; rest = xs; is = refl; counted = some_is h }}
'''
    for action, (taken, given) in effects.items():
        out += action_effect(action, Counter(taken), Counter(given), stacks, paths)
    return out


def action_effect(action, taken, given, stacks, paths):
    """The lemma of one action: its lists have as many members as it takes, and what is left counts."""
    name = dict(stacks)
    finders = {1: 'first_of', 2: 'two_of', 3: 'three_of'}
    body = 'by_stack _ _'
    for stack, title in stacks:
        counted = f'{stack}_now.counted' if stack in taken else f'(some_is (h {title}))'
        for _ in range(given[stack]):
            counted = f'(ap suc {counted})'
        body += ' ' + counted
    for stack in reversed(list(taken)):
        body = f'rw {stack}_now.is ({body})'
    lets = ''.join(
        f'    let {stack}_now = {finders[taken[stack]]} v.{paths[stack]} (left {name[stack]}) (h {name[stack]}) in\n' for stack in taken
    )
    return f'''
pub on_{action} : (class : TokenClass) (text : List ℕ) (place : Place) (v : Values) (left : Stack → ℕ) → Has action.{action} v left → Gives (made action.{action} class text place v) (after action.{action} left)
unfolding times stack_number taken given
on_{action} class text place v left h =
{lets}    {body}
'''


def main():
    grammar, crate = sys.argv[1], sys.argv[2]
    lines = read_grammar(f'crates/{grammar}/grammar.txt')
    effects = read_effects(f'crates/{crate}/effects.txt')
    paths = read_paths(f'crates/{crate}/effects.txt')
    stacks = [(stack, stack.title()) for stack in paths]
    names = [name for _, name in stacks]
    written = {
        'specs/StackEffects': stack_effects(grammar, lines, effects, stacks),
        'specs/EffectsHold': effects_hold(grammar, crate, names),
        'specs/Sizes': sizes_of(crate, names, paths.values()),
        'proofs/ActionEffects': action_effects(grammar, crate, effects, stacks, paths),
    }
    for name, text in written.items():
        open(f'crates/{crate}/{name}.antt', 'w').write(text)


main()
