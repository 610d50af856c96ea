"""How code looks a row up: its action, one number for kind, operation and operand together, and its check, one number for limits and option.

Nothing here is to be believed: the proofs compare it with the rows."""
from .rows import CONDITIONS, FORMS, ROWS, marks, part


def supported(r): return r['option'] != 'never'


def whole(r): return part(r, 'value') == 'target'


def action(r):
    """The kind, with f for the form of an immediate and c for the condition: those stand in the row's entry."""
    if not supported(r): return 'unsupported'
    return ' '.join('(literal f)' if x.startswith('(literal') else 'f' if x in FORMS else 'c' if x in CONDITIONS else x for x in r['kind'])


def action_name(a):
    """An action is named by its rows: IORMW, TST-register, TST-immediate, JMP-condition."""
    if a == 'unsupported': return a
    names = [r['name'] for r in ROWS if action(r) == a]
    if len(names) == 1: return names[0]
    stem, _ = names[0].rsplit('-', 1)
    return stem + ('-condition' if names[0].startswith('JMP') else '-immediate')


def check(r):
    """Code in bits 22-0, what bits 22-16 and 15-0 hold beside it, option, and whether there is a byte number."""
    if not supported(r): return None
    lower = part(r, 'source') if part(r, 'value') == 'unused' else part(r, 'value')
    return (r['base'] % (1 << 23), part(r, 'destination'), lower, r['option'], int(part(r, 'number') == 'byte'))


def numbered(of, first): return list(dict.fromkeys([first] + [of(r) for r in ROWS]))


ACTIONS, CHECKS = numbered(action, 'unsupported'), numbered(check, None)
assert len(ACTIONS) <= 64 and len(CHECKS) <= 64
# The parts of a word that an action reads.
USES = 'flag destination source number value target unit'.split()


def uses(a):
    if a == 'unsupported': return []
    r = next(r for r in ROWS if action(r) == a)
    found = [column for column, held in (('flag', 'flag'), ('number', 'byte'), ('destination', 'register'), ('source', 'register')) if part(r, column) == held]
    if part(r, 'destination') == 'unit': found.append('unit')
    if whole(r): found.append('target')
    elif part(r, 'value') != 'unused': found.append('value')
    return found


def entry(r):
    """Check, condition, form and action as digits of one number."""
    arguments = ' '.join(r['kind'][1:]).replace('(', ' ').replace(')', ' ').split() if supported(r) else []
    form = next((FORMS.index(x) for x in arguments if x in FORMS), 0)
    condition = next((CONDITIONS.index(x) for x in r['kind'][1:] if x in CONDITIONS), 0)
    return CHECKS.index(check(r)) | condition << 8 | form << 12 | ACTIONS.index(action(r)) << 26


def template(r):
    """What a cell is filled from (crates/cells/specs/Templates.antt)."""
    if not supported(r): return 0
    a, kind, marked = ACTIONS.index(action(r)), r['kind'], marks(r)
    digits = CHECKS.index(check(r)) << 10 | value_source(r) << 16
    if kind[0] in APART: return digits
    digits |= a | sum(1 << 6 + n for n, column in enumerate(('flag', 'destination', 'source')) if column in uses(action(r)))
    digits |= ('loads' in marked) << 9 | taken(kind) << 20 | 2 + ('reads_port' in marked) << 24
    return digits


# The kinds that the machine's loop does not carry out.
APART = {'enter_special': 8, 'leave_special': 9}


def value_source(r):
    """Where the value of a cell comes from, by number (crates/cells/specs/Templates.antt, value_source)."""
    kind, found = r['kind'], uses(action(r))
    if kind[0] in APART: return APART[kind[0]]
    if 'unit' in found: return 7
    if 'number' in found: return 6
    if 'target' in found: return 5
    if 'value' not in found: return 0
    if kind[0] == 'ret_constant': return 1
    form = next((FORMS.index(x) for x in ' '.join(kind[1:]).replace('(', ' ').replace(')', ' ').split() if x in FORMS), None)
    return 4 if form is None else 1 + form


# When a conditional jump is taken, a bit for each value of 2 N + Z.
TAKEN = {'Z': 0b1010, 'NZ': 0b0101, 'GT': 0b0001, 'LT': 0b1100, 'GE': 0b0011, 'LE': 0b1110}


def taken(kind): return TAKEN.get(kind[1], 0) if kind[0].startswith('branch') else 0
