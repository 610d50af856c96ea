"""The tables of rows as specifications: what a reader believes (Kinds, Frames, Rows, Numbers), and the numbers of the packed tables (Codes, Actions)."""
import re

from . import lookup
from .rows import BASE, COLUMNS, CONDITIONS, FORMS, KINDS, MARKS, OPERANDS, OPTIONS, PARTS, ROWS, columns

WRITTEN = 'Written by tools/rows.'
SPECS = 'Rattle.words.specs.'
PRELUDE = 'Rattle.std.specs.Prelude.'
OPERATIONS = 'And Or Xor Add Addc Sub Subc Subs Shl Shr Shra Rotl Rotr Shl16 Abs Clz Bst Bld Blds'.split()


def lines(xs): return '\n'.join(xs)


def use(module, names): return f'use {SPECS}{module}.{{{", ".join(names)}}}'


def prelude(names): return f'use {PRELUDE}{{{", ".join(names.split())}}}'


LISTS = 'List [] ◌∷◌'
USE_PARTS = use('Parts', ['Part'] + PARTS)
USE_OPTIONS = use('Parts', ['Option'] + OPTIONS)
USE_KINDS = use('Kinds', ['Kind'] + [k[0] for k in KINDS])
USE_OPERANDS = use('Kinds', ['Operand'] + [o[0] for o in OPERANDS])
USE_CONDITIONS = use('Kinds', ['Condition', *CONDITIONS[1:]])
USE_FORMS = use('declared.Form.TheVariants', FORMS)
USE_OPERATIONS = use('declared.Operation.TheVariants', OPERATIONS)


def arrows(arguments, result): return ' → '.join([a.replace('→', ' → ') for a in arguments.split()] + [result])


def pattern(name, arguments):
    """The constructor with a variable for each argument."""
    bound = ' '.join('abc'[:len(arguments.split())])
    return f'({name} {bound})' if bound else name


def listed(names): return ' ∷ '.join(names + ['[]'])


def framed(base, used): return ' '.join([base] + [f'plus {c.upper()} ≔ {used[c]}' for c in COLUMNS if c in used])


def kinds(): return f'''-- What an instruction does: its kind, which a step goes by; and what rules, stops and cycles ask of a kind. {WRITTEN}
{prelude('ℕ ' + LISTS)}
{use('declared.Form', ['Form'])}
{use('declared.Operation', ['Operation'])}

-- the second operand
pub data Operand : Type 0 where
{lines(f'  {n} : {arrows(a, "Operand")}  -- {w}' for n, a, _, _, w in OPERANDS)}

-- conditions of JMP, bits 26-23 from 1 on
pub data Condition : Type 0 where
  {' '.join(CONDITIONS[1:])} : Condition

pub data Kind : Type 0 where
{lines(f'  {n} : {arrows(a, "Kind")}  -- {w}' for n, a, _, _, w in KINDS)}

-- what rules, stops and cycles ask
pub data Mark : Type 0 where
{lines(f'  {m} : Mark  -- {w}' for m, _, w in MARKS)}
  deriving Discrete as Mark-discrete

unfoldable pub marks_of : Kind → List Mark
{lines(f'marks_of {pattern(n, a)} = {listed(m.split())}' for n, a, _, m, _ in KINDS)}
'''


def frames(): return f'''-- What the parts of a word hold, by the kind of its row: document 01, 'Words', and the main frames of
-- manual 5.17.1. {WRITTEN}
use Rattle.laws.specs.Choice.{{decided, swapped}}
{USE_PARTS}
{USE_OPERANDS}
{USE_KINDS}

-- the parts by where they stand: bit 26; a number in the low bits of 31-23; bits 22-16; bits 6-0; the
-- value, in bits 15-0, of a target in 22-0
pub record Frame : Type 0 where
{lines(f'  pub {c} : Part' for c in COLUMNS)}

pub data Column : Type 0 where
  {' '.join(c.upper() for c in COLUMNS)} : Column
  deriving Discrete as Column-discrete

-- no part is used
abbrev pub bare : Frame
bare = record {{ {'; '.join(f'{c} = unused' for c in COLUMNS)} }}

-- a frame with one column more
infixl 5 ◌plus◌≔◌
abbrev pub ◌plus◌≔◌ : Frame → Column → Part → Frame
f plus c ≔ p =
    let here : Column → Part → Part = λ d q. swapped (decided (Column-discrete c d)) p q in
    record {{
{lines(f'      {c} = here {c.upper()} f.{c};' for c in COLUMNS)}
    }}

abbrev pub operand_frame : Operand → Frame
{lines(f'operand_frame {pattern(n, a)} = {framed("bare", {c: p})}' for n, a, c, p, _ in OPERANDS)}

abbrev pub frame_of : Kind → Frame
{lines(f'frame_of {pattern(n, a)} = {framed(frame_base(a), columns(c))}  -- {w.split(":")[0]}' for n, a, c, _, w in KINDS)}
'''


def frame_base(arguments):
    """The operand's frame where a kind has one."""
    names = arguments.split()
    return f'operand_frame {"abc"[names.index("Operand")]}' if 'Operand' in names else 'bare'


def named_alone(r):
    """Whether a row's number has a name: the rows of TST to MUL are counted from 0, those of the conditions from the first."""
    counted = any(r['name'].startswith(op + '-') for op in BASE) or r['name'].startswith('JMP')
    return not counted or r['name'].endswith('ALWAYS')


def numbers(): return f'''-- The numbers of the rows, in the order of Rows. {WRITTEN}
{prelude('ℕ')}

''' + '\n'.join(f'abbrev pub {r["name"]} : ℕ\n{r["name"]} = {n}\n' for n, r in enumerate(ROWS) if named_alone(r))


def kind_text(kind): return kind[0] if len(kind) == 1 else f'({" ".join(kind)})'


def row_line(r):
    head = '    %s 0x%08x ' % ('row' if r['kind'] != ('unsupported',) else 'unsupported_row', r['base'])
    frame = framed('bare', r['used'])
    rest = f'{r["option"]} {kind_text(r["kind"])}' if r['kind'] != ('unsupported',) else f'({frame})' if r['used'] else frame
    return f'{head}{rest} ∷  -- {r["text"]}'


def rows(): return f'''-- The rows of the instruction tables: document 01, 'Words', and manual 5.17.4 to 5.17.9, a line each, unsupported rows included. {WRITTEN}
{prelude('ℕ ' + LISTS + ' get_or')}
{USE_FORMS}
{USE_OPERATIONS}
{USE_PARTS}
{USE_OPTIONS}
{USE_OPERANDS}
{USE_CONDITIONS}
{USE_KINDS}
{use('Frames', ['Frame', 'Column'] + [c.upper() for c in COLUMNS] + ['bare', '◌plus◌≔◌', 'frame_of'])}

-- A row: its word with all parts zero; what each part holds; the option that it needs; what its instructions do.
pub record Row : Type 0 where
  pub base : ℕ
{lines(f'  pub {c} : Part' for c in COLUMNS)}
  pub option : Option
  pub kind : Kind

abbrev pub framed : ℕ → Frame → Option → Kind → Row
framed b f o k =
    record {{
      base = b;
{lines(f'      {c} = f.{c};' for c in COLUMNS)}
      option = o;
      kind = k;
    }}

-- base, option, kind: the kind says what the parts hold
abbrev pub row : ℕ → Option → Kind → Row
row b o k = framed b (frame_of k) o k

-- base, frame: a row that no configuration has
abbrev pub unsupported_row : ℕ → Frame → Row
unsupported_row b f = framed b f never unsupported

-- how many rows there are; a number from here on names none
abbrev pub row_count : ℕ
row_count = {len(ROWS)}

abbrev pub no_row : Row
no_row = unsupported_row 0 bare

unfoldable pub rows : List Row
rows =
{lines(row_line(r) for r in ROWS)}
    []

unfoldable pub row_at : ℕ → Row
row_at n = get_or rows n no_row
'''


# The conditions that some configuration has, by their codes.
CODED = CONDITIONS[-1:] + CONDITIONS[1:7]


def by_number(of, ty, names, numbers): return lines([f'unfoldable pub {of} : {ty} → ℕ'] + [f'{of} {n} = {i}' for n, i in zip(names, numbers)])


def codes(): return f'''-- The numbers that stand for parts, options, marks, forms and conditions in the tables that code holds. Nothing here is to be believed: a number that is read
-- back gives what it stands for. {WRITTEN}
{prelude('ℕ ◌+◌ ' + LISTS + ' get_or')}
{use('declared.Form', ['Form'])}
{USE_FORMS}
{USE_PARTS}
{USE_OPTIONS}
{use('Kinds', ['Condition', *CODED[1:], CODED[0]])}
{use('Kinds', ['Mark'] + [m[0] for m in MARKS])}

{by_number('part_code', 'Part', PARTS, range(len(PARTS)))}

abbrev pub parts : List Part
parts = {listed(PARTS[:-1])}

-- any other number is read as {PARTS[-1]}
unfoldable pub part_at : ℕ → Part
part_at n = get_or parts n {PARTS[-1]}

{by_number('option_code', 'Option', OPTIONS, range(len(OPTIONS)))}

abbrev pub options : List Option
options = {listed(OPTIONS[:-1])}

-- any other number is read as {OPTIONS[-1]}
unfoldable pub option_at : ℕ → Option
option_at n = get_or options n {OPTIONS[-1]}

abbrev pub conditions : List Condition
conditions = {listed(CODED)}

-- the entries of rows that have no condition, or one that no configuration has, are not asked for it
unfoldable pub condition_at : ℕ → Condition
condition_at n = get_or conditions n {CODED[0]}

unfoldable pub form_at : ℕ → Form
form_at n = get_or ({listed(FORMS[:-1])}) n {FORMS[-1]}

{by_number('weight', 'Mark', [m[0] for m in MARKS], [1 << i for i in range(len(MARKS))])}

abbrev pub weights : List Mark → ℕ
weights [] = 0
weights (m ∷ ms) = weight m + weights ms
'''


def actions(): return f'''-- How code looks a row up: tables that only the proofs need to agree with (proofs/Lookup.antt); nothing here is to be believed. {WRITTEN}
{prelude('ℕ ' + LISTS)}
{use('declared.Form', ['Form'])}
{USE_FORMS}
{USE_OPERATIONS}
{USE_PARTS}
{USE_OPTIONS}
{USE_OPERANDS}
{USE_CONDITIONS}
{USE_KINDS}

-- which parts of a word an action reads

{lines(f"abbrev pub {u}' : ℕ{chr(10)}{u}' = {1 << i}{chr(10)}" for i, u in enumerate(lookup.USES))}
-- An action: a kind but for the form of its immediate and its condition, and the parts that it reads, by their marks added up.
pub record Action : Type 0 where
  pub does : Form → Condition → Kind
  pub uses : ℕ

abbrev pub action : (Form → Condition → Kind) → ℕ → Action
action does uses = record {{ does = does; uses = uses }}

unfoldable pub actions : List Action
actions =
{lines(f'    action (λ f c. {a}) {sum(1 << lookup.USES.index(u) for u in lookup.uses(a))} ∷  -- {lookup.action_name(a)}' for a in lookup.ACTIONS)}
    []

-- A check: the code in bits 22-0, what bits 22-16 and 15-0 hold beside it, the option, and whether there is a byte number.
pub record Check : Type 0 where
  pub code : ℕ
  pub upper : Part
  pub lower : Part
  pub option : Option
  pub numbered : ℕ

abbrev pub check : ℕ → Part → Part → Option → ℕ → Check
check code upper lower option numbered =
    record {{ code = code; upper = upper; lower = lower; option = option; numbered = numbered }}

-- the first refuses everything
unfoldable pub checks : List Check
checks =
    check 0 unused unused never 0 ∷
{lines('    check 0x%x %s %s %s %d ∷' % c for c in lookup.CHECKS[1:])}
    []

-- a row's check, its condition, the form of its immediate and its action, as digits of one number
unfoldable pub entries : List ℕ
entries =
{lines('    0x%08x ∷  -- %s' % (lookup.entry(r), r['text']) for r in ROWS)}
    []
'''


def trimmed(text):
    """Without the imported names that are not used."""
    body = '\n'.join(line.split('--')[0] for line in text.split('\n') if not line.startswith('use '))
    body = re.sub(r'^ +(pub )?\w+ (: |= (?=.*;$))|\.\w+', ' ', body, flags=re.MULTILINE)  # the fields of records
    words = set(re.findall(r'[^\s(){}.,;]+', body)) | {name for name in ('◌plus◌≔◌',) if name.split('◌')[1] in body}

    def kept(line):
        if not line.startswith(f'use {SPECS}'): return line
        head, names = line.rstrip('}').split('{')
        names = [name for name in names.split(', ') if name in words]
        return f'{head}{{{", ".join(names)}}}' if names else None

    return '\n'.join(line for line in map(kept, text.split('\n')) if line is not None)


def write(folder):
    for name, text in (('Kinds', kinds()), ('Frames', frames()), ('Numbers', numbers()), ('Rows', rows()), ('Codes', codes()), ('Actions', actions())):
        (folder / f'{name}.antt').write_text(trimmed(text))
