"""The forms of lines, by which the assembler reads: as code holds them, and where to look for the form of a line."""
from .lookup import supported
from .rows import ROWS, part
from .shapes import SHAPES, column, lines

# In a form: bytes of its pattern, and of all of it (crates/assembler/specs/Packed.antt).
PATTERN, ENTRY = 16, 32
ANY_DIGIT = 'a'  # in a pattern: no text has a small letter of its own


def form(row, bit26, number):
    """A form of line: its pattern; and its bytes, the pattern, its length, row, bit 26 and byte number, and the place and width of each part in it."""
    r, (name, operands, condition) = ROWS[row], SHAPES[row]
    pattern, places = name + (str(number) if part(r, 'number') == 'byte' else ''), {}
    for separator, (_, mark, width, shown) in zip(' ,', operands):
        pattern += separator + mark
        shown, width, last = ('destination', 2, '0') if shown == 'offset' else (shown, width, '')  # 16 times the unit: its digits and a 0
        places[shown] = [len(pattern), width]
        pattern += ANY_DIGIT * width + last
    if condition: pattern += ',' + condition
    if part(r, 'flag') == 'flag' and bit26 == 0: pattern += ',S'
    numbers = [len(pattern), row, bit26, number]
    for shown in ('destination', 'source', 'value'): numbers += places.get(shown, [len(pattern), 0])
    assert len(pattern) <= PATTERN
    return pattern, (pattern.encode().ljust(PATTERN, b'\0') + bytes(numbers)).ljust(ENTRY, b'\0')


FORMS = [form(row, bit26, number) for row, r in enumerate(ROWS) if supported(r)
         for bit26 in range(2 if part(r, 'flag') == 'flag' else 1) for number in range(4 if part(r, 'number') == 'byte' else 1)]

# The key of a line, which crates/assembler/src/forms.rt computes with the same numbers. The factors were found by trial, so that few forms share a key: 162 of
# 186 have none before them. Nothing but speed rests on them.
KEYS, START_FACTOR, SHAPE_FACTOR, DIVISOR = 512, 103768835, 904827101, 0x100000


def key(pattern):
    """The key of a form's lines: specs/Heads.antt's key_of of the pattern, as any digit counts as 0."""
    def mark(j): return ord(pattern[-j]) if j <= len(pattern) and pattern[-j] not in '0123456789abcdef' else 0

    start = int.from_bytes(pattern[:4].encode(), 'little')
    shape = len(pattern) + 0x100 * mark(5) + 0x10000 * mark(7)
    return (START_FACTOR * start + SHAPE_FACTOR * shape) // DIVISOR % KEYS


HEADS, LINKS = [0] * KEYS, []
for number, (pattern, _) in enumerate(FORMS, 1):
    LINKS.append(HEADS[key(pattern)])
    HEADS[key(pattern)] = number


def heads():
    return f"""-- Where to look for the form of a line: for each key the last form that has it, counted from 1, and for each form the one before it with the same key. Nothing
-- here is to be believed: proofs/Heads.antt shows that each form is found by the key of its lines. Written by tools/texts.
use Rattle.std.specs.Prelude.{{ℕ, ◌+◌, ◌*◌, ◌/◌, ◌%◌, List, [], ◌∷◌, length, get_or}}
use Rattle.laws.specs.Choice.{{pick}}
use Rattle.syntax.specs.Pieces.{{is_hex}}
use Rattle.assembler.specs.Bytes.{{byte_before}}

-- a byte that is no digit; 0 for every digit
unfoldable pub mark_of : ℕ → ℕ
mark_of b = pick (is_hex b) 0 b

-- from a line's first four bytes, which are digits in no form, its length, and two bytes where marks stand
unfoldable pub key_of : List ℕ → ℕ
key_of l =
    let start = get_or l 0 0 + 0x100 * get_or l 1 0 + 0x10000 * get_or l 2 0 + 0x1000000 * get_or l 3 0 in
    let shape = length l + 0x100 * mark_of (byte_before l 5) + 0x10000 * mark_of (byte_before l 7) in
    ({START_FACTOR} * start + {SHAPE_FACTOR} * shape) / {DIVISOR:#x} % {KEYS}

unfoldable pub head_table : List ℕ
head_table =
{lines([str(q) for q in HEADS], 32)}
unfoldable pub link_table : List ℕ
link_table =
{lines([str(q) for q in LINKS], 32)}"""


def columns():
    out = '// The forms of lines, and where to look for the form of a line, as bytes (specs/Packed.antt, specs/Heads.antt). Written by tools/texts.\n'
    out += column(f'{ENTRY} bytes a form.', 'FORMS', 'u8', [b for _, entry in FORMS for b in entry], 'static')
    out += column('For each form the one before it with the same key, counted from 1; 0 where there is none.', 'LINKS', 'u8', LINKS, 'static')
    out += column('For each key the last form that has it, counted from 1; 0 where there is none.', 'HEADS', 'u8', HEADS, 'static')
    return out


def write(crate):
    (crate / 'specs' / 'Heads.antt').write_text(heads())
    (crate / 'src' / 'columns.rt').write_text(columns())
