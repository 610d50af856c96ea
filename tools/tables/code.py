"""The tables of rows as code: flat columns of numbers, the numbers' names, each row's template, and the C header."""
from . import lookup
from .rows import CLASSES, COLUMNS, INDEX, IRQ_SWITCH, MARKS, MISC, NO_ROW, NUMBER, OPTIONS, PARTS, PORT, ROWS, UPPER_BYTES, packed
from .specs import PRELUDE, SPECS, WRITTEN, lines


def name(text): return text.upper().replace('-', '_')


def constants(ty, pairs): return '\n'.join(f'pub const {name(n)}: {ty} = {v};\n' for n, v in pairs)


# what the code names: of the others no line of code speaks
NAMED_ROWS = ['MOVIO-read', 'IRQ-ON', 'IRQ-OFF']
NAMED_PARTS = ['unused', 'flag', 'target', 'count']


def entries(xs, form): return lines(f'    {form % x},' for x in xs)


def numbers():
    """Rows that another field chooses, by their codes (specs/Classes.antt, the lists of codes and rows)."""
    level2 = {r['base'] >> 8 & 0xff: NUMBER[r['name']] for r in ROWS if r['base'] >> 27 == 0b10011}
    misc = {r['base'] >> 16 & 0x7f: NUMBER[r['name']] for r in ROWS if r['base'] >> 23 == 0b111100000}
    def table(rows, count): return entries([rows.get(code, NO_ROW) for code in range(count)], '%d')
    return f'''// The numbers of the rows that code names, in the order of specs/Rows.antt. {WRITTEN}

{constants('u32', [(n, NUMBER[n]) for n in NAMED_ROWS])}
// How many rows there are: a number from here on names none.
pub const ROW_COUNT: u32 = {len(ROWS)};

// The rows of level 2 by their code in bits 15-8; {NO_ROW} names none. Index instructions have codes of their own beside those of the byte instructions.
pub static BYTE_ROWS: [u8; 16] = [
{table(level2, 16)}
];

pub static INDEX_ROWS: [u8; 32] = [
{table(level2, 32)}
];

// The rows of 1111 00000 by bits 22-16.
pub static MISC_ROWS: [u8; 8] = [
{table(misc, 8)}
];
'''


def codes(): return f'''// The numbers of parts, options and marks in a row's packed columns (specs/Codes.antt). {WRITTEN}

// what a part holds

{constants('u32', [(p, PARTS.index(p)) for p in NAMED_PARTS])}
// the options; the last, never, is what is left of a match

{constants('u32', [(o, n) for n, o in enumerate(OPTIONS[:-1])])}
// the weights of the digits and of the marks

{constants('u64', [(c + '-digit', f'0x{16 ** n:x}') for n, c in enumerate(COLUMNS + ['option'])] + [('marks', '0x1000000')])}
// the columns of no row: nothing used, never available

pub const NO_ROW: u64 = 0x{OPTIONS.index('never') << 20:x};

// the weights of a mark among the marks

{constants('u64', [(m[0], 1 << n) for n, m in enumerate(MARKS)])}'''


def actions(): return f'''// The numbers of the actions: kind, operation and operand of a row in one (specs/Actions.antt). The last,
// {name(lookup.action_name(lookup.ACTIONS[-1]))}, is what is left of a match. {WRITTEN}

{constants('u32', [(lookup.action_name(a), n) for n, a in enumerate(lookup.ACTIONS[:-1])])}'''


def classes(): return f'''// The class of a word by its bits 31 to 23 (specs/Classes.antt): a row, or one of these. {WRITTEN}

{constants('u32', [('index', INDEX), ('upper-bytes', UPPER_BYTES), ('port', PORT), ('irq-switch', IRQ_SWITCH), ('misc', MISC), ('none', NO_ROW)])}
// The class of each value.
pub static CLASSES: [u8; 512] = [
{entries(CLASSES, '%d')}
];
'''


def columns(): return f'''// The rows as columns of numbers, in the order of specs/Rows.antt. {WRITTEN}

// The word of each row with all parts zero.
pub static BASES: [u32; {len(ROWS)}] = [
{entries([r['base'] for r in ROWS], '0x%08x')}
];

// Each row's entry (specs/Actions.antt); past the rows none, which every word is refused by.
pub static ENTRIES: [u32; 256] = [
{entries([lookup.entry(r) for r in ROWS] + [0] * (256 - len(ROWS)), '0x%08x')}
];

// Each row's other columns, packed (specs/Packed.antt).
pub static ROWS: [u64; {len(ROWS)}] = [
{entries([packed(r) for r in ROWS], '0x%016x')}
];
'''


def templates(): return f'''// The template of each row (specs/Templates.antt). {WRITTEN}

pub static TEMPLATES: [u32; {len(ROWS)}] = [
{entries([lookup.template(r) for r in ROWS], '0x%08x')}
];
'''


def header(): return f'''/* The numbers of the rows, in the order of crates/words/specs/Rows.antt. {WRITTEN} */
#ifndef YAM_ROWS_H
#define YAM_ROWS_H
{lines(f'#define YAM_ROW_{name(n)} {i}' for n, i in NUMBER.items())}
/* How many rows there are: a number from here on names none. */
#define YAM_ROW_COUNT {len(ROWS)}
#endif
'''


def write(words, cells, include):
    for file, text in (('numbers', numbers()), ('codes', codes()), ('actions', actions()), ('classes', classes()), ('columns', columns())):
        (words / 'src' / f'{file}.rt').write_text(text)
    (cells / 'src' / 'templates.rt').write_text(templates())
    (include / 'yam_rows.h').write_text(header())
