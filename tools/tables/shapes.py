"""The shape of each row's text: its name, operands and condition; and how tables of texts are laid out."""
from .rows import CONDITIONS, ROWS, part

# An operand as a row's text has it: its name in crates/syntax/specs/Operands.antt, and as code prints it, a mark and so many digits of a part.
OPERANDS = {
    '%d': ('%d', '%', 2, 'destination'),
    '%s': ('%s', '%', 2, 'source'),
    '%RY': ('%d', '%', 2, 'destination'),
    '%RX': ('%s', '%', 2, 'source'),
    '@%d': ('at-%d', '@%', 2, 'destination'),
    '@%s': ('at-%s', '@%', 2, 'source'),
    '@%X+': ('at-%X+', '@%X+', 0, 'none'),
    '&a': ('&a', '&', 4, 'value'),
    '#imm': ('#imm', '#', 4, 'value'),
    '>imm': ('>imm', '>', 4, 'value'),
    '<imm': ('<imm', '<', 4, 'value'),
    '#short': ('#short', '#', 2, 'value'),
    '#count': ('#count', '#', 4, 'value'),
    'target': ('target', '', 6, 'value'),
    'address': ('address', '', 4, 'value'),
    'WP': ('offset', '', 3, 'offset'),
    'mask': ('mask', '', 1, 'destination'),
}


def shape(r):
    """A row's name, operands and condition, read off its text."""
    name, _, rest = r['text'].partition(' ')
    operands = rest.split(',') if rest else []
    condition = operands.pop() if operands and operands[-1] in CONDITIONS else ''
    if part(r, 'source') == 'unused': operands = ['%d' if o == '%s' else o for o in operands]  # a source register in bits 22-16
    if part(r, 'number') == 'byte': name = name[:-1]  # N stands for the byte number
    if r['name'] == 'COP': name, operands = 'COP', []
    return name, [OPERANDS[o] for o in operands], condition


SHAPES = [shape(r) for r in ROWS]


def lines(entries, many):
    """Entries of a list, so many a line."""
    return ''.join('    ' + ''.join(e + ' ∷ ' for e in entries[i:i + many]).rstrip() + '\n' for i in range(0, len(entries), many)) + '    []\n'


def column(note, name, kind, entries, item='const'):
    """A table as code, a constant or a static, which rt fmt lays out."""
    return f'\n// {note}\npub {item} {name}: [{kind}; {len(entries)}] = [\n' + ''.join(f'    {e},\n' for e in entries) + '];\n'
