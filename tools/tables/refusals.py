"""The names of the numbers of refusal, by which C, Rust and Python call them. What each means stands in docs/refusals.md."""

# The answer of a call that refuses nothing.
PASSES = 'PASSES'

NAMES = {
    1: 'UNLAWFUL_CONFIG',
    2: 'WRONG_LENGTH',
    3: 'OUT_OF_RANGE',
    4: 'PC_OUTSIDE',
    5: 'NO_ROW',
    6: 'OPTION_OFF',
    7: 'BEYOND_LIMIT',
    8: 'SPECIAL_MODE',
    9: 'PORT_TURNAROUND',
    10: 'STACK_FULL',
    11: 'STACK_EMPTY',
    12: 'BANK_OUTSIDE',
    13: 'DATA_ADDRESS',
    14: 'NO_INPUT',
    15: 'LOG_FULL',
    16: 'BUDGET',
    17: 'RULE_BROKEN',
    18: 'PAGE_FULL',
    19: 'FILE_LENGTH',
    20: 'BLOCK_NUMBER',
    21: 'BLOCK_CHECK',
    22: 'FILLING',
    23: 'TEXT_TOO_LONG',
    24: 'LABEL_REPEATED',
    25: 'LABEL_UNKNOWN',
    26: 'LINE_FORM',
    27: 'INDEX_NOT_LOADED',
    36: 'SOURCE_TOO_LONG',
}


def meanings(page):
    """number -> meaning, from the table of docs/refusals.md: of each number its first line."""
    found = {}
    for line in page.splitlines():
        cells = [cell.strip() for cell in line.split('|')]
        if len(cells) > 2 and cells[1].isdigit():
            found.setdefault(int(cells[1]), cells[2])
    return found


def camel(name):
    """A name as Rust writes a variant: PC_OUTSIDE is PcOutside."""
    return ''.join(part.capitalize() for part in name.split('_'))
