"""The rows of the instruction tables and what is said of them: the one source of every table of rows, in specs, code, header and texts.

A request adds lines and renumbers nothing: a row's number is its place here, and the C interface hands it out (include/yam_rows.h)."""

# What a part of a word holds, and the option that a row needs; their meaning stands in specs/Parts.antt.
PARTS = 'unused flag byte coprocessor register unit mask immediate read_address write_address target count bank_address short'.split()
OPTIONS = 'always mult level1 level2 level2_memory memory ports rmw banks spr never'.split()
FORMS = 'Signed Unsigned Shifted'.split()
CONDITIONS = 'ALWAYS Z NZ GT LT GE LE NIRQ B0 B1 NB0 NB1 BIO'.split()  # JMP's, by bits 26-23
COLUMNS = 'flag number destination source value'.split()

# What rules, stops and cycles ask of a kind: a mark, the fact that code hands on (struct Facts), what it means.
MARKS = [
    ('goes_on', 'next', 'control may go to the next address'),
    ('jumps', 'target', "control may go to the value part's address"),
    ('calls', 'calls', 'pushes the return stack'),
    ('returns', 'returns', 'pops the return stack'),
    ('enters_mode', 'enters', 'switches special-register mode on'),
    ('leaves_mode', 'leaves', 'switches special-register mode off'),
    ('reveals', 'reveals', 'in special-register mode reads the special register that its source names'),
    ('reads_port', 'input', 'reads a port'),
    ('writes_port', 'output', 'writes a port'),
    ('loads', 'load', 'reads data memory'),
    ('stores', 'store', 'writes data memory'),
    ('by_register', 'indirect', 'its data address comes from a register'),
    ('enters_bank', 'tobank', 'JSRWP'),
    ('leaves_bank', 'frombank', 'RETWP'),
    ('barred', 'barred', "barred by the certificate's rule 3"),
    ('by_index', 'index', 'moves the register that RX names: MOVX'),
]

# The second operand: name, argument, its column and what that holds, how the manual writes it.
OPERANDS = [
    ('from_register', '', 'source', 'register', '%s'),
    ('literal', 'Form', 'value', 'immediate', '# signed, > unsigned, < shifted immediate'),
    ('short_literal', '', 'value', 'short', '# short signed immediate'),
    ('counted', '', 'value', 'count', '# shift count'),
]

# What an instruction does: a kind, its arguments, its columns beside its operand's, its marks, the manual's name.
ALU, TO, BOTH = 'flag=flag destination=register', 'destination=register', 'destination=register source=register'
KINDS = [
    ('unsupported', '', '', '', 'no configuration has the row'),
    ('compute', 'Operation Operand', ALU, 'goes_on', '%d gets the result of %d and the operand'),
    ('compare', 'Operation Operand', ALU, 'goes_on', 'flags alone: TST, CMP and CMPS are And, Sub and Subs that write no register'),
    ('multiply', 'Operand', ALU, 'goes_on', 'MUL'),
    ('bytewise', '(ℕ→Operation)', ALU + ' number=byte source=register', 'goes_on', 'BST, BLD, BLDS: the operation of the byte number'),
    ('load_index', '', ALU + ' source=register', 'goes_on', 'LDYX'),
    ('index_store', '', ALU, 'goes_on stores by_register by_index', 'MOVX to DM'),
    ('index_load', '', 'flag=flag source=register', 'goes_on loads by_register by_index', 'MOVX from DM'),
    ('move', '', BOTH, 'goes_on reveals', 'MOV %d,%s'),
    ('load_constant', 'Form', TO + ' value=immediate', 'goes_on', 'MOV %d,immediate'),
    ('load_register', '', BOTH, 'goes_on loads by_register', 'MOV %d,@%s'),
    ('load_direct', '', TO + ' value=read_address', 'goes_on loads', 'MOV %d,&a'),
    ('store_register', '', BOTH, 'goes_on stores by_register', 'MOV @%d,%s'),
    ('store_direct', '', TO + ' value=write_address', 'goes_on stores', 'MOV &a,%s: "source register in 22-16"'),
    ('port_read', '', BOTH, 'goes_on reads_port', 'MOVIO %d,@%s'),
    ('port_modify', '', BOTH, 'goes_on reads_port writes_port', 'IORMW'),
    ('port_write', 'Operand', TO, 'goes_on writes_port', 'MOVIO @%d,operand'),
    ('jump', '', 'value=target', 'jumps', 'JMP target'),
    ('branch', 'Condition', 'value=target', 'goes_on jumps', 'JMP target,condition'),
    ('jump_register', '', TO, 'barred', 'JMP @%d'),
    ('branch_register', 'Condition', TO, 'goes_on barred', 'JMP @%d,condition'),
    ('call', '', 'value=target', 'goes_on jumps calls', 'JSR target'),
    ('call_register', '', TO, 'goes_on calls barred', 'JSR @%d'),
    ('ret', '', '', 'returns', 'RET'),
    ('ret_constant', '', TO + ' value=immediate', 'returns', 'RLD, the signed form'),
    ('enter_bank', '', 'destination=unit value=bank_address', 'enters_bank barred', 'JSRWP'),
    ('leave_bank', '', '', 'leaves_bank barred', 'RETWP'),
    ('enter_special', '', '', 'goes_on enters_mode', 'SPR_ON'),
    ('leave_special', '', '', 'goes_on leaves_mode', 'SPR_OFF'),
]
KIND = {k[0]: k for k in KINDS}


def columns(text): return dict(c.split('=') for c in text.split())


def frame(kind):
    """The columns that a row of this kind uses: its own and its operand's."""
    own = columns(KIND[kind[0]][2])
    operands = [argument.strip('()').split()[0] for argument in kind[1:]]
    own.update((column, part) for name, _, column, part, _ in OPERANDS if name in operands)
    return own


# The rows: name, text as the manual writes it, the word with all parts zero, option, kind with its arguments, columns.
ROWS = []


def row(name, text, base, kind, option='always'):
    ROWS.append(dict(name=name, text=text, base=base, option=option, kind=kind, used=frame(kind)))


def unsupported(name, text, base, used=''):
    ROWS.append(dict(name=name, text=text, base=base, option='never', kind=('unsupported',), used=columns(used)))


def key(bits): return int(bits.replace(' ', ''), 2) << 23


# The operation of a mnemonic: TST, CMP and CMPS compute AND, SUB and SUBS, and write no register.
COMPARES = dict(TST='And', CMP='Sub', CMPS='Subs')
BASE = 'TST AND OR XOR CMP CMPS SUB SUBS ADD ADDC SUBC MUL'.split()


def operation(mnemonic): return COMPARES.get(mnemonic, mnemonic.capitalize())


# TST to MUL: bits 31-27, bit 26, source mode 25-23
for number, name in enumerate(BASE):
    top = (14 if name == 'MUL' else number) << 27
    kind = ('multiply',) if name == 'MUL' else ('compare' if name in COMPARES else 'compute', operation(name))
    option = 'mult' if name == 'MUL' else 'always'
    row(f'{name}-register', f'{name} %d,%s', top, kind + ('from_register',), option)
    for form, sign, mode in (('Signed', '#', 5), ('Unsigned', '>', 6), ('Shifted', '<', 7)):
        row(f'{name}-{form.lower()}', f'{name} %d,{sign}imm', top | mode << 23, kind + (f'(literal {form})',), option)
    row(f'{name}-short', f'{name} %d,#short', top | 4 << 23, kind + ('short_literal',), 'never')
# shifts
for name, mode in (('SHR', 0), ('SHRA', 1), ('SHL', 4)):
    row(f'{name}-register', f'{name} %d,%s', key('10000 0 000') | mode << 23, ('compute', operation(name), 'from_register'), 'level1')
for name, mode in (('SHR', 2), ('SHRA', 3), ('SHL', 6)):
    row(f'{name}-count', f'{name} %d,#count', key('10000 0 000') | mode << 23, ('compute', operation(name), 'counted'))
# level 1
for name, mode in (('ROTR', 0), ('ROTL', 4), ('SHL16', 6), ('ABS', 1), ('CLZ', 3)):
    row(name, f'{name} %d,%s', key('10010 0 000') | mode << 23, ('compute', operation(name), 'from_register'), 'level1')
# level 2: bits 15-8 choose
LEVEL2 = key('10011 0 000')
for name, code in (('BST', 0x01), ('BLD', 0x02), ('BLDS', 0x06)):
    row(name, f'{name}N %d,%s', LEVEL2 | code << 8, ('bytewise', operation(name)), 'level2')
row('LDYX', 'LDYX %RY,%RX', LEVEL2 | 0x14 << 8, ('load_index',), 'level2')
row('MOVX-to', 'MOVX @%d,@%X+', LEVEL2 | 0x18 << 8, ('index_store',), 'level2_memory')
row('MOVX-from', 'MOVX @%X+,@%s', LEVEL2 | 0x1c << 8, ('index_load',), 'level2_memory')
# MOV: destination mode 27-26, source mode 25-23
row('MOV-register', 'MOV %d,%s', key('1010 00 000'), ('move',))
row('MOV-signed', 'MOV %d,#imm', key('1010 00 101'), ('load_constant', 'Signed'))
row('MOV-unsigned', 'MOV %d,>imm', key('1010 00 110'), ('load_constant', 'Unsigned'))
row('MOV-shifted', 'MOV %d,<imm', key('1010 00 111'), ('load_constant', 'Shifted'))
row('MOV-from-register', 'MOV %d,@%s', key('1010 00 010'), ('load_register',), 'memory')
row('MOV-from-address', 'MOV %d,&a', key('1010 00 011'), ('load_direct',), 'memory')
row('MOV-to-register', 'MOV @%d,%s', key('1010 10 000'), ('store_register',), 'memory')
row('MOV-to-address', 'MOV &a,%s', key('1010 11 000'), ('store_direct',), 'memory')
# MOVIO; bit 15 makes a read IORMW
row('MOVIO-read', 'MOVIO %d,@%s', key('1011 00 010'), ('port_read',), 'ports')
row('IORMW', 'IORMW %d,@%s', key('1011 00 010') | 1 << 15, ('port_modify',), 'rmw')
row('MOVIO-register', 'MOVIO @%d,%s', key('1011 10 000'), ('port_write', 'from_register'), 'ports')
row('MOVIO-signed', 'MOVIO @%d,#imm', key('1011 10 101'), ('port_write', '(literal Signed)'), 'ports')
row('MOVIO-unsigned', 'MOVIO @%d,>imm', key('1011 10 110'), ('port_write', '(literal Unsigned)'), 'ports')
row('MOVIO-shifted', 'MOVIO @%d,<imm', key('1011 10 111'), ('port_write', '(literal Shifted)'), 'ports')
# JMP: bit 27 a register, condition 26-23
for by, bit, operand in (('', 0, 'target'), ('-register', 1, '@%d')):
    for number, condition in enumerate(CONDITIONS):
        row(f'JMP{by}-{condition}', f'JMP {operand}' + (f',{condition}' if number else ''), key('1100 0 0000') | bit << 27 | number << 23,
            ('branch' + by.replace('-', '_'), condition) if number else ('jump' + by.replace('-', '_'),), 'never' if 7 <= number <= 11 else 'ports' if number == 12 else 'always')
unsupported('COP', 'COPid %s,#imm,channel', key('1110 00000'), 'number=coprocessor destination=register value=immediate')
# 1111: bits 27-23, and 22-16 where those are 00000
row('JSR', 'JSR target', key('1111 00001'), ('call',))
row('JSR-register', 'JSR @%d', key('1111 10001'), ('call_register',))
row('RLD', 'RLD %d,#imm', key('1111 00101'), ('ret_constant',))
row('JSRWP', 'JSRWP address,WP', key('1111 00010'), ('enter_bank',), 'banks')
unsupported('IRQ-ON', 'IRQ_ON mask', key('1111 00100'), 'destination=mask')
unsupported('IRQ-OFF', 'IRQ_OFF mask', key('1111 00100') | 1 << 22, 'destination=mask')
row('RET', 'RET', key('1111 00000') | 0 << 16, ('ret',))
row('RETWP', 'RETWP', key('1111 00000') | 1 << 16, ('leave_bank',), 'banks')
unsupported('RETI', 'RETI', key('1111 00000') | 2 << 16)
row('SPR-OFF', 'SPR_OFF', key('1111 00000') | 4 << 16, ('leave_special',), 'spr')
row('SPR-ON', 'SPR_ON', key('1111 00000') | 5 << 16, ('enter_special',), 'spr')
unsupported('IRQM-RLD', 'IRQM_RLD', key('1111 00000') | 6 << 16)
unsupported('IRQM-SS', 'IRQM_SS', key('1111 00000') | 7 << 16)

NUMBER = {r['name']: number for number, r in enumerate(ROWS)}


def marks(r): return KIND[r['kind'][0]][3].split()


def part(r, column): return r['used'].get(column, 'unused')


# Classes: what bits 31-23 of a word say. A class that is no row stands above all rows, and names the rows among which another field chooses.
INDEX, UPPER_BYTES, PORT, IRQ_SWITCH, MISC, NO_ROW = 240, 241, 242, 243, 244, 255
assert len(ROWS) < INDEX


def keys(r):
    """The values of bits 31-23 in the words of a row."""
    numbers = {'byte': 4, 'coprocessor': 32}.get(part(r, 'number'), 1)
    return [(r['base'] >> 23) + 8 * flag + number for flag in range(1 + (part(r, 'flag') == 'flag')) for number in range(numbers)]


def class_of(k):
    """The class of bits 31-23 = k, as specs/Classes.antt has it: the proofs compare the two."""
    names = [r['name'] for r in ROWS if k in keys(r)]
    for name, shared in (('LDYX', INDEX), ('BST', UPPER_BYTES), ('IORMW', PORT), ('IRQ-ON', IRQ_SWITCH), ('RET', MISC)):
        if name in names: return shared
    assert len(names) < 2, names
    return NUMBER[names[0]] if names else NO_ROW


CLASSES = [class_of(k) for k in range(512)]


def packed(r):
    """A row's columns but its base and its kind as one number (specs/Packed.antt)."""
    digits = sum(PARTS.index(part(r, column)) << 4 * place for place, column in enumerate(COLUMNS))
    weights = sum(1 << number for number, mark in enumerate(MARKS) if mark[0] in marks(r))
    return digits | OPTIONS.index(r['option']) << 20 | weights << 24
