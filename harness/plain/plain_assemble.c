/* Source text into words, in three passes: labels and counts; the first bad line; the words. A
   refusal writes none and no room is lent to keep words in, so lines are read twice. */
#include "plain.h"
#include <string.h>

/* ---- names ---- */

/* What must be on. */
enum { MULT = 1, LEVEL_1 = 2, LEVEL_2 = 4, MEMORY = 8, PORT = 16, MODIFY = 32, BANKS = 64, SPECIAL = 128 };

/* What may stand behind a name. */
enum shape { ALONE, BASE, SHIFT, TWO, INDEXED, MOVE, PORTS, READ_MODIFY, JUMP, CALL, LOAD, BANK };

struct name {
    uint64_t key;
    uint32_t word; /* without operands, as the form with registers has it */
    uint8_t shape, need, byte;
};

/* A name's bytes behind a one, so that names of different lengths differ. The factor leaves no two
   names in one slot. */
#define SLOT(key) ((uint64_t)(key) * 0xa11d459a2f978d87u >> 57)
#define NEXT(key, byte) ((uint64_t)(key) << 8 | (byte))
#define K2(a, b) NEXT(NEXT(1, a), b)
#define K3(a, b, c) NEXT(K2(a, b), c)
#define K4(a, b, c, d) NEXT(K3(a, b, c), d)
#define K5(a, b, c, d, e) NEXT(K4(a, b, c, d), e)
#define K6(a, b, c, d, e, f) NEXT(K5(a, b, c, d, e), f)
#define K7(a, b, c, d, e, f, g) NEXT(K6(a, b, c, d, e, f), g)
#define NAME(key, word, shape, need, byte) [SLOT(key)] = {key, word, shape, need, byte}
#define ALU(code) ((uint32_t)(code) << 27)
#define MODE(mode) ((uint32_t)(mode) << 23)
#define LEVEL2(code, n) (ALU(19) | MODE(n) | (uint32_t)(code) << 8)
#define BYTES(key, code)                                                                                      \
    NAME(NEXT(key, '0'), LEVEL2(code, 0), TWO, LEVEL_2, 0), NAME(NEXT(key, '1'), LEVEL2(code, 1), TWO, LEVEL_2, 1), \
    NAME(NEXT(key, '2'), LEVEL2(code, 2), TWO, LEVEL_2, 2), NAME(NEXT(key, '3'), LEVEL2(code, 3), TWO, LEVEL_2, 3)

static const struct name names[128] = {
    NAME(K3('T', 'S', 'T'), ALU(0), BASE, 0, 0),
    NAME(K3('A', 'N', 'D'), ALU(1), BASE, 0, 0),
    NAME(K2('O', 'R'), ALU(2), BASE, 0, 0),
    NAME(K3('X', 'O', 'R'), ALU(3), BASE, 0, 0),
    NAME(K3('C', 'M', 'P'), ALU(4), BASE, 0, 0),
    NAME(K4('C', 'M', 'P', 'S'), ALU(5), BASE, 0, 0),
    NAME(K3('S', 'U', 'B'), ALU(6), BASE, 0, 0),
    NAME(K4('S', 'U', 'B', 'S'), ALU(7), BASE, 0, 0),
    NAME(K3('A', 'D', 'D'), ALU(8), BASE, 0, 0),
    NAME(K4('A', 'D', 'D', 'C'), ALU(9), BASE, 0, 0),
    NAME(K4('S', 'U', 'B', 'C'), ALU(10), BASE, 0, 0),
    NAME(K3('M', 'U', 'L'), ALU(14), BASE, MULT, 0),
    NAME(K3('S', 'H', 'R'), ALU(16) | MODE(0), SHIFT, 0, 0),
    NAME(K4('S', 'H', 'R', 'A'), ALU(16) | MODE(1), SHIFT, 0, 0),
    NAME(K3('S', 'H', 'L'), ALU(16) | MODE(4), SHIFT, 0, 0),
    NAME(K4('R', 'O', 'T', 'R'), ALU(18) | MODE(0), TWO, LEVEL_1, 0),
    NAME(K4('R', 'O', 'T', 'L'), ALU(18) | MODE(4), TWO, LEVEL_1, 0),
    NAME(K5('S', 'H', 'L', '1', '6'), ALU(18) | MODE(6), TWO, LEVEL_1, 0),
    NAME(K3('A', 'B', 'S'), ALU(18) | MODE(1), TWO, LEVEL_1, 0),
    NAME(K3('C', 'L', 'Z'), ALU(18) | MODE(3), TWO, LEVEL_1, 0),
    BYTES(K3('B', 'S', 'T'), 0x01),
    BYTES(K3('B', 'L', 'D'), 0x02),
    BYTES(K4('B', 'L', 'D', 'S'), 0x06),
    NAME(K4('L', 'D', 'Y', 'X'), LEVEL2(0x14, 0), TWO, LEVEL_2, 0),
    NAME(K4('M', 'O', 'V', 'X'), LEVEL2(0x18, 0), INDEXED, LEVEL_2 | MEMORY, 0),
    NAME(K3('M', 'O', 'V'), 0xa0000000, MOVE, 0, 0),
    NAME(K5('M', 'O', 'V', 'I', 'O'), 0xb0000000, PORTS, PORT, 0),
    NAME(K5('I', 'O', 'R', 'M', 'W'), 0xb1008000, READ_MODIFY, MODIFY, 0),
    NAME(K3('J', 'M', 'P'), 0xc0000000, JUMP, 0, 0),
    NAME(K3('J', 'S', 'R'), 0xf0800000, CALL, 0, 0),
    NAME(K3('R', 'L', 'D'), 0xf2800000, LOAD, 0, 0),
    NAME(K5('J', 'S', 'R', 'W', 'P'), 0xf1000000, BANK, BANKS, 0),
    NAME(K3('R', 'E', 'T'), 0xf0000000, ALONE, 0, 0),
    NAME(K5('R', 'E', 'T', 'W', 'P'), 0xf0010000, ALONE, BANKS, 0),
    NAME(K7('S', 'P', 'R', '_', 'O', 'F', 'F'), 0xf0040000, ALONE, SPECIAL, 0),
    NAME(K6('S', 'P', 'R', '_', 'O', 'N'), 0xf0050000, ALONE, SPECIAL, 0),
};

/* ---- digits ---- */

#define NO_DIGIT 0xffffff00u
#define WRONG(digits) ((digits) >> 24) /* up to six of them, or several such numbers in one */

static const uint32_t digit[256] = {
    [0 ... '0' - 1] = NO_DIGIT, ['0'] = 0, 1, 2, 3, 4, 5, 6, 7, 8, 9, ['9' + 1 ... 'a' - 1] = NO_DIGIT,
    ['a'] = 10, 11, 12, 13, 14, 15, ['f' + 1 ... 255] = NO_DIGIT,
};
/* The modes of the immediates by their marks. */
static const uint8_t marks[256] = {['#'] = 5, ['>'] = 6, ['<'] = 7};

static inline uint32_t two(const uint8_t *p) { return digit[p[0]] << 4 | digit[p[1]]; }
static inline uint32_t three(const uint8_t *p) { return two(p) << 4 | digit[p[2]]; }
static inline uint32_t four(const uint8_t *p) { return digit[p[0]] << 12 | digit[p[1]] << 8 | digit[p[2]] << 4 | digit[p[3]]; }
static inline uint32_t six(const uint8_t *p) { return digit[p[0]] << 20 | digit[p[1]] << 16 | four(p + 2); }
static inline uint32_t reg(const uint8_t *p) { return p[0] == '%' ? two(p + 1) : NO_DIGIT; }

/* ---- labels ---- */

#define LABELS 1024
#define SLOTS 2048
#define BEYOND 0x800000u /* past every image */

/* Letters in five bits each, 1 to 26, so that 0 is no label. */
struct labels {
    uint64_t keys[SLOTS];
    uint32_t addresses[SLOTS];
};

static inline size_t label_slot(const struct labels *labels, uint64_t key) {
    size_t slot = key * 0x9e3779b97f4a7c15u >> 53;
    while (labels->keys[slot] != 0 && labels->keys[slot] != key) slot = (slot + 1) % SLOTS;
    return slot;
}

/* Reads the small letters from p on; answers the key and where they end, or 0 where they are no
   label. */
static inline uint64_t label_at(const uint8_t *p, const uint8_t *end, const uint8_t **after) {
    uint64_t key = 0;
    uint32_t beyond_f = 0;
    const uint8_t *q = p;
    for (; q < end; q++) {
        const uint32_t letter = (uint32_t)*q - 'a';
        if (letter >= 26) break;
        if (q - p == 12) return 0;
        beyond_f |= letter > 5;
        key = key << 5 | (letter + 1);
    }
    *after = q;
    return beyond_f ? key : 0;
}

/* ---- a line ---- */

struct source {
    const uint8_t *text, *end;
    uint32_t off;       /* what is off */
    uint32_t high;      /* the bits of a register's number that must be zero */
    uint32_t im_size, dm_size, reg_width, alu_level;
    struct labels labels;
};

/* The condition's code, or 16 where the rest of the line is none. */
static inline uint32_t condition(const uint8_t *p, size_t length) {
    if (length == 0) return 0;
    if (p[0] != ',') return 16;
    if (length == 2) return p[1] == 'Z' ? 1 : 16;
    if (length == 3) {
        switch (p[1] << 8 | p[2]) {
        case 'N' << 8 | 'Z': return 2;
        case 'G' << 8 | 'T': return 3;
        case 'L' << 8 | 'T': return 4;
        case 'G' << 8 | 'E': return 5;
        case 'L' << 8 | 'E': return 6;
        }
        return 16;
    }
    return length == 4 && p[1] == 'B' && p[2] == 'I' && p[3] == 'O' ? 12 : 16;
}

/* Six digits or a label: answers its value, or 26 or 25 in *number; *after is where it ends. */
static inline uint32_t target(const struct source *s, const uint8_t *p, const uint8_t *end, const uint8_t **after,
                              uint32_t *number) {
    if (end - p >= 6 && (end - p == 6 || p[6] == ',')) {
        const uint32_t value = six(p);
        if (!WRONG(value)) {
            *after = p + 6;
            return value;
        }
    }
    const uint64_t key = label_at(p, end, after);
    if (key == 0) {
        *number = 26;
        return 0;
    }
    const size_t slot = label_slot(&s->labels, key);
    if (s->labels.keys[slot] == 0) *number = 25;
    return s->labels.addresses[slot];
}

/* Reads an instruction: 26, 25, 6, 7, or 0 with its word. */
static inline uint32_t instruction(const struct source *s, const uint8_t *p, const uint8_t *end, uint32_t *word) {
    uint64_t key = 1;
    const uint8_t *o = p;
    const uint8_t *longest = end - p > 7 ? p + 7 : end;
    for (; o < longest && *o != ' '; o++) key = NEXT(key, *o);
    const struct name *name = &names[SLOT(key)];
    if (name->key != key || (o < end && *o != ' ') || (name->shape == ALONE) != (o == end)) return 26;
    uint32_t w = name->word, need = name->need, a = 0, b = 0, number = 0;
    uint32_t past = 0; /* something is beyond its limit */
    const uint8_t *after;
    o++;
    size_t length = name->shape == ALONE ? 0 : (size_t)(end - o);
    if (name->shape >= BASE && name->shape <= INDEXED) {
        if (length >= 2 && o[length - 2] == ',' && o[length - 1] == 'S') length -= 2;
        else w |= 1u << 26;
    }
    switch (name->shape) {
    case ALONE: break;
    case BASE:
        if (length == 7 && o[3] == ',') {
            a = reg(o), b = reg(o + 4);
            if (WRONG(a | b)) return 26;
            past = (a | b) & s->high;
        } else {
            if (length != 9 || o[3] != ',' || !marks[o[4]]) return 26;
            a = reg(o), b = four(o + 5), w |= MODE(marks[o[4]]);
            if (WRONG(a | b)) return 26;
            past = a & s->high;
        }
        break;
    case SHIFT:
        if (length == 7 && o[3] == ',') {
            a = reg(o), b = reg(o + 4), need |= LEVEL_1;
            if (WRONG(a | b)) return 26;
            past = (a | b) & s->high;
        } else {
            if (length != 9 || o[3] != ',' || o[4] != '#') return 26;
            a = reg(o), b = four(o + 5), w |= MODE(2);
            if (WRONG(a | b)) return 26;
            past = (a & s->high) | (s->alu_level == 0 ? b != 1 : b > 15);
        }
        break;
    case TWO:
        if (length != 7 || o[3] != ',') return 26;
        a = reg(o), b = reg(o + 4);
        if (WRONG(a | b)) return 26;
        past = ((a | b) & s->high) | (8u * name->byte + 7 >= s->reg_width);
        break;
    case INDEXED:
        if (length != 9) return 26;
        if (memcmp(o + 4, ",@%X+", 5) == 0 && o[0] == '@') {
            a = reg(o + 1);
        } else {
            if (memcmp(o, "@%X+,@", 6) != 0) return 26;
            b = reg(o + 6), w |= 0x400;
        }
        if (WRONG(a | b)) return 26;
        past = (a | b) & s->high;
        break;
    case MOVE:
        if (length == 7) {
            if (o[3] != ',') return 26;
            a = reg(o), b = reg(o + 4);
            past = (a | b) & s->high;
        } else if (length == 8) {
            need |= MEMORY;
            if (o[0] == '@' && o[4] == ',') a = reg(o + 1), b = reg(o + 5), w |= 2u << 26;
            else if (o[3] == ',' && o[4] == '@') a = reg(o), b = reg(o + 5), w |= MODE(2);
            else return 26;
            past = (a | b) & s->high;
        } else if (length == 9 && o[3] == ',') {
            a = reg(o), b = four(o + 5);
            past = a & s->high;
            if (marks[o[4]]) w |= MODE(marks[o[4]]);
            else if (o[4] == '&') w |= MODE(3), need |= MEMORY, past |= b >= s->dm_size;
            else return 26;
        } else {
            if (length != 9 || o[0] != '&' || o[5] != ',') return 26;
            a = reg(o + 6), b = four(o + 1), w |= 3u << 26, need |= MEMORY;
            past = (a & s->high) | (b >= s->dm_size);
        }
        if (WRONG(a | b)) return 26;
        break;
    case PORTS:
        if (length == 8) {
            if (o[0] == '@' && o[4] == ',') a = reg(o + 1), b = reg(o + 5), w |= 2u << 26;
            else if (o[3] == ',' && o[4] == '@') a = reg(o), b = reg(o + 5), w |= MODE(2);
            else return 26;
            past = (a | b) & s->high;
        } else {
            if (length != 10 || o[0] != '@' || o[4] != ',' || !marks[o[5]]) return 26;
            a = reg(o + 1), b = four(o + 6), w |= 2u << 26 | MODE(marks[o[5]]);
            past = a & s->high;
        }
        if (WRONG(a | b)) return 26;
        break;
    case READ_MODIFY:
        if (length != 8 || o[3] != ',' || o[4] != '@') return 26;
        a = reg(o), b = reg(o + 5);
        if (WRONG(a | b)) return 26;
        past = (a | b) & s->high;
        break;
    case JUMP:
    case CALL:
        if (length >= 4 && o[0] == '@') {
            a = reg(o + 1), w |= 1u << 27, after = o + 4;
            if (WRONG(a)) return 26;
            past = a & s->high;
        } else {
            b = target(s, o, end, &after, &number);
            if (number == 26) return 26;
            past = b >= s->im_size;
        }
        if (name->shape == JUMP) {
            const uint32_t code = condition(after, (size_t)(end - after));
            if (code == 16) return 26;
            if (code == 12) need |= PORT;
            w |= code << 23;
        } else if (after != end) {
            return 26;
        }
        break;
    case LOAD:
        if (length != 9 || o[3] != ',' || o[4] != '#') return 26;
        a = reg(o), b = four(o + 5);
        if (WRONG(a | b)) return 26;
        past = a & s->high;
        break;
    case BANK:
        if (length != 8 || o[4] != ',') return 26;
        a = three(o + 5), b = four(o);
        if (WRONG(a | b) || a % 16 != 0) return 26;
        past = (a >= 0x400) | (b >= s->im_size);
        a /= 16;
        break;
    }
    if (number != 0) return number;
    if (need & s->off) return 6;
    if (past) return 7;
    *word = w | a << 16 | b;
    return 0;
}

static inline const uint8_t *line_end(const struct source *s, const uint8_t *p) {
    const uint8_t *end = memchr(p, '\n', (size_t)(s->end - p));
    return end ? end : s->end;
}

/* ---- the passes ---- */

/* Labels into the table, words counted: 36, 24 with its line, or 0 with the count of words. */
static uint32_t gather(struct source *s, size_t words_len, uint64_t *count, uint64_t *line) {
    uint64_t words = 0, label_lines = 0, doubled = 0, number = 1;
    const uint8_t *after;
    memset(s->labels.keys, 0, sizeof s->labels.keys);
    for (const uint8_t *p = s->text, *end;; p = end + 1, number++) {
        end = line_end(s, p);
        const uint64_t key = p < end ? label_at(p, end, &after) : 0;
        if (key != 0 && after < end && *after == ':') {
            if (++label_lines > LABELS) return 36;
            const size_t slot = label_slot(&s->labels, key);
            if (s->labels.keys[slot] == 0) {
                s->labels.keys[slot] = key;
                s->labels.addresses[slot] = words < BEYOND ? (uint32_t)words : BEYOND;
            } else if (doubled == 0) {
                doubled = number;
            }
            words += after + 1 < end;
        } else {
            words += p < end;
        }
        if (end == s->end) break;
    }
    if (words > words_len) return 36;
    *count = words;
    *line = doubled;
    return doubled ? 24 : 0;
}

/* Every line in turn: the number of the first bad one and its line, or 0; where `words` is lent,
   each word is written. */
static uint32_t read_lines(const struct source *s, uint32_t *words, uint64_t *line) {
    uint64_t number = 1;
    const uint8_t *after;
    for (const uint8_t *p = s->text, *end;; p = end + 1, number++) {
        end = line_end(s, p);
        uint32_t word = 0, bad = 0;
        int lone = p == end;
        if (p < end && (uint32_t)*p - 'a' < 26) {
            if (label_at(p, end, &after) == 0 || after == end || *after != ':') bad = 26;
            else if (after + 1 == end) lone = 1;
            else if (after[1] != ' ') bad = 26;
            else p = after + 2;
        }
        if (!bad && !lone) bad = instruction(s, p, end, &word);
        if (bad) {
            *line = number;
            return bad;
        }
        if (words && !lone) *words++ = word;
        if (end == s->end) return 0;
    }
}

uint32_t plain_assemble(const struct plain_config *c, const uint8_t *text, size_t text_len, uint32_t *words, size_t words_len,
                        uint64_t answers[2]) {
    struct source s;
    uint64_t count = 0;
    answers[0] = answers[1] = 0;
    s.text = text;
    s.end = text + text_len;
    s.off = (c->alu_mult ? 0 : MULT) | (c->alu_level >= 1 ? 0 : LEVEL_1) | (c->alu_level >= 2 ? 0 : LEVEL_2) |
            (c->dm_size ? 0 : MEMORY) | (c->iop_if ? 0 : PORT) | (c->iop_rmw ? 0 : MODIFY) |
            (c->rm_size > c->reg_size ? 0 : BANKS) | (c->alu_spr ? 0 : SPECIAL);
    s.high = ~(c->reg_size - 1);
    s.im_size = c->im_size;
    s.dm_size = c->dm_size;
    s.reg_width = c->reg_width;
    s.alu_level = c->alu_level;
    uint32_t number = gather(&s, words_len, &count, &answers[1]);
    if (number == 0) number = read_lines(&s, NULL, &answers[1]);
    if (number != 0) return number;
    read_lines(&s, words, &answers[1]);
    answers[0] = count;
    return 0;
}
