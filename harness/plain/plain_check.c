/* The check of a sheet (17), plainly. */
#include "plain.h"
#include "plain_kinds.h"

#define UNUSED 255
#define LEVEL 0x3f
#define SUBROUTINE 0x40
#define SPECIAL 0x80
#define SPR_OFF 0xf0040000
#define SPR_ON 0xf0050000

/* The groups of kinds that have the same bits to be zero where the option is on. */
enum group { LOOK, ONE, TWO, MULT_ONE, MULT_TWO, LEVEL_TWO, COUNT, DATA_ONE, DATA_TWO, PORT_ONE, PORT_TWO, PORT_IN, FREE, GROUPS };

/* Where control goes: to the next word, to the target, there by a call. None of them: there is more to ask. */
enum ways { ON = 16, TO = 32, CALLED = 64 };

#define FORMS(name, two, one) [name##_R] = two, [name##_S] = one, [name##_U] = one, [name##_H] = one
#define BASE(name) FORMS(name, TWO | ON, ONE | ON)
static const uint8_t entries[256] = {
    BASE(TST), BASE(AND), BASE(OR), BASE(XOR), BASE(CMP), BASE(CMPS), BASE(SUB), BASE(SUBS), BASE(ADD), BASE(ADDC), BASE(SUBC), BASE(MOV),
    FORMS(MUL, MULT_TWO | ON, MULT_ONE | ON), FORMS(PORT, PORT_TWO, PORT_ONE), [PORT_READ] = PORT_IN, [RLD] = ONE,
    [SHR_R] = LEVEL_TWO | ON, [SHRA_R] = LEVEL_TWO | ON, [SHL_R] = LEVEL_TWO | ON, [SHR_I] = COUNT | ON, [SHRA_I] = COUNT | ON,
    [SHL_I] = COUNT | ON, [ROTR] = LEVEL_TWO | ON, [ROTL] = LEVEL_TWO | ON, [SHL16] = LEVEL_TWO | ON, [ABS] = LEVEL_TWO | ON,
    [CLZ] = LEVEL_TWO | ON, [LEVEL2] = LOOK | ON, [MOV_FROM_R] = DATA_TWO | ON, [MOV_TO_R] = DATA_TWO | ON, [MOV_FROM_A] = DATA_ONE | ON,
    [MOV_TO_A] = DATA_ONE | ON, [JMP] = FREE | TO, [JMP_IF] = FREE | ON | TO, [JMP_BIO] = LOOK | ON | TO, [JSR] = FREE | ON | TO | CALLED,
};

/* The bits that must be zero, by group. A word that has one of them, or whose group is only looked at, is for plain_verdict to decide; a
   direct target is asked for where control goes. */
static void masks_of(const struct plain_config *c, uint32_t masks[GROUPS]) {
    const uint32_t high = ~(c->reg_size - 1) & 0x7f, one = high << 16, two = high << 16 | 0xff80 | high;
    for (int i = 0; i < GROUPS; i++) masks[i] = ~0u;
    masks[FREE] = 0;
    masks[ONE] = one;
    masks[TWO] = two;
    if (c->alu_mult) masks[MULT_ONE] = one, masks[MULT_TWO] = two;
    if (c->alu_level) masks[LEVEL_TWO] = two, masks[COUNT] = one | 0xfff0;
    if (c->dm_size) masks[DATA_ONE] = one | (~(c->dm_size - 1) & 0xffff), masks[DATA_TWO] = two;
    if (c->iop_if) masks[PORT_ONE] = one, masks[PORT_TWO] = two, masks[PORT_IN] = two;
    if (c->iop_rmw) masks[PORT_IN] = two & ~0x8000u;
}

static int reads_port(const struct plain_config *c, uint32_t w) { return plain_kind_of(w) == PORT_READ && plain_verdict(c, w) == 0; }

static int in_special_mode_allowed(uint32_t w) {
    const uint32_t s = w & 0x7f;
    return w == SPR_OFF || (plain_kind_of(w) == MOV_R && (s <= 3 || s == 7));
}

/* Rules 4 to 7 of a word whose control goes to one or two addresses; the level asked of the first is `call` above its own, and it is a
   subroutine's then. */
static uint32_t broken_by(const struct plain_config *c, const uint8_t *sheet, uint32_t here, uint32_t w, uint32_t first, uint32_t second,
                          uint32_t call) {
    if (first >= c->im_size || second >= c->im_size) return 4;
    const uint32_t a = sheet[first], b = sheet[second];
    if (a == UNUSED || b == UNUSED) return 4;
    if (((a ^ (call ? SUBROUTINE : here)) | (b ^ here)) & SUBROUTINE) return 5;
    if ((a & LEVEL) + call > (here & LEVEL) || (b & LEVEL) > (here & LEVEL)) return 6;
    if ((here & SPECIAL) && !in_special_mode_allowed(w)) return 7;
    const uint32_t mode = w == SPR_ON ? SPECIAL : w == SPR_OFF ? 0 : here;
    return ((a ^ mode) | (b ^ mode)) & SPECIAL ? 7 : 0;
}

/* Whether a word that goes one of these ways breaks none of them, outside special-register mode, where a mark is a level and perhaps a
   subroutine's bit: false where it is not so, or not seen to be. */
static inline int goes_well(const struct plain_config *c, const uint8_t *sheet, uint32_t here, uint32_t ways, uint32_t next, uint32_t target) {
    const uint32_t first = ways & TO ? target : next, second = ways & ON ? next : target;
    if (here >= SPECIAL || first >= c->im_size || second >= c->im_size) return 0;
    const uint32_t level = here & LEVEL, call = ways / CALLED, a = sheet[first], b = sheet[second];
    const uint32_t of_first = call ? SUBROUTINE : here & SUBROUTINE;
    return (call <= level) & (a - of_first <= level - call) & (b - (here & SUBROUTINE) <= level);
}

/* The lowest rule above 1 that the used address `at` breaks, or 0. */
static uint32_t broken_rule(const struct plain_config *c, const uint32_t *masks, const uint32_t *image, const uint8_t *sheet, uint32_t at,
                            uint32_t limit) {
    const uint32_t here = sheet[at], w = image[at], next = at + 1, target = w & 0x7fffff, kind = plain_kind_of(w);
    uint32_t rule;
    if ((here & LEVEL) > limit) return 2;
    const uint32_t entry = entries[kind], ways = entry & (ON | TO | CALLED);
    if ((w & masks[entry & 15]) != 0 && plain_verdict(c, w) != 0) return 3;
    if (ways != 0 && goes_well(c, sheet, here, ways, next, target)) return 0;
    if ((ways & TO) != 0 && target >= c->im_size) return 3;
    switch (kind) {
    case JMP_R: case JMP_R_BIO: case JSR_R: case JSRWP: return 3;
    case JSR: return broken_by(c, sheet, here, w, target, next, 1);
    case JMP: return broken_by(c, sheet, here, w, target, target, 0);
    case JMP_IF: case JMP_BIO: return broken_by(c, sheet, here, w, target, next, 0);
    case CONTROL:
        if (w == 0xf0010000) return 3; /* RETWP */
        if (w != 0xf0000000) return broken_by(c, sheet, here, w, next, next, 0);
        /* fall through */
    case RLD: return !(here & SUBROUTINE) ? 5 : here & SPECIAL ? 7 : 0;
    case PORT_READ: case PORT_R: case PORT_S: case PORT_U: case PORT_H:
        rule = broken_by(c, sheet, here, w, next, next, 0);
        if (rule != 0 || (kind == PORT_READ && !(w & 0x8000))) return rule;
        return reads_port(c, image[next]) ? 8 : 0;
    default: return broken_by(c, sheet, here, w, next, next, 0);
    }
}

uint32_t plain_check(const struct plain_config *c, const uint32_t *image, const uint8_t *sheet, uint64_t answers[2]) {
    const uint32_t limit = plain_stack_limit(c), size = c->im_size;
    uint32_t masks[GROUPS];
    masks_of(c, masks);
    answers[0] = 0;
    answers[1] = 1;
    if (sheet[0] & (SPECIAL | SUBROUTINE)) return 17;
    for (uint32_t at = 0; at < size; at++) {
        const uint32_t rule = sheet[at] == UNUSED ? 0 : broken_rule(c, masks, image, sheet, at, limit);
        if (rule != 0) {
            answers[0] = at;
            answers[1] = rule;
            return 17;
        }
    }
    answers[0] = sheet[0] & LEVEL;
    answers[1] = 0;
    return 0;
}
