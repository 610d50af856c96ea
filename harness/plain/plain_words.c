/* The verdict on a word (5, 6, 7), plainly. */
#include "plain.h"
#include "plain_kinds.h"

/* A direct target must lie in the image. */
static inline uint32_t within(const struct plain_config *c, uint32_t target) { return target < c->im_size ? 0 : 7; }

uint32_t plain_verdict(const struct plain_config *c, uint32_t w) {
    const uint32_t high = ~(c->reg_size - 1) & 0x7f, one_bad = high << 16, two_bad = high << 16 | 0xff80 | high;
    const uint32_t level = c->alu_level, banks = c->rm_size > c->reg_size, kind = plain_kind_of(w);
    uint32_t bad = 0; /* bits that must be zero */
    switch (kind) {
    case NO_ROW: return 5;
    case UNSUPPORTED: return 6;
    case LEVEL2: {
        const uint32_t code = w >> 8 & 0xff, byte = w >> 23 & 3;
        if (code == 0x01 || code == 0x02 || code == 0x06) {
            if (level < 2) return 6;
            return (w & two_bad & 0xff00ff) || 8 * byte + 7 >= c->reg_width ? 7 : 0;
        }
        if ((code != 0x14 && code != 0x18 && code != 0x1c) || byte) return 5;
        if (level < 2 || (code != 0x14 && !c->dm_size)) return 6;
        bad = (two_bad & 0xff00ff) | (code == 0x18 ? 0x7f : 0) | (code == 0x1c ? 0x7fu << 16 : 0);
        return w & bad ? 7 : 0;
    }
    case MUL_R: case MUL_S: case MUL_U: case MUL_H:
        if (!c->alu_mult) return 6;
        return w & (kind == MUL_R ? two_bad : one_bad) ? 7 : 0;
    case SHR_R: case SHRA_R: case SHL_R: case ROTR: case ROTL: case SHL16: case ABS: case CLZ:
        if (level < 1) return 6;
        return w & two_bad ? 7 : 0;
    case SHR_I: case SHRA_I: case SHL_I:
        if (w & one_bad) return 7;
        return (level == 0 ? (w & 0xffff) != 1 : (w & 0xfff0) != 0) ? 7 : 0;
    case MOV_FROM_R: case MOV_TO_R:
        if (!c->dm_size) return 6;
        return w & two_bad ? 7 : 0;
    case MOV_FROM_A: case MOV_TO_A:
        if (!c->dm_size) return 6;
        return (w & one_bad) || (w & 0xffff) >= c->dm_size ? 7 : 0;
    case PORT_READ:
        if (!c->iop_if || (w & 0x8000 && !c->iop_rmw)) return 6;
        return w & two_bad & ~0x8000u ? 7 : 0;
    case PORT_R:
        if (!c->iop_if) return 6;
        return w & two_bad ? 7 : 0;
    case PORT_S: case PORT_U: case PORT_H:
        if (!c->iop_if) return 6;
        return w & one_bad ? 7 : 0;
    case JMP: case JMP_IF: case JSR: return within(c, w & 0x7fffff);
    case JMP_BIO: return c->iop_if ? within(c, w & 0x7fffff) : 6;
    case JMP_R_BIO:
        if (!c->iop_if) return 6;
        return w & (one_bad | 0xffff) ? 7 : 0;
    case JMP_R: case JSR_R: return w & (one_bad | 0xffff) ? 7 : 0;
    case JSRWP:
        if (!banks) return 6;
        return w & 0x400000 ? 7 : within(c, w & 0xffff);
    case CONTROL:
        switch (w >> 16 & 0x7f) {
        case 0: break;
        case 1: if (!banks) return 6; break;
        case 4: case 5: if (!c->alu_spr) return 6; break;
        case 2: case 6: case 7: return 6;
        default: return 5;
        }
        return w & 0xffff ? 7 : 0;
    case TST_R: case AND_R: case OR_R: case XOR_R: case CMP_R: case CMPS_R: case SUB_R: case SUBS_R: case ADD_R: case ADDC_R:
    case SUBC_R: case MOV_R: return w & two_bad ? 7 : 0;
    default: return w & one_bad ? 7 : 0;
    }
}
