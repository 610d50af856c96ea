/* A plain interpreter of the YAM core, which decodes each word as it comes. */
#include "plain.h"
#include "plain_kinds.h"

#define KEEP_FLAGS (1u << 26)
#define TARGET_BITS 0x7fffffu

static uint32_t log2_of(uint32_t size) { return size == 0 ? 0 : 31 - (uint32_t)__builtin_clz(size); }

static uint32_t special_register(const struct plain_config *c, const struct plain_machine *m, uint32_t number) {
    switch (number) {
    case 0: return c->alu_mult << 12 | c->alu_level << 10 | c->yam_clk;
    case 1: return c->reg_width << 8 | log2_of(c->rm_size) << 4 | log2_of(c->reg_size);
    case 2: return log2_of(c->dm_size);
    case 3: return c->yam_sreg3;
    default: return m->spr7;
    }
}

/* A step in special-register mode: only MOV %d,%s of a special register, and SPR_OFF. Answers the number. */
static uint32_t special_step(const struct plain_config *c, struct plain_machine *m, uint32_t *registers, uint32_t w,
                             uint32_t mask) {
    uint32_t number = plain_verdict(c, w), s = w & 0x7f;
    if (number != 0) return number;
    if (w >> 23 == 0x140 && (s <= 3 || s == 7)) {
        registers[m->wp + (w >> 16 & 0x7f)] = special_register(c, m, s) & mask;
    } else if (w == 0xf0040000) {
        m->mode = 0;
        m->imask = m->saved;
    } else {
        return 8;
    }
    m->pc++;
    m->posted = m->posted_address = 0;
    return 0;
}

static inline uint32_t clz16(uint32_t half) { return half == 0 ? 16 : (uint32_t)__builtin_clz(half) - 16; }

#define STOP(number_) do { number = number_; goto stop; } while (0)
#define DEST r[w >> 16 & 0x7f]
#define SOURCE r[w & 0x7f]
#define IMM_S ((uint32_t)(int32_t)(int16_t)w & mask)
#define IMM_U (w & 0xffff & mask)
#define IMM_H (w << shifted & mask & ~low)
#define SET_Z(z_) do { if (!(w & KEEP_FLAGS)) z = (z_); } while (0)
#define SET_ZN(z_, n_) do { if (!(w & KEEP_FLAGS)) { z = (z_); n = (n_); } } while (0)
#define TEST(mask_) do { if (w & (mask_)) STOP(7); } while (0)

/* The four forms of a base instruction: a is %d, b the register or the immediate. */
#define FORMS(name, needs, body)                                                                              \
    case name##_R: { needs; TEST(two_bad); uint32_t a = DEST, b = SOURCE; body; } break;                      \
    case name##_S: { needs; TEST(one_bad); uint32_t a = DEST, b = IMM_S; body; } break;                       \
    case name##_U: { needs; TEST(one_bad); uint32_t a = DEST, b = IMM_U; body; } break;                       \
    case name##_H: { needs; TEST(one_bad); uint32_t a = DEST, b = IMM_H; body; } break;
#define LOGIC(op, write) uint32_t x = a op b; if (write) DEST = x; SET_Z(x == 0)
#define SUM(carry) uint64_t x = (uint64_t)a + b + (carry); uint32_t y = (uint32_t)x & mask; DEST = y; SET_ZN(y == 0, (x >> width) & 1)
#define DIFFERENCE(borrow, write, sign)                                                                       \
    uint64_t x = (uint64_t)a - b - (borrow); uint32_t y = (uint32_t)x & mask; if (write) DEST = y; SET_ZN(y == 0, sign)
#define PORT_WRITE(value)                                                                                     \
    uint32_t address = DEST, v = value; if (log_at >= log_len) STOP(15);                                      \
    log_a[log_at] = address; log_v[log_at] = v; log_at++; posted = 1; posted_address = address
#define SHIFT_RIGHT(from, count) uint32_t a = DEST, x = (from) >> (count) & mask; DEST = x; SET_ZN(!(a & 1), (x & msb) != 0)
#define SHIFT_LEFT(count) uint32_t a = DEST, x = a << (count) & mask; DEST = x; SET_ZN(!(a & msb), (x & msb) != 0)
#define SIGNED(a) ((int32_t)((a) << (32 - width)) >> (32 - width))
#define COUNT_TEST do { TEST(one_bad); if (level == 0 ? (w & 0xffff) != 1 : (w & 0xfff0) != 0) STOP(7); } while (0)
#define TARGET_TEST(target) do { if ((target) >= im_size) STOP(7); } while (0)
#define NEED(option) do { if (!(option)) STOP(6); } while (0)

void plain_run(const struct plain_config *c, const uint32_t *image, const uint32_t *inputs, size_t inputs_len,
               struct plain_machine *m, uint32_t *registers, uint32_t *memory, uint32_t *log_a, uint32_t *log_v,
               size_t log_len, uint64_t budget, struct plain_answer *out) {
    const uint32_t width = c->reg_width, mask = 0xffffffffu >> (32 - width), msb = 1u << (width - 1);
    const uint32_t im_size = c->im_size, dm_size = c->dm_size, level = c->alu_level, limit = plain_stack_limit(c);
    const uint32_t high = ~(c->reg_size - 1) & 0x7f; /* the bits of a register number that must be zero */
    const uint32_t one_bad = high << 16, two_bad = high << 16 | 0xff80 | high;
    const uint32_t shifted = width == 32 ? 16 : 0, low = width == 32 ? 0xffff : 0; /* the shifted immediate */
    const uint32_t banks = c->rm_size > c->reg_size, read_wait = c->dm_pipe != 0;
    uint32_t pc = m->pc, n = m->n, z = m->z, posted = m->posted, posted_address = m->posted_address, number = 0;
    uint64_t steps = 0, waits = 0, input_at = plain_wide(m->input_position), log_at = plain_wide(m->log_position);
    uint32_t mode = m->mode, *r = registers + m->wp;

    while (steps < budget) {
        if (pc >= im_size) { number = 4; break; }
        const uint32_t w = image[pc];
        if (mode) {
            m->pc = pc;
            number = special_step(c, m, registers, w, mask);
            if (number != 0) break;
            pc = m->pc;
            mode = m->mode;
            posted = posted_address = 0;
            steps++;
            continue;
        }
        const uint32_t was_posted = posted, was_address = posted_address;
        uint32_t next = pc + 1;
        posted = posted_address = 0;
        switch (plain_kind_of(w)) {
        FORMS(TST, , LOGIC(&, 0))
        FORMS(AND, , LOGIC(&, 1))
        FORMS(OR, , LOGIC(|, 1))
        FORMS(XOR, , LOGIC(^, 1))
        FORMS(CMP, , DIFFERENCE(0, 0, x >> 63))
        FORMS(CMPS, , DIFFERENCE(0, 0, (a ^ msb) < (b ^ msb)))
        FORMS(SUB, , DIFFERENCE(0, 1, x >> 63))
        FORMS(SUBS, , DIFFERENCE(0, 1, (a ^ msb) < (b ^ msb)))
        FORMS(SUBC, , DIFFERENCE(n, 1, x >> 63))
        FORMS(ADD, , SUM(0))
        FORMS(ADDC, , SUM(n))
        FORMS(MUL, NEED(c->alu_mult), uint32_t x = (a & 0xffff) * (b & 0xffff); DEST = x & mask;
              m->spr7 = width == 32 ? 0 : x >> width & 0xffff)
        case SHR_R: { NEED(level); TEST(two_bad); SHIFT_RIGHT(a, SOURCE & 15); } break;
        case SHRA_R: { NEED(level); TEST(two_bad); SHIFT_RIGHT((uint32_t)(SIGNED(a) >> (SOURCE & 15)), 0); } break;
        case SHL_R: { NEED(level); TEST(two_bad); SHIFT_LEFT(SOURCE & 15); } break;
        case SHR_I: { COUNT_TEST; SHIFT_RIGHT(a, w & 15); } break;
        case SHRA_I: { COUNT_TEST; SHIFT_RIGHT((uint32_t)(SIGNED(a) >> (w & 15)), 0); } break;
        case SHL_I: { COUNT_TEST; SHIFT_LEFT(w & 15); } break;
        case ROTR: {
            NEED(level); TEST(two_bad);
            uint32_t a = SOURCE, x = a >> 1 | (a & 1) << (width - 1);
            DEST = x; SET_ZN(!(a & 1), (x & msb) != 0);
        } break;
        case ROTL: {
            NEED(level); TEST(two_bad);
            uint32_t a = SOURCE, x = (a << 1 & mask) | a >> (width - 1);
            DEST = x; SET_ZN(!(a & msb), (x & msb) != 0);
        } break;
        case SHL16: {
            NEED(level); TEST(two_bad);
            uint32_t a = SOURCE, x = a << 16 & mask;
            DEST = x; SET_ZN(!(a & msb), (x & msb) != 0);
        } break;
        case ABS: {
            NEED(level); TEST(two_bad);
            uint32_t a = SOURCE, x = a & msb ? -a & mask : a;
            DEST = x; SET_ZN(x == 0, (a & msb) != 0);
        } break;
        case CLZ: {
            NEED(level); TEST(two_bad);
            uint32_t a = SOURCE, x = clz16(a >> (width - 16));
            DEST = x; SET_ZN(x == 16, (a & msb) != 0);
        } break;
        case LEVEL2: {
            const uint32_t code = w >> 8 & 0xff, shift = (w >> 23 & 3) * 8;
            const uint32_t two_bad2 = two_bad & 0xff00ff;
            switch (code) {
            case 0x01: case 0x02: case 0x06: {
                NEED(level == 2); TEST(two_bad2);
                if (shift + 7 >= width) STOP(7);
                uint32_t a = SOURCE, byte = code == 0x01 ? a & 0xff : a >> shift & 0xff;
                if (code == 0x01) DEST = (DEST & ~(0xffu << shift)) | byte << shift;
                else if (code == 0x02) DEST = byte;
                else DEST = (uint32_t)(int32_t)(int8_t)byte & mask;
                SET_ZN(byte == 0, byte >> 7);
            } break;
            case 0x14:
                if (shift) STOP(5);
                NEED(level == 2); TEST(two_bad2);
                m->ry = w >> 16 & 0x7f; m->rx = w & 0x7f; m->loaded = 1;
                SET_ZN(m->rx == m->ry, 0);
                break;
            case 0x18: case 0x1c: {
                if (shift) STOP(5);
                NEED(level == 2 && dm_size); TEST(two_bad2);
                TEST(code == 0x18 ? 0x7fu : 0x7fu << 16);
                if (!m->loaded) STOP(27);
                uint32_t address = (code == 0x18 ? DEST : SOURCE) & 0xffff, rx = m->rx;
                if (address >= dm_size) STOP(13);
                if (code == 0x18) memory[address] = r[rx];
                else { r[rx] = memory[address]; waits += read_wait; }
                m->rx = (rx + 1) & (c->reg_size - 1);
                SET_ZN(rx == m->ry, 0);
            } break;
            default: STOP(5);
            }
        } break;
        case MOV_R: TEST(two_bad); DEST = SOURCE; break;
        case MOV_S: TEST(one_bad); DEST = IMM_S; break;
        case MOV_U: TEST(one_bad); DEST = IMM_U; break;
        case MOV_H: TEST(one_bad); DEST = IMM_H; break;
        case MOV_FROM_R: {
            NEED(dm_size); TEST(two_bad);
            uint32_t address = SOURCE & 0xffff;
            if (address >= dm_size) STOP(13);
            DEST = memory[address]; waits += read_wait;
        } break;
        case MOV_FROM_A:
            NEED(dm_size); TEST(one_bad);
            if ((w & 0xffff) >= dm_size) STOP(7);
            DEST = memory[w & 0xffff]; waits += read_wait;
            break;
        case MOV_TO_R: {
            NEED(dm_size); TEST(two_bad);
            uint32_t address = DEST & 0xffff;
            if (address >= dm_size) STOP(13);
            memory[address] = SOURCE;
        } break;
        case MOV_TO_A:
            NEED(dm_size); TEST(one_bad);
            if ((w & 0xffff) >= dm_size) STOP(7);
            memory[w & 0xffff] = DEST;
            break;
        case PORT_READ: {
            const uint32_t rmw = w >> 15 & 1;
            NEED(c->iop_if && (!rmw || c->iop_rmw)); TEST(two_bad & ~0x8000u);
            uint32_t address = SOURCE;
            if (was_posted && was_address != address) STOP(9);
            if (input_at >= inputs_len) STOP(14);
            if (rmw && log_at >= log_len) STOP(15);
            uint32_t x = inputs[input_at++] & mask;
            DEST = x; waits++;
            if (rmw) {
                log_a[log_at] = address; log_v[log_at] = x | msb; log_at++;
                posted = 1; posted_address = address;
            }
        } break;
        case PORT_R: { NEED(c->iop_if); TEST(two_bad); PORT_WRITE(SOURCE); } break;
        case PORT_S: { NEED(c->iop_if); TEST(one_bad); PORT_WRITE(IMM_S); } break;
        case PORT_U: { NEED(c->iop_if); TEST(one_bad); PORT_WRITE(IMM_U); } break;
        case PORT_H: { NEED(c->iop_if); TEST(one_bad); PORT_WRITE(IMM_H); } break;
        case JMP: next = w & TARGET_BITS; TARGET_TEST(next); break;
        case JMP_IF: case JMP_R: {
            const uint32_t condition = w >> 23 & 15;
            uint32_t taken = 1;
            switch (condition) {
            case 1: taken = z; break;
            case 2: taken = !z; break;
            case 3: taken = !(z | n); break;
            case 4: taken = n; break;
            case 5: taken = !n; break;
            case 6: taken = z | n; break;
            }
            if (plain_kind_of(w) == JMP_R) {
                TEST(one_bad | 0xffff);
                if (taken) next = DEST & TARGET_BITS;
            } else {
                TARGET_TEST(w & TARGET_BITS);
                if (taken) next = w & TARGET_BITS;
            }
        } break;
        case JMP_BIO: NEED(c->iop_if); TARGET_TEST(w & TARGET_BITS); break;
        case JMP_R_BIO: NEED(c->iop_if); TEST(one_bad | 0xffff); break;
        case JSR:
            TARGET_TEST(w & TARGET_BITS);
            if (m->depth >= limit) STOP(10);
            m->stack[m->depth++] = next; next = w & TARGET_BITS;
            break;
        case JSR_R:
            TEST(one_bad | 0xffff);
            if (m->depth >= limit) STOP(10);
            m->stack[m->depth++] = next; next = DEST & TARGET_BITS;
            break;
        case RLD:
            TEST(one_bad);
            if (m->depth == 0) STOP(11);
            DEST = IMM_S;
            next = m->stack[--m->depth]; m->stack[m->depth] = 0;
            break;
        case JSRWP: {
            NEED(banks);
            const uint32_t unit = w >> 16 & 0x7f;
            if (unit > 63) STOP(7);
            TARGET_TEST(w & 0xffff);
            if (unit * 16 + c->reg_size > c->rm_size) STOP(12);
            r = registers + unit * 16;
            r[0] = (m->wp >> 4) << 26 | n << 21 | z << 20 | m->imask << 16 | next;
            m->wp = unit * 16; next = w & 0xffff;
        } break;
        case CONTROL:
            switch (w >> 16 & 0x7f) {
            case 0:
                TEST(0xffff);
                if (m->depth == 0) STOP(11);
                next = m->stack[--m->depth]; m->stack[m->depth] = 0;
                break;
            case 1: {
                NEED(banks); TEST(0xffff);
                const uint32_t x = r[0], wp = (x >> 26) * 16;
                if (wp + c->reg_size > c->rm_size) STOP(12);
                m->wp = wp; r = registers + wp;
                n = x >> 21 & 1; z = x >> 20 & 1; m->imask = x >> 16 & 15; next = x & 0xffff;
            } break;
            case 4: NEED(c->alu_spr); TEST(0xffff); m->imask = m->saved; break;
            case 5: NEED(c->alu_spr); TEST(0xffff); m->saved = m->imask; m->imask = 15; m->mode = mode = 1; break;
            case 2: case 6: case 7: STOP(6);
            default: STOP(5);
            }
            break;
        case UNSUPPORTED: STOP(6);
        default: STOP(5);
        }
        pc = next;
        steps++;
        continue;
    stop:
        posted = was_posted;
        posted_address = was_address;
        break;
    }
    m->pc = pc; m->n = n; m->z = z; m->posted = posted; m->posted_address = posted_address;
    m->input_position[0] = (uint32_t)input_at; m->input_position[1] = (uint32_t)(input_at >> 32);
    m->log_position[0] = (uint32_t)log_at; m->log_position[1] = (uint32_t)(log_at >> 32);
    out->number = number; out->steps = steps; out->cycles = 2 * steps + waits;
}
