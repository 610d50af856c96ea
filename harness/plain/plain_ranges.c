/* Configurations (1), the record's ranges and the cells' width (3), plainly. */
#include "plain.h"

static int power_of_two(uint32_t x) { return x != 0 && (x & (x - 1)) == 0; }

uint32_t plain_config_number(const struct plain_config *c) {
    const uint32_t w = c->reg_width;
    if (c->im_width != 32 || c->alu_3op || c->irq_if || c->copm_size || c->yam_dbg) return 1;
    if (c->im_size < 1 || c->im_size > 32768 || (w != 8 && w != 16 && w != 32)) return 1;
    if (!power_of_two(c->reg_size) || c->reg_size < 8 || c->reg_size > 128) return 1;
    if (c->rm_size != c->reg_size && (!power_of_two(c->rm_size) || c->rm_size < 2 * c->reg_size || c->rm_size > 1024 || w != 32)) return 1;
    if (c->pc_stack < 1 || c->pc_stack > 64) return 1;
    if (c->dm_size != 0 && (!power_of_two(c->dm_size) || c->dm_size < 2 || c->dm_size > 32768)) return 1;
    if (c->dm_pipe > 2 || c->alu_level > 2 || (c->alu_level > 0 && w < 16)) return 1;
    if (c->alu_mult > 1 || c->alu_spr > 1 || c->iop_if > 1 || c->iop_rmw > 1 || (c->iop_rmw && !c->iop_if)) return 1;
    return c->yam_clk > 1023 || c->yam_sreg3 > 65535;
}

/* The bits that are set in any cell. */
static uint32_t joined(const uint32_t *cells, size_t count) {
    uint32_t all[8] = {0};
    size_t i = 0;
    for (; i + 8 <= count; i += 8)
        for (int k = 0; k < 8; k++) all[k] |= cells[i + k];
    for (; i < count; i++) all[0] |= cells[i];
    return all[0] | all[1] | all[2] | all[3] | all[4] | all[5] | all[6] | all[7];
}

uint32_t plain_ranges_number(const struct plain_config *c, const struct plain_machine *m, const uint32_t *registers, const uint32_t *memory,
                             size_t inputs_len, size_t log_len) {
    const uint32_t width = c->reg_width, mask = 0xffffffffu >> (32 - width), depth = m->depth;
    if (m->pc >= 1u << 23 || m->wp % 16 != 0 || m->wp > c->rm_size - c->reg_size) return 3;
    if (m->rx >= c->reg_size || m->ry >= c->reg_size || (!m->loaded && (m->rx | m->ry))) return 3;
    if ((m->n | m->z | m->mode | m->posted | m->loaded) > 1 || (m->imask | m->saved) > 15) return 3;
    if (m->spr7 > (width == 32 ? 0 : mask) || m->posted_address > (m->posted ? mask : 0)) return 3;
    if (plain_wide(m->input_position) > inputs_len || plain_wide(m->log_position) > log_len) return 3;
    if (depth > plain_stack_limit(c)) return 3;
    for (uint32_t i = 0; i < depth; i++)
        if (m->stack[i] > c->im_size) return 3;
    /* zeros above the stack to the record's end, but for the mark: in one go where that is 0 too */
    const uint32_t *words = &m->pc;
    if (m->loaded ? joined(m->stack + depth, 63 - depth) | joined(m->rest, 19) : joined(words + 17 + depth, 83 - depth)) return 3;
    if (width == 32) return 0; /* every cell fits */
    return (joined(registers, c->rm_size) | joined(memory, c->dm_size)) & ~mask ? 3 : 0;
}
