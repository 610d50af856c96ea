/* A plain interpreter of the YAM core, to compare speeds with. Numbers are document 01's. */
#ifndef PLAIN_H
#define PLAIN_H
#include <stddef.h>
#include <stdint.h>

struct plain_config {
    uint32_t im_size, reg_width, reg_size, rm_size, pc_stack, dm_size, dm_pipe, alu_level;
    uint32_t alu_mult, alu_spr, iop_if, iop_rmw, yam_clk, yam_sreg3;
    uint32_t alu_3op, irq_if, copm_size, im_width, yam_dbg;
};

/* The C interface's record, word by word; a position is its low word, then its high word. */
struct plain_machine {
    uint32_t pc, wp, rx, ry, n, z, spr7, depth, imask, saved, mode, posted, posted_address;
    uint32_t input_position[2], log_position[2];
    uint32_t stack[63], loaded, rest[19]; /* loaded: 1 once an LDYX has run since reset */
};

struct plain_answer {
    uint32_t number;
    uint64_t steps, cycles;
};

static inline uint64_t plain_wide(const uint32_t words[2]) { return words[0] | (uint64_t)words[1] << 32; }
static inline uint32_t plain_stack_limit(const struct plain_config *c) { return c->pc_stack == 1 ? 1 : c->pc_stack - 1; }

/* 1 where the configuration breaks the rules, else 0. Every other function here is given a lawful one and lists as long as it says:
   1 and 2 are the caller's (plain_calls.c). */
uint32_t plain_config_number(const struct plain_config *c);

/* 3 where the record is not in its ranges or a cell is too wide, else 0. */
uint32_t plain_ranges_number(const struct plain_config *c, const struct plain_machine *m, const uint32_t *registers, const uint32_t *memory,
                             size_t inputs_len, size_t log_len);

/* At most `budget` steps from a state that is in its ranges. */
void plain_run(const struct plain_config *c, const uint32_t *image, const uint32_t *inputs, size_t inputs_len,
               struct plain_machine *m, uint32_t *registers, uint32_t *memory, uint32_t *log_a, uint32_t *log_v,
               size_t log_len, uint64_t budget, struct plain_answer *out);

/* 5, 6 or 7 where the word cannot be read, else 0. */
uint32_t plain_verdict(const struct plain_config *c, uint32_t word);

/* The library's number of the row of a word that can be read under some configuration. */
uint32_t plain_row(uint32_t word);

/* 5, 6, 7, or 0 with the parts: row, flag, 22-16, 6-0, byte number, value. */
uint32_t plain_read(const struct plain_config *c, uint32_t word, uint32_t parts[6]);

/* Answers 0 or 17; address and rule (17) or the level at 0 and 0 (pass). */
uint32_t plain_check(const struct plain_config *c, const uint32_t *image, const uint8_t *sheet, uint64_t answers[2]);

/* Writes the configuration, which need not be lawful before, and the image; image_len is the length of the lent image. */
uint32_t plain_load(const uint8_t *file, size_t file_len, struct plain_config *c, uint32_t *image, size_t image_len);

/* Lists image[first..] into page from place on; answers the place reached and the next address. */
uint32_t plain_list(const struct plain_config *c, const uint32_t *image, uint64_t first, uint8_t *page, size_t page_len,
                    uint64_t place, uint64_t answers[2]);
/* The text of a word that can be read, without a terminating zero; returns its length. */
size_t plain_text(uint32_t word, uint8_t *out);

/* Source text into words: 36, 24, 26, 25, 6, 7, or 0. Answers how many words were written, and the
   line of a refusal that has one. */
uint32_t plain_assemble(const struct plain_config *c, const uint8_t *text, size_t text_len, uint32_t *words, size_t words_len,
                        uint64_t answers[2]);
#endif
