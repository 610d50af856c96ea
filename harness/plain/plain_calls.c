/* The calls of the library's C interface over the plain programs, under names of their own: what the library is timed beside. With
   IN_PLACE they have the library's names and stand in its place, to try the harness itself; the header is included then, so that the
   compiler compares its declarations with these definitions. */
#include "plain.h"
#include "plain_kinds.h"
#include <string.h>
#include "../../include/yam_rows.h"
#ifdef IN_PLACE
#include "../../include/yam.h"
#define CALL(name) yam_##name
#else
#define CALL(name) flat_##name
#endif

/* The configuration as it stands, or null where 1 refuses it. */
static const struct plain_config *lawful(const uint32_t *words, size_t length) {
    const struct plain_config *c = (const struct plain_config *)words;
    return length == 19 && plain_config_number(c) == 0 ? c : NULL;
}

/* As many answers as there is room for. */
static void answer(uint64_t *answers, size_t length, size_t count, uint64_t first, uint64_t second) {
    if (length > 0) answers[0] = first;
    if (length > 1 && count > 1) answers[1] = second;
}

uint32_t CALL(read)(const uint32_t *config, size_t config_length, uint32_t word, uint32_t *instruction, size_t instruction_length) {
    const struct plain_config *c = lawful(config, config_length);
    if (!c) return 1;
    if (instruction_length == 6) return plain_read(c, word, instruction);
    const uint32_t number = plain_verdict(c, word);
    return number ? number : 7;
}

#define ROWS YAM_ROW_COUNT

/* The bits that choose each row, found by going through all of them; supported rows only. */
static const uint32_t *row_bits(void) {
    static uint32_t bits[ROWS];
    static int done;
    for (uint32_t top = 0; !done && top < 512; top++) {
        const uint32_t kind = plain_kinds[top], w = top << 23;
        if (kind == NO_ROW || kind == UNSUPPORTED || (kind <= LEVEL2 && top & 8) || (kind == LEVEL2 && top & 3)) continue;
        if (kind == LEVEL2) {
            const uint32_t codes[] = {0x01, 0x02, 0x06, 0x14, 0x18, 0x1c};
            for (int i = 0; i < 6; i++) bits[plain_row(w | codes[i] << 8)] = w | codes[i] << 8;
        } else if (kind == CONTROL) {
            const uint32_t codes[] = {0, 1, 4, 5};
            for (int i = 0; i < 4; i++) bits[plain_row(w | codes[i] << 16)] = w | codes[i] << 16;
        } else {
            bits[plain_row(w)] = w;
            if (kind == PORT_READ) bits[plain_row(w | 0x8000)] = w | 0x8000;
        }
    }
    done = 1;
    return bits;
}

/* Puts the parts together and reads the word back. Row 0 alone has no bits set. */
static uint32_t write_parts(const struct plain_config *c, const uint32_t *p, uint32_t *word) {
    if (p[0] >= ROWS) return 5;
    const uint32_t base = row_bits()[p[0]];
    uint32_t back[6];
    if ((base == 0 && p[0] != 0) || plain_verdict(c, base) == 6) return 6;
    if (p[1] > 1 || p[2] > 127 || p[3] > 127 || p[4] > 3 || p[5] > 0x7fffff) return 7;
    *word = base | p[1] << 26 | p[2] << 16 | p[3] | p[4] << 23 | p[5];
    return plain_read(c, *word, back) == 0 && memcmp(back, p, sizeof back) == 0 ? 0 : 7;
}

uint32_t CALL(write)(const uint32_t *config, size_t config_length, const uint32_t *instruction, size_t instruction_length,
                   uint64_t *answers, size_t answers_length) {
    const struct plain_config *c = lawful(config, config_length);
    uint32_t word = 0;
    const uint32_t number = !c ? 1 : instruction_length == 6 ? write_parts(c, instruction, &word) : 7;
    answer(answers, answers_length, 1, number ? 0 : word, 0);
    return number;
}

uint32_t CALL(reset)(uint32_t *machine, size_t machine_length) {
    if (machine_length != 100) return 3;
    memset(machine, 0, 100 * sizeof *machine);
    machine[8] = machine[9] = 15;
    return 0;
}

/* 1, 2, 3, 16, then the steps. The record is lent as it stands. */
static void run_lists(const uint32_t *config, size_t config_length, const uint32_t *image, size_t image_length, const uint32_t *inputs,
                      size_t inputs_length, uint32_t *machine, size_t machine_length, uint32_t *registers, size_t registers_length,
                      uint32_t *memory, size_t memory_length, uint32_t *log_a, size_t log_a_length, uint32_t *log_v,
                      size_t log_v_length, uint64_t budget, struct plain_answer *out) {
    const struct plain_config *c = lawful(config, config_length);
    struct plain_machine *m = (struct plain_machine *)machine;
    out->steps = out->cycles = 0;
    if (!c) out->number = 1;
    else if (image_length != c->im_size || registers_length != c->rm_size || memory_length != c->dm_size || log_a_length != log_v_length)
        out->number = 2;
    else if (machine_length != 100 || plain_ranges_number(c, m, registers, memory, inputs_length, log_a_length) != 0) out->number = 3;
    else if (budget > 1000000) out->number = 16;
    else plain_run(c, image, inputs, inputs_length, m, registers, memory, log_a, log_v, log_a_length, budget, out);
}

uint32_t CALL(step)(const uint32_t *config, size_t config_length, const uint32_t *image, size_t image_length, const uint32_t *inputs,
                  size_t inputs_length, uint32_t *machine, size_t machine_length, uint32_t *registers, size_t registers_length,
                  uint32_t *memory, size_t memory_length, uint32_t *log_a, size_t log_a_length, uint32_t *log_v, size_t log_v_length,
                  uint64_t *answers, size_t answers_length) {
    struct plain_answer out;
    run_lists(config, config_length, image, image_length, inputs, inputs_length, machine, machine_length, registers, registers_length,
              memory, memory_length, log_a, log_a_length, log_v, log_v_length, 1, &out);
    answer(answers, answers_length, 1, out.cycles, 0);
    return out.number;
}

uint32_t CALL(run)(const uint32_t *config, size_t config_length, const uint32_t *image, size_t image_length, const uint32_t *inputs,
                 size_t inputs_length, uint32_t *machine, size_t machine_length, uint32_t *registers, size_t registers_length,
                 uint32_t *memory, size_t memory_length, uint32_t *log_a, size_t log_a_length, uint32_t *log_v, size_t log_v_length,
                 uint64_t budget, uint64_t *answers, size_t answers_length) {
    struct plain_answer out;
    run_lists(config, config_length, image, image_length, inputs, inputs_length, machine, machine_length, registers, registers_length,
              memory, memory_length, log_a, log_a_length, log_v, log_v_length, budget, &out);
    answer(answers, answers_length, 2, out.steps, out.cycles);
    return out.number;
}

uint32_t CALL(check)(const uint32_t *config, size_t config_length, const uint32_t *image, size_t image_length, const uint8_t *sheet,
                   size_t sheet_length, uint64_t *answers, size_t answers_length) {
    const struct plain_config *c = lawful(config, config_length);
    uint64_t two[2] = {0, 0};
    const uint32_t number =
        !c ? 1 : image_length != c->im_size || sheet_length != c->im_size ? 2 : plain_check(c, image, sheet, two);
    answer(answers, answers_length, 2, two[0], two[1]);
    return number;
}

uint32_t CALL(text)(const uint32_t *config, size_t config_length, uint32_t word, uint8_t *page, size_t page_length, uint64_t place,
                  uint64_t *answers, size_t answers_length) {
    const struct plain_config *c = lawful(config, config_length);
    uint8_t text[32];
    uint32_t number = c ? plain_verdict(c, word) : 1;
    if (number == 0) {
        const size_t length = plain_text(word, text);
        if (place > page_length || length > page_length - place) {
            number = 18;
        } else {
            memcpy(page + place, text, length);
            place += length;
        }
    }
    answer(answers, answers_length, 1, place, 0);
    return number;
}

uint32_t CALL(list)(const uint32_t *config, size_t config_length, const uint32_t *image, size_t image_length, uint64_t first,
                  uint8_t *page, size_t page_length, uint64_t place, uint64_t *answers, size_t answers_length) {
    const struct plain_config *c = lawful(config, config_length);
    uint64_t two[2] = {place, first};
    const uint32_t number = !c ? 1 : image_length != c->im_size ? 2 : plain_list(c, image, first, page, page_length, place, two);
    answer(answers, answers_length, 2, two[0], two[1]);
    return number;
}

uint32_t CALL(load)(const uint8_t *file, size_t file_length, uint32_t *config, size_t config_length, uint32_t *image, size_t image_length) {
    struct plain_config c;
    if (config_length != 19) return 1;
    const uint32_t number = plain_load(file, file_length, &c, image, image_length);
    if (number == 0) memcpy(config, &c, sizeof c);
    return number;
}

static void put_block(uint8_t *block, uint32_t number, const uint32_t *words, size_t count) {
    uint32_t sum = 512 + number;
    for (size_t i = 0; i < 128; i++) {
        const uint32_t w = i == 0 ? number : i == 127 ? sum : i <= count ? words[i - 1] : 0;
        if (i > 0 && i < 127) sum += w;
        for (int k = 0; k < 4; k++) block[4 * i + (size_t)k] = (uint8_t)(w >> (8 * k));
    }
}

uint32_t CALL(store)(const uint32_t *config, size_t config_length, const uint32_t *image, size_t image_length, uint8_t *file,
                   size_t file_length) {
    const struct plain_config *c = lawful(config, config_length);
    if (!c) return 1;
    if (image_length != c->im_size) return 2;
    const size_t blocks = (image_length + 125) / 126;
    if (file_length != 512 * (1 + blocks)) return 19;
    put_block(file, 0, config, 14);
    for (size_t i = 0; i < blocks; i++) {
        const size_t left = image_length - 126 * i;
        put_block(file + 512 * (i + 1), (uint32_t)(i + 1), image + 126 * i, left < 126 ? left : 126);
    }
    return 0;
}

uint32_t CALL(assemble)(const uint32_t *config, size_t config_length, const uint8_t *text, size_t text_length, uint32_t *words,
                      size_t words_length, uint64_t *answers, size_t answers_length) {
    const struct plain_config *c = lawful(config, config_length);
    uint64_t two[2] = {0, 0};
    const uint32_t number = c ? plain_assemble(c, text, text_length, words, words_length, two) : 1;
    answer(answers, answers_length, 2, two[0], two[1]);
    return number;
}
