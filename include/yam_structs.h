/* The calls of yam.h on structs in place of lists of words. Each wrapper copies its structs into
   words, calls, and copies back what the call may write; it answers the call's number. Where a step
   must be quick, call yam.h on words.

   A pointer to an answer (`uint64_t *`, `uint32_t *`) may be null where the answer is not wanted.
   Pointers to structs may not. Lists are as in yam.h: null is allowed where a length is 0. */
#ifndef YAM_STRUCTS_H
#define YAM_STRUCTS_H
#include <string.h>
#include "yam.h"

/* The manual's generics, in the order of enum yam_config_word. */
struct yam_config {
    uint32_t imsize;
    uint32_t regwidth;
    uint32_t regsize;
    uint32_t rmsize;
    uint32_t pcstack;
    uint32_t dmsize;
    uint32_t dmpipe;
    uint32_t alulevel;
    uint32_t alumult;
    uint32_t aluspr;
    uint32_t iopif;
    uint32_t ioprmw;
    uint32_t yamclk;
    uint32_t yamsreg3;
    uint32_t alu3op;
    uint32_t irqif;
    uint32_t copmsize;
    uint32_t imwidth;
    uint32_t yamdbg;
};

/* A machine record, as enum yam_machine_word has it. */
struct yam_machine {
    uint32_t pc;
    uint32_t wp;
    uint32_t rx;
    uint32_t ry;
    uint32_t n;
    uint32_t z;
    uint32_t spr7;
    uint32_t depth;
    uint32_t imask;
    uint32_t saved;
    uint32_t mode;
    uint32_t posted;
    uint32_t port;
    uint64_t taken;
    uint64_t logged;
    uint32_t stack[YAM_STACK_WORDS];
    uint32_t loaded;
};

/* An instruction, as enum yam_instruction_word has it. */
struct yam_instruction {
    uint32_t row;
    uint32_t flag;
    uint32_t destination;
    uint32_t source;
    uint32_t number;
    uint32_t value;
};

/* What a step needs beside its configuration and machine. A call reads image and inputs, and may
   write the others. */
struct yam_lists {
    const uint32_t *image;
    size_t image_length;
    const uint32_t *inputs;
    size_t inputs_length;
    uint32_t *registers;
    size_t registers_length;
    uint32_t *memory;
    size_t memory_length;
    uint32_t *log_addresses;
    size_t log_addresses_length;
    uint32_t *log_values;
    size_t log_values_length;
};

/* The longest text of an instruction, in bytes (refusal 23), with a zero behind it. */
#define YAM_TEXT_ROOM 21

/* An image file has blocks of so many bytes: the first has the configuration, each other one so
   many words of the image. */
#define YAM_BLOCK_BYTES 512
#define YAM_BLOCK_WORDS 126

/* How many bytes the image file of so many words has. */
static inline size_t yam_file_length(uint32_t imsize)
{
    const size_t words = imsize;
    const size_t blocks = words / YAM_BLOCK_WORDS + (words % YAM_BLOCK_WORDS != 0);
    return YAM_BLOCK_BYTES + YAM_BLOCK_BYTES * blocks;
}

static inline void yam_config_to_words(const struct yam_config *config, uint32_t *words)
{
    words[YAM_CONFIG_IM_SIZE] = config->imsize;
    words[YAM_CONFIG_REG_WIDTH] = config->regwidth;
    words[YAM_CONFIG_REG_SIZE] = config->regsize;
    words[YAM_CONFIG_RM_SIZE] = config->rmsize;
    words[YAM_CONFIG_PC_STACK] = config->pcstack;
    words[YAM_CONFIG_DM_SIZE] = config->dmsize;
    words[YAM_CONFIG_DM_PIPE] = config->dmpipe;
    words[YAM_CONFIG_ALU_LEVEL] = config->alulevel;
    words[YAM_CONFIG_ALU_MULT] = config->alumult;
    words[YAM_CONFIG_ALU_SPR] = config->aluspr;
    words[YAM_CONFIG_IOP_IF] = config->iopif;
    words[YAM_CONFIG_IOP_RMW] = config->ioprmw;
    words[YAM_CONFIG_YAM_CLK] = config->yamclk;
    words[YAM_CONFIG_YAM_SREG3] = config->yamsreg3;
    words[YAM_CONFIG_ALU_3OP] = config->alu3op;
    words[YAM_CONFIG_IRQ_IF] = config->irqif;
    words[YAM_CONFIG_COPM_SIZE] = config->copmsize;
    words[YAM_CONFIG_IM_WIDTH] = config->imwidth;
    words[YAM_CONFIG_YAM_DBG] = config->yamdbg;
}

static inline void yam_config_from_words(struct yam_config *config, const uint32_t *words)
{
    config->imsize = words[YAM_CONFIG_IM_SIZE];
    config->regwidth = words[YAM_CONFIG_REG_WIDTH];
    config->regsize = words[YAM_CONFIG_REG_SIZE];
    config->rmsize = words[YAM_CONFIG_RM_SIZE];
    config->pcstack = words[YAM_CONFIG_PC_STACK];
    config->dmsize = words[YAM_CONFIG_DM_SIZE];
    config->dmpipe = words[YAM_CONFIG_DM_PIPE];
    config->alulevel = words[YAM_CONFIG_ALU_LEVEL];
    config->alumult = words[YAM_CONFIG_ALU_MULT];
    config->aluspr = words[YAM_CONFIG_ALU_SPR];
    config->iopif = words[YAM_CONFIG_IOP_IF];
    config->ioprmw = words[YAM_CONFIG_IOP_RMW];
    config->yamclk = words[YAM_CONFIG_YAM_CLK];
    config->yamsreg3 = words[YAM_CONFIG_YAM_SREG3];
    config->alu3op = words[YAM_CONFIG_ALU_3OP];
    config->irqif = words[YAM_CONFIG_IRQ_IF];
    config->copmsize = words[YAM_CONFIG_COPM_SIZE];
    config->imwidth = words[YAM_CONFIG_IM_WIDTH];
    config->yamdbg = words[YAM_CONFIG_YAM_DBG];
}

static inline void yam_machine_to_words(const struct yam_machine *machine, uint32_t *words)
{
    memset(words, 0, YAM_MACHINE_WORDS * sizeof *words);
    words[YAM_MACHINE_PC] = machine->pc;
    words[YAM_MACHINE_WP] = machine->wp;
    words[YAM_MACHINE_RX] = machine->rx;
    words[YAM_MACHINE_RY] = machine->ry;
    words[YAM_MACHINE_N] = machine->n;
    words[YAM_MACHINE_Z] = machine->z;
    words[YAM_MACHINE_SPR7] = machine->spr7;
    words[YAM_MACHINE_DEPTH] = machine->depth;
    words[YAM_MACHINE_IMASK] = machine->imask;
    words[YAM_MACHINE_SAVED] = machine->saved;
    words[YAM_MACHINE_MODE] = machine->mode;
    words[YAM_MACHINE_POSTED] = machine->posted;
    words[YAM_MACHINE_PORT] = machine->port;
    words[YAM_MACHINE_TAKEN_LOW] = (uint32_t)machine->taken;
    words[YAM_MACHINE_TAKEN_HIGH] = (uint32_t)(machine->taken >> 32);
    words[YAM_MACHINE_LOGGED_LOW] = (uint32_t)machine->logged;
    words[YAM_MACHINE_LOGGED_HIGH] = (uint32_t)(machine->logged >> 32);
    memcpy(words + YAM_MACHINE_STACK, machine->stack, sizeof machine->stack);
    words[YAM_MACHINE_LOADED] = machine->loaded;
}

/* The number of two words. */
static inline uint64_t yam_wide(uint32_t low, uint32_t high)
{
    return low | (uint64_t)high << 32;
}

static inline void yam_machine_from_words(struct yam_machine *machine, const uint32_t *words)
{
    machine->pc = words[YAM_MACHINE_PC];
    machine->wp = words[YAM_MACHINE_WP];
    machine->rx = words[YAM_MACHINE_RX];
    machine->ry = words[YAM_MACHINE_RY];
    machine->n = words[YAM_MACHINE_N];
    machine->z = words[YAM_MACHINE_Z];
    machine->spr7 = words[YAM_MACHINE_SPR7];
    machine->depth = words[YAM_MACHINE_DEPTH];
    machine->imask = words[YAM_MACHINE_IMASK];
    machine->saved = words[YAM_MACHINE_SAVED];
    machine->mode = words[YAM_MACHINE_MODE];
    machine->posted = words[YAM_MACHINE_POSTED];
    machine->port = words[YAM_MACHINE_PORT];
    machine->taken = yam_wide(words[YAM_MACHINE_TAKEN_LOW], words[YAM_MACHINE_TAKEN_HIGH]);
    machine->logged = yam_wide(words[YAM_MACHINE_LOGGED_LOW], words[YAM_MACHINE_LOGGED_HIGH]);
    memcpy(machine->stack, words + YAM_MACHINE_STACK, sizeof machine->stack);
    machine->loaded = words[YAM_MACHINE_LOADED];
}

static inline void yam_instruction_to_words(const struct yam_instruction *instruction,
                                            uint32_t *words)
{
    words[YAM_INSTRUCTION_ROW] = instruction->row;
    words[YAM_INSTRUCTION_FLAG] = instruction->flag;
    words[YAM_INSTRUCTION_DESTINATION] = instruction->destination;
    words[YAM_INSTRUCTION_SOURCE] = instruction->source;
    words[YAM_INSTRUCTION_NUMBER] = instruction->number;
    words[YAM_INSTRUCTION_VALUE] = instruction->value;
}

static inline void yam_instruction_from_words(struct yam_instruction *instruction,
                                              const uint32_t *words)
{
    instruction->row = words[YAM_INSTRUCTION_ROW];
    instruction->flag = words[YAM_INSTRUCTION_FLAG];
    instruction->destination = words[YAM_INSTRUCTION_DESTINATION];
    instruction->source = words[YAM_INSTRUCTION_SOURCE];
    instruction->number = words[YAM_INSTRUCTION_NUMBER];
    instruction->value = words[YAM_INSTRUCTION_VALUE];
}

/* Hands out an answer that is wanted. */
static inline void yam_answer(uint64_t *wanted, uint64_t answer)
{
    if (wanted != NULL)
        *wanted = answer;
}

/* yam_read: on a refusal the instruction is left as it was. */
static inline uint32_t yam_read_struct(const struct yam_config *config, uint32_t word,
                                       struct yam_instruction *instruction)
{
    uint32_t config_words[YAM_CONFIG_WORDS], words[YAM_INSTRUCTION_WORDS];
    uint32_t number;
    yam_config_to_words(config, config_words);
    number = yam_read(config_words, YAM_CONFIG_WORDS, word, words, YAM_INSTRUCTION_WORDS);
    if (number == YAM_PASSES)
        yam_instruction_from_words(instruction, words);
    return number;
}

/* yam_write: the word is 0 on a refusal. */
static inline uint32_t yam_write_struct(const struct yam_config *config,
                                        const struct yam_instruction *instruction, uint32_t *word)
{
    uint32_t config_words[YAM_CONFIG_WORDS], words[YAM_INSTRUCTION_WORDS];
    uint64_t answer = 0;
    uint32_t number;
    yam_config_to_words(config, config_words);
    yam_instruction_to_words(instruction, words);
    number = yam_write(config_words, YAM_CONFIG_WORDS, words, YAM_INSTRUCTION_WORDS, &answer, 1);
    if (word != NULL)
        *word = (uint32_t)answer;
    return number;
}

/* yam_reset, which always passes. */
static inline uint32_t yam_reset_struct(struct yam_machine *machine)
{
    uint32_t words[YAM_MACHINE_WORDS];
    const uint32_t number = yam_reset(words, YAM_MACHINE_WORDS);
    if (number == YAM_PASSES)
        yam_machine_from_words(machine, words);
    return number;
}

/* yam_step: on a refusal machine and lists are left as they were. */
static inline uint32_t yam_step_struct(const struct yam_config *config,
                                       const struct yam_lists *lists, struct yam_machine *machine,
                                       uint64_t *cycles)
{
    uint32_t config_words[YAM_CONFIG_WORDS], words[YAM_MACHINE_WORDS];
    uint64_t answer = 0;
    uint32_t number;
    yam_config_to_words(config, config_words);
    yam_machine_to_words(machine, words);
    number = yam_step(config_words, YAM_CONFIG_WORDS, lists->image, lists->image_length,
                      lists->inputs, lists->inputs_length, words, YAM_MACHINE_WORDS,
                      lists->registers, lists->registers_length, lists->memory,
                      lists->memory_length, lists->log_addresses, lists->log_addresses_length,
                      lists->log_values, lists->log_values_length, &answer, 1);
    yam_machine_from_words(machine, words);
    yam_answer(cycles, answer);
    return number;
}

/* yam_run: the steps done are kept, whatever ended the run. */
static inline uint32_t yam_run_struct(const struct yam_config *config,
                                      const struct yam_lists *lists, struct yam_machine *machine,
                                      uint64_t budget, uint64_t *steps, uint64_t *cycles)
{
    uint32_t config_words[YAM_CONFIG_WORDS], words[YAM_MACHINE_WORDS];
    uint64_t answers[2] = {0, 0};
    uint32_t number;
    yam_config_to_words(config, config_words);
    yam_machine_to_words(machine, words);
    number = yam_run(config_words, YAM_CONFIG_WORDS, lists->image, lists->image_length,
                     lists->inputs, lists->inputs_length, words, YAM_MACHINE_WORDS,
                     lists->registers, lists->registers_length, lists->memory, lists->memory_length,
                     lists->log_addresses, lists->log_addresses_length, lists->log_values,
                     lists->log_values_length, budget, answers, 2);
    yam_machine_from_words(machine, words);
    yam_answer(steps, answers[0]);
    yam_answer(cycles, answers[1]);
    return number;
}

/* yam_check: the level on a pass, address and rule beside YAM_RULE_BROKEN; what is not answered is
   0. */
static inline uint32_t yam_check_struct(const struct yam_config *config, const uint32_t *image,
                                        size_t image_length, const uint8_t *certificate,
                                        size_t certificate_length, uint64_t *level,
                                        uint64_t *address, uint64_t *rule)
{
    uint32_t config_words[YAM_CONFIG_WORDS];
    uint64_t answers[2] = {0, 0};
    uint32_t number;
    yam_config_to_words(config, config_words);
    number = yam_check(config_words, YAM_CONFIG_WORDS, image, image_length, certificate,
                       certificate_length, answers, 2);
    yam_answer(level, number == YAM_PASSES ? answers[0] : 0);
    yam_answer(address, number == YAM_RULE_BROKEN ? answers[0] : 0);
    yam_answer(rule, number == YAM_RULE_BROKEN ? answers[1] : 0);
    return number;
}

/* yam_text: the text of a word as a string of YAM_TEXT_ROOM bytes; the empty one on a refusal. */
static inline uint32_t yam_text_struct(const struct yam_config *config, uint32_t word, char *text)
{
    uint32_t config_words[YAM_CONFIG_WORDS];
    uint8_t page[YAM_TEXT_ROOM] = {0};
    uint32_t number;
    yam_config_to_words(config, config_words);
    number = yam_text(config_words, YAM_CONFIG_WORDS, word, page, YAM_TEXT_ROOM - 1, 0, NULL, 0);
    memcpy(text, page, YAM_TEXT_ROOM);
    return number;
}

/* yam_list: the place after the last whole line, and the address of the next one. */
static inline uint32_t yam_list_struct(const struct yam_config *config, const uint32_t *image,
                                       size_t image_length, uint64_t first, uint8_t *page,
                                       size_t page_length, uint64_t place, uint64_t *after,
                                       uint64_t *next)
{
    uint32_t config_words[YAM_CONFIG_WORDS];
    uint64_t answers[2] = {0, 0};
    uint32_t number;
    yam_config_to_words(config, config_words);
    number = yam_list(config_words, YAM_CONFIG_WORDS, image, image_length, first, page, page_length,
                      place, answers, 2);
    yam_answer(after, answers[0]);
    yam_answer(next, answers[1]);
    return number;
}

/* yam_assemble: how many words were written, and the line that is refused. */
static inline uint32_t yam_assemble_struct(const struct yam_config *config, const char *text,
                                           size_t text_length, uint32_t *words, size_t words_length,
                                           uint64_t *count, uint64_t *line)
{
    uint32_t config_words[YAM_CONFIG_WORDS];
    uint64_t answers[2] = {0, 0};
    uint32_t number;
    yam_config_to_words(config, config_words);
    number = yam_assemble(config_words, YAM_CONFIG_WORDS, (const uint8_t *)text, text_length, words,
                          words_length, answers, 2);
    yam_answer(count, answers[0]);
    yam_answer(line, answers[1]);
    return number;
}

/* yam_load: on a refusal configuration and image are left as they were. */
static inline uint32_t yam_load_struct(const uint8_t *file, size_t file_length,
                                       struct yam_config *config, uint32_t *image,
                                       size_t image_length)
{
    uint32_t words[YAM_CONFIG_WORDS];
    const uint32_t number =
        yam_load(file, file_length, words, YAM_CONFIG_WORDS, image, image_length);
    if (number == YAM_PASSES)
        yam_config_from_words(config, words);
    return number;
}

/* yam_store: file has yam_file_length(IM_SIZE) bytes. */
static inline uint32_t yam_store_struct(const struct yam_config *config, const uint32_t *image,
                                        size_t image_length, uint8_t *file, size_t file_length)
{
    uint32_t words[YAM_CONFIG_WORDS];
    yam_config_to_words(config, words);
    return yam_store(words, YAM_CONFIG_WORDS, image, image_length, file, file_length);
}

#endif
