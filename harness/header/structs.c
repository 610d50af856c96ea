/* Calls every wrapper of include/yam_structs.h, and compares what it answers and leaves with the
   same call of include/yam.h on words. The argument is examples/six_words.img. Exit status 1 on a
   difference. */
#include "yam_structs.h"
#include "yam_structs.h" /* a second time changes nothing */
#include <stdio.h>

#define WORDS 6
#define REGISTERS 16
#define MEMORY 32
#define FILE_BYTES 1024
#define PAGE_BYTES 512
#define STEPS 11
#define CYCLES 22
#define FIRST_VALUE 1000u /* words that all differ start here */
#define MARK 0x5b
#ifdef __cplusplus
#define LANGUAGE "C++17"
#else
#define LANGUAGE "C99"
#endif

static unsigned wrong = 0;

static void same(const char *what, uint64_t got, uint64_t wanted)
{
    if (got != wanted) {
        wrong += 1;
        printf("%s: %llx, and it should be %llx\n", what, (unsigned long long)got,
               (unsigned long long)wanted);
    }
}

static void same_bytes(const char *what, const void *got, const void *wanted, size_t length)
{
    same(what, (uint64_t)(memcmp(got, wanted, length) == 0), 1);
}

static uint8_t file[FILE_BYTES];
static uint32_t image[WORDS], config_words[YAM_CONFIG_WORDS];
static struct yam_config config;

/* Words that all differ, as a struct and back. A machine's last words are zeros. */
static void conversions(void)
{
    uint32_t words[YAM_MACHINE_WORDS], back[YAM_MACHINE_WORDS];
    struct yam_config c;
    struct yam_machine m;
    struct yam_instruction i;
    uint32_t at;
    for (at = 0; at < YAM_MACHINE_WORDS; at += 1)
        words[at] = at < YAM_MACHINE_ZEROS ? FIRST_VALUE + at : 0;
    memset(back, MARK, sizeof back);
    yam_config_from_words(&c, words);
    yam_config_to_words(&c, back);
    same_bytes("a configuration, there and back", back, words, YAM_CONFIG_WORDS * sizeof *words);
    same("IM_SIZE", c.imsize, FIRST_VALUE + YAM_CONFIG_IM_SIZE);
    same("YAM_DBG", c.yamdbg, FIRST_VALUE + YAM_CONFIG_WORDS - 1);
    memset(back, MARK, sizeof back);
    yam_instruction_from_words(&i, words);
    yam_instruction_to_words(&i, back);
    same_bytes("an instruction, there and back", back, words,
               YAM_INSTRUCTION_WORDS * sizeof *words);
    same("value", i.value, FIRST_VALUE + YAM_INSTRUCTION_WORDS - 1);
    memset(back, MARK, sizeof back);
    yam_machine_from_words(&m, words);
    yam_machine_to_words(&m, back);
    same_bytes("a machine, there and back", back, words, sizeof words);
    same("PC", m.pc, FIRST_VALUE);
    same("the inputs taken", m.taken, FIRST_VALUE + 13 + ((uint64_t)(FIRST_VALUE + 14) << 32));
    same("the log's places", m.logged, FIRST_VALUE + 15 + ((uint64_t)(FIRST_VALUE + 16) << 32));
    same("the last address of the stack", m.stack[YAM_STACK_WORDS - 1],
         FIRST_VALUE + YAM_MACHINE_LOADED - 1);
    same("loaded", m.loaded, FIRST_VALUE + YAM_MACHINE_LOADED);
}

static void files(const char *name)
{
    uint8_t again[FILE_BYTES];
    struct yam_config kept;
    FILE *from = fopen(name, "rb");
    same("the example", (uint64_t)(from != NULL && fread(file, 1, FILE_BYTES, from) == FILE_BYTES),
         1);
    if (from != NULL)
        fclose(from);
    same("load", yam_load_struct(file, FILE_BYTES, &config, image, WORDS), YAM_PASSES);
    same("load on words", yam_load(file, FILE_BYTES, config_words, YAM_CONFIG_WORDS, image, WORDS),
         YAM_PASSES);
    same("IM_SIZE", config.imsize, WORDS);
    same("REG_WIDTH", config.regwidth, 32);
    same("RM_SIZE", config.rmsize, REGISTERS);
    same("PC_STACK", config.pcstack, 16);
    same("DM_SIZE", config.dmsize, MEMORY);
    same("ALU_LEVEL", config.alulevel, 2);
    same("IM_WIDTH", config.imwidth, 32);
    same("its file's length", yam_file_length(config.imsize), FILE_BYTES);
    same("the length of 126 words", yam_file_length(YAM_BLOCK_WORDS), 2 * YAM_BLOCK_BYTES);
    same("the length of 127 words", yam_file_length(YAM_BLOCK_WORDS + 1), 3 * YAM_BLOCK_BYTES);
    same("store", yam_store_struct(&config, image, WORDS, again, FILE_BYTES), YAM_PASSES);
    same_bytes("the file", again, file, FILE_BYTES);
    kept = config;
    again[FILE_BYTES - 1] ^= 1;
    same("load a wrong checksum", yam_load_struct(again, FILE_BYTES, &kept, image, WORDS),
         YAM_BLOCK_CHECK);
    same_bytes("its configuration", &kept, &config, sizeof config);
    kept.imsize = 0;
    same("store an unlawful configuration",
         yam_store_struct(&kept, image, WORDS, again, FILE_BYTES), YAM_UNLAWFUL_CONFIG);
}

static void words(void)
{
    struct yam_instruction add, kept;
    uint32_t word = 0;
    char text[YAM_TEXT_ROOM];
    same("read", yam_read_struct(&config, image[3], &add), YAM_PASSES);
    same("its row", add.row, YAM_ROW_ADD_SIGNED);
    same("its flag", add.flag, 1);
    same("its destination", add.destination, 6);
    same("its value", add.value, 1);
    same("write", yam_write_struct(&config, &add, &word), YAM_PASSES);
    same("the word", word, image[3]);
    same("write, the word not wanted", yam_write_struct(&config, &add, NULL), YAM_PASSES);
    kept = add;
    same("read 58000000", yam_read_struct(&config, 0x58000000u, &kept), YAM_NO_ROW);
    same_bytes("the instruction", &kept, &add, sizeof add);
    add.destination = REGISTERS;
    same("write to register 16", yam_write_struct(&config, &add, &word), YAM_BEYOND_LIMIT);
    same("its word", word, 0);
    same("text", yam_text_struct(&config, image[2], text), YAM_PASSES);
    same("the longest text", (uint64_t)strcmp(text, "MOVX @%06,@%X+,S"), 0);
    same("text of 00000080", yam_text_struct(&config, 0x00000080u, text), YAM_BEYOND_LIMIT);
    same("its text", text[0], 0);
}

/* A machine and its lists, once for the wrappers and once for words. */
struct bench {
    uint32_t machine[YAM_MACHINE_WORDS], registers[REGISTERS], memory[MEMORY];
};

static void same_state(const char *what, const struct yam_machine *machine, const struct bench *got,
                       const struct bench *wanted)
{
    uint32_t flat[YAM_MACHINE_WORDS];
    yam_machine_to_words(machine, flat);
    same_bytes(what, flat, wanted->machine, sizeof flat);
    same_bytes(what, got->registers, wanted->registers, sizeof got->registers);
    same_bytes(what, got->memory, wanted->memory, sizeof got->memory);
}

static uint32_t step_on_words(struct bench *b, uint64_t *cycles)
{
    return yam_step(config_words, YAM_CONFIG_WORDS, image, WORDS, NULL, 0, b->machine,
                    YAM_MACHINE_WORDS, b->registers, REGISTERS, b->memory, MEMORY, NULL, 0, NULL, 0,
                    cycles, 1);
}

static void steps(void)
{
    static struct bench structs, flat;
    struct yam_lists lists = {
        image, WORDS, NULL, 0, structs.registers, REGISTERS, structs.memory, MEMORY,
        NULL,  0,     NULL, 0};
    struct yam_machine machine;
    uint64_t done = 0, cycles = 0, flat_cycles = 0, all = 0;
    int i;
    same("reset", yam_reset_struct(&machine), YAM_PASSES);
    same("reset on words", yam_reset(flat.machine, YAM_MACHINE_WORDS), YAM_PASSES);
    same_state("at reset", &machine, &structs, &flat);
    for (i = 2; i <= 4; i += 1)
        structs.registers[i] = flat.registers[i] = (uint32_t)(i + 5);
    for (i = 0; i < STEPS; i += 1) {
        same("step", yam_step_struct(&config, &lists, &machine, &cycles), YAM_PASSES);
        same("step on words", step_on_words(&flat, &flat_cycles), YAM_PASSES);
        same("its cycles", cycles, flat_cycles);
        same_state("after a step", &machine, &structs, &flat);
        all += cycles;
    }
    same("the cycles", all, CYCLES);
    same("PC", machine.pc, 5);
    same("loaded", machine.loaded, 1);
    same("register 6", structs.registers[6], 19);
    machine.pc = WORDS;
    same("PC outside", yam_step_struct(&config, &lists, &machine, NULL), YAM_PC_OUTSIDE);
    same("PC as it was", machine.pc, WORDS);
    machine.loaded = 2;
    same("loaded is 2", yam_step_struct(&config, &lists, &machine, &cycles), YAM_OUT_OF_RANGE);
    same("no cycles", cycles, 0);
    yam_reset_struct(&machine);
    memset(structs.registers, 0, sizeof structs.registers);
    memset(structs.memory, 0, sizeof structs.memory);
    for (i = 2; i <= 4; i += 1)
        structs.registers[i] = (uint32_t)(i + 5);
    same("run", yam_run_struct(&config, &lists, &machine, STEPS, &done, &cycles), YAM_PASSES);
    same("its steps", done, STEPS);
    same("its cycles", cycles, CYCLES);
    same_state("after a run", &machine, &structs, &flat);
    same("a budget above the limit", yam_run_struct(&config, &lists, &machine, 1000001, NULL, NULL),
         YAM_BUDGET);
    lists.log_values_length = 1;
    lists.log_values = structs.memory;
    same("a log of unlike lists", yam_step_struct(&config, &lists, &machine, NULL),
         YAM_WRONG_LENGTH);
}

static void verdicts(void)
{
    static const uint8_t used[WORDS] = {0}, unused[WORDS] = {0, 0, 0, 255, 0, 0};
    uint64_t level = MARK, address = MARK, rule = MARK;
    same("check", yam_check_struct(&config, image, WORDS, used, WORDS, &level, &address, &rule),
         YAM_PASSES);
    same("level, address, rule", level | address | rule, 0);
    same("check, 3 unused",
         yam_check_struct(&config, image, WORDS, unused, WORDS, &level, &address, &rule),
         YAM_RULE_BROKEN);
    same("the level", level, 0);
    same("the address", address, 2);
    same("the rule", rule, 4);
    same("check, too short",
         yam_check_struct(&config, image, WORDS, used, WORDS - 1, NULL, NULL, NULL),
         YAM_WRONG_LENGTH);
}

static void texts(void)
{
    static const char source[] = "MOV %06,#0010\nLDYX %04,%02\nloop: MOVX @%06,@%X+,S\nADD "
                                 "%06,#0001\nJMP loop,NZ\nhalt: JMP halt\n";
    static const char bad[] = "RET\nWRONG";
    uint8_t page[PAGE_BYTES], wanted[PAGE_BYTES];
    uint32_t made[WORDS];
    uint64_t after = 0, next = 0, count = 0, line = 0, answers[2];
    memset(page, MARK, sizeof page);
    memset(wanted, MARK, sizeof wanted);
    same("list", yam_list_struct(&config, image, WORDS, 0, page, PAGE_BYTES, 0, &after, &next),
         YAM_PASSES);
    same("list on words",
         yam_list(config_words, YAM_CONFIG_WORDS, image, WORDS, 0, wanted, PAGE_BYTES, 0, answers,
                  2),
         YAM_PASSES);
    same("the place", after, answers[0]);
    same("the next address", next, WORDS);
    same_bytes("the lines", page, wanted, sizeof page);
    same("list on a small page",
         yam_list_struct(&config, image, WORDS, 5, page, 20, 0, NULL, &next), YAM_PAGE_FULL);
    same("its next address", next, 5);
    same("assemble",
         yam_assemble_struct(&config, source, sizeof source - 1, made, WORDS, &count, &line),
         YAM_PASSES);
    same("how many words", count, WORDS);
    same_bytes("the words", made, image, sizeof made);
    same("assemble RET, WRONG",
         yam_assemble_struct(&config, bad, sizeof bad - 1, made, WORDS, NULL, &line),
         YAM_LINE_FORM);
    same("its line", line, 2);
}

/* A number's meaning, also of one that is none. */
static void meanings(void)
{
    same("the meaning of 16", (uint64_t)strcmp(yam_meaning(YAM_BUDGET), "A budget above 1,000,000"),
         0);
    same("the meaning of 0", (uint64_t)strcmp(yam_meaning(YAM_PASSES), "Passes"), 0);
    same("the meaning of none",
         (uint64_t)strcmp(yam_meaning(UINT32_MAX), yam_meaning(YAM_SOURCE_TOO_LONG + 1)), 0);
}

int main(int count, char **arguments)
{
    if (count != 2) {
        fprintf(stderr, "usage: %s examples/six_words.img\n", arguments[0]);
        return 2;
    }
    conversions();
    files(arguments[1]);
    words();
    steps();
    verdicts();
    texts();
    meanings();
    if (wrong == 0)
        printf("%s: the wrappers for structs are as the calls on words\n", LANGUAGE);
    return wrong != 0;
}
