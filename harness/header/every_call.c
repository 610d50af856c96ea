/* Calls every function of include/yam.h on document 01's six words and cases of both documents: C99 and C++17 alike, so that the header is read by
   both compilers. Exit status 1 on a difference. */
#include "yam.h"
#include "yam.h" /* a second time changes nothing */
#include <stdio.h>
#include <string.h>

#define WORDS 6
#define REGISTERS 16
#define MEMORY 32
#define FILE_BYTES 1024
#define PAGE_BYTES 512
#define MARK 0x5bu

static unsigned wrong = 0;

static void same(const char *what, uint64_t got, uint64_t wanted)
{
    if (got != wanted) {
        wrong += 1;
        printf("%s: %llx, and it should be %llx\n", what, (unsigned long long)got, (unsigned long long)wanted);
    }
}

static void same_bytes(const char *what, const void *got, const void *wanted, size_t length)
{
    same(what, (uint64_t)(memcmp(got, wanted, length) == 0), 1);
}

/* "such a file of W = 32, level 2, REG_SIZE 16, DM_SIZE 32" */
static const uint32_t config[YAM_CONFIG_WORDS] = {WORDS, 32, REGISTERS, REGISTERS, 16, MEMORY, 0, 2, 0, 0, 0, 0, 0, 0, 0, 0, 0, 32, 0};
static const uint32_t image[WORDS] = {0xa2860010u, 0x9c041402u, 0x98061800u, 0x46860001u, 0xc1000002u, 0xc0000005u};
static const char listed[] = "000000 a2860010 MOV %06,#0010\n"
                             "000001 9c041402 LDYX %04,%02\n"
                             "000002 98061800 MOVX @%06,@%X+,S\n"
                             "000003 46860001 ADD %06,#0001\n"
                             "000004 c1000002 JMP 000002,NZ\n"
                             "000005 c0000005 JMP 000005\n";
static const char source[] = "MOV %06,#0010\nLDYX %04,%02\nloop: MOVX @%06,@%X+,S\nADD %06,#0001\nJMP loop,NZ\nhalt: JMP halt\n";

/* A machine and its lists. */
static uint32_t machine[YAM_MACHINE_WORDS], registers[REGISTERS], memory[MEMORY], log_addresses[2], log_values[2];
static const uint32_t inputs[1] = {0};

static void at_reset(void)
{
    size_t i;
    memset(machine, MARK, sizeof machine);
    memset(registers, 0, sizeof registers);
    memset(memory, 0, sizeof memory);
    same("reset", yam_reset(machine, YAM_MACHINE_WORDS), 0);
    for (i = 0; i < YAM_MACHINE_WORDS; i += 1)
        same("a word at reset", machine[i], i == YAM_MACHINE_IMASK || i == YAM_MACHINE_SAVED ? 15 : 0);
    for (i = 2; i <= 4; i += 1)
        registers[i] = (uint32_t)(i + 5);
}

static void words(void)
{
    uint32_t parts[YAM_INSTRUCTION_WORDS];
    const uint32_t add[YAM_INSTRUCTION_WORDS] = {YAM_ROW_ADD_SIGNED, 1, 6, 0, 0, 1};
    uint64_t answers[1] = {MARK};
    same("read", yam_read(config, YAM_CONFIG_WORDS, image[3], parts, YAM_INSTRUCTION_WORDS), 0);
    same_bytes("the parts", parts, add, sizeof add);
    same("write", yam_write(config, YAM_CONFIG_WORDS, add, YAM_INSTRUCTION_WORDS, answers, 1), 0);
    same("the word", answers[0], image[3]);
    same("read 58000000", yam_read(config, YAM_CONFIG_WORDS, 0x58000000u, parts, YAM_INSTRUCTION_WORDS), 5);
    same("read 00000080", yam_read(config, YAM_CONFIG_WORDS, 0x00000080u, parts, YAM_INSTRUCTION_WORDS), 7);
    same("the parts as they were", parts[0], YAM_ROW_ADD_SIGNED);
    same("reset, 99 words", yam_reset(machine, YAM_MACHINE_WORDS - 1), 3);
}

static void after_eleven_steps(const char *what)
{
    size_t i;
    same(what, machine[YAM_MACHINE_PC], 5);
    same(what, machine[YAM_MACHINE_RX], 5);
    same(what, machine[YAM_MACHINE_LOADED], 1);
    same(what, registers[6], 19);
    for (i = 0; i < MEMORY; i += 1)
        same(what, memory[i], i >= 16 && i <= 18 ? i - 9 : 0);
}

static void steps(void)
{
    uint64_t answers[2], cycles = 0;
    int i;
    at_reset();
    for (i = 0; i < 11; i += 1) {
        same("step",
             yam_step(config, YAM_CONFIG_WORDS, image, WORDS, inputs, 0, machine, YAM_MACHINE_WORDS, registers, REGISTERS, memory, MEMORY,
                      log_addresses, 0, log_values, 0, answers, 1),
             0);
        cycles += answers[0];
    }
    same("the cycles of eleven steps", cycles, 22);
    after_eleven_steps("after eleven steps");
    at_reset();
    same("run",
         yam_run(config, YAM_CONFIG_WORDS, image, WORDS, inputs, 1, machine, YAM_MACHINE_WORDS, registers, REGISTERS, memory, MEMORY,
                 log_addresses, 2, log_values, 2, 11, answers, 2),
         0);
    same("its steps", answers[0], 11);
    same("its cycles", answers[1], 22);
    after_eleven_steps("after a run of eleven");
    same("a run of 1,000,001",
         yam_run(config, YAM_CONFIG_WORDS, image, WORDS, inputs, 1, machine, YAM_MACHINE_WORDS, registers, REGISTERS, memory, MEMORY,
                 log_addresses, 2, log_values, 2, 1000001, answers, 2),
         16);
    at_reset();
    machine[YAM_MACHINE_PC] = 2;
    same("MOVX from reset",
         yam_step(config, YAM_CONFIG_WORDS, image, WORDS, inputs, 0, machine, YAM_MACHINE_WORDS, registers, REGISTERS, memory, MEMORY,
                  log_addresses, 0, log_values, 0, answers, 1),
         27);
    same("its mark", machine[YAM_MACHINE_LOADED], 0);
    machine[YAM_MACHINE_LOADED] = 2;
    same("a mark of 2",
         yam_step(config, YAM_CONFIG_WORDS, image, WORDS, inputs, 0, machine, YAM_MACHINE_WORDS, registers, REGISTERS, memory, MEMORY,
                  log_addresses, 0, log_values, 0, answers, 1),
         3);
    same("a log of unlike lists",
         yam_step(config, YAM_CONFIG_WORDS, image, WORDS, inputs, 0, machine, YAM_MACHINE_WORDS, registers, REGISTERS, memory, MEMORY,
                  log_addresses, 2, log_values, 1, answers, 1),
         2);
}

static void certificate(void)
{
    static const uint8_t used[WORDS] = {0, 0, 0, 0, 0, 0}, unused[WORDS] = {0, 0, 0, 255, 0, 0};
    uint64_t answers[2] = {MARK, MARK};
    same("check", yam_check(config, YAM_CONFIG_WORDS, image, WORDS, used, WORDS, answers, 2), 0);
    same("the level", answers[0], 0);
    same("check, 3 unused", yam_check(config, YAM_CONFIG_WORDS, image, WORDS, unused, WORDS, answers, 2), 17);
    same("the address", answers[0], 2);
    same("the rule", answers[1], 4);
}

static void texts(void)
{
    uint8_t page[PAGE_BYTES];
    uint32_t made[WORDS + 1];
    uint64_t answers[2];
    const size_t length = sizeof listed - 1;
    memset(page, MARK, sizeof page);
    same("text", yam_text(config, YAM_CONFIG_WORDS, image[2], page, PAGE_BYTES, 2, answers, 1), 0);
    same("the place after it", answers[0], 18);
    same_bytes("its page", page, "\x5b\x5bMOVX @%06,@%X+,S\x5b", 19);
    memset(page, MARK, sizeof page);
    same("list", yam_list(config, YAM_CONFIG_WORDS, image, WORDS, 0, page, PAGE_BYTES, 0, answers, 2), 0);
    same("the place after the list", answers[0], length);
    same("the next address", answers[1], WORDS);
    same_bytes("the lines", page, listed, length);
    same("behind the lines", page[length], MARK);
    same("list from 5 on, page too small", yam_list(config, YAM_CONFIG_WORDS, image, WORDS, 5, page, 20, 0, answers, 2), 18);
    same("its next address", answers[1], 5);
    memset(made, MARK, sizeof made);
    same("assemble", yam_assemble(config, YAM_CONFIG_WORDS, (const uint8_t *)source, sizeof source - 1, made, WORDS + 1, answers, 2), 0);
    same("how many words", answers[0], WORDS);
    same_bytes("the words", made, image, sizeof image);
    same("behind the words", made[WORDS], 0x5b5b5b5bu);
    same("assemble RET, WRONG", yam_assemble(config, YAM_CONFIG_WORDS, (const uint8_t *)"RET\nWRONG", 9, made, WORDS, answers, 2), 26);
    same("its line", answers[1], 2);
}

static void files(void)
{
    uint8_t file[FILE_BYTES];
    uint32_t fields[YAM_CONFIG_WORDS], loaded[WORDS];
    memset(file, MARK, sizeof file);
    same("store", yam_store(config, YAM_CONFIG_WORDS, image, WORDS, file, FILE_BYTES), 0);
    same("load", yam_load(file, FILE_BYTES, fields, YAM_CONFIG_WORDS, loaded, WORDS), 0);
    same_bytes("the configuration", fields, config, sizeof config);
    same_bytes("the image", loaded, image, sizeof image);
    same("store into 1,023 bytes", yam_store(config, YAM_CONFIG_WORDS, image, WORDS, file, FILE_BYTES - 1), 19);
    file[600] ^= 1;
    same("load what was changed", yam_load(file, FILE_BYTES, fields, YAM_CONFIG_WORDS, loaded, WORDS), 21);
}

int main(void)
{
    words();
    steps();
    certificate();
    texts();
    files();
    if (wrong == 0)
#ifdef __cplusplus
        printf("every call from C++17: as the documents say\n");
#else
        printf("every call from C99: as the documents say\n");
#endif
    return wrong == 0 ? 0 : 1;
}
