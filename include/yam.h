/* The YAM core model: the C interface of the proved library, libyam_c.a (`tools/staticlib`
   builds it, `tools/install PREFIX` installs it with its headers).

   Every call takes arbitrary values and lengths, ends, and answers the documents' number: 0 for a
   pass, else the refusal or stop (yam_refusals.h has their names, docs/refusals.md an example of
   each). A list is a pointer and its length in elements. Where a length is 0 the pointer is not
   read, and may be null. Lists that a call may write must not overlap with any other list of that
   call. Calls hold no state of their own, so several threads may call at once, each with its own
   lists. No call takes more than 64 KB of stack, whatever its lengths and its configuration, so
   that threads with small stacks may call too (harness/test tries it).

   What a call may write, it writes as said there, and nothing else. `answers` takes what a call
   answers beside its number, as many as it has room for; places beyond are left as they were.
   Beside a refusal the answers are 0, but a run answers its steps and cycles, 17 its address and
   rule, a text its place, a listing its place and next address, assembling the line of 24, 25, 26,
   6 and 7.

   yam_structs.h has the same calls on structs. */
#ifndef YAM_H
#define YAM_H
#include <stddef.h>
#include <stdint.h>
#include "yam_refusals.h"
#include "yam_rows.h"

/* The version of the interface, as the pkg-config file and the bindings have it. */
#define YAM_VERSION_MAJOR 1
#define YAM_VERSION_MINOR 0
#define YAM_VERSION_PATCH 0
#define YAM_VERSION "1.0.0"

/* A configuration, the manual's generics: block 0's fourteen in its order, then five that an image
   file does not have. Another length is refused by 1. */
#define YAM_CONFIG_WORDS 19
enum yam_config_word {
    YAM_CONFIG_IM_SIZE = 0,
    YAM_CONFIG_REG_WIDTH = 1,
    YAM_CONFIG_REG_SIZE = 2,
    YAM_CONFIG_RM_SIZE = 3,
    YAM_CONFIG_PC_STACK = 4,
    YAM_CONFIG_DM_SIZE = 5,
    YAM_CONFIG_DM_PIPE = 6,
    YAM_CONFIG_ALU_LEVEL = 7,
    YAM_CONFIG_ALU_MULT = 8,
    YAM_CONFIG_ALU_SPR = 9,
    YAM_CONFIG_IOP_IF = 10,
    YAM_CONFIG_IOP_RMW = 11,
    YAM_CONFIG_YAM_CLK = 12,
    YAM_CONFIG_YAM_SREG3 = 13,
    YAM_CONFIG_ALU_3OP = 14,
    YAM_CONFIG_IRQ_IF = 15,
    YAM_CONFIG_COPM_SIZE = 16,
    YAM_CONFIG_IM_WIDTH = 17,
    YAM_CONFIG_YAM_DBG = 18
};

/* A machine record. Another length, or one of the last nineteen words not zero, is refused by 3,
   after 1 and 2. */
#define YAM_MACHINE_WORDS 100
#define YAM_STACK_WORDS 63
enum yam_machine_word {
    YAM_MACHINE_PC = 0,
    YAM_MACHINE_WP = 1,
    YAM_MACHINE_RX = 2,
    YAM_MACHINE_RY = 3,
    YAM_MACHINE_N = 4,
    YAM_MACHINE_Z = 5,
    YAM_MACHINE_SPR7 = 6,
    /* how many addresses the return stack holds */
    YAM_MACHINE_DEPTH = 7,
    YAM_MACHINE_IMASK = 8,
    /* the mask that SPR_ON saved */
    YAM_MACHINE_SAVED = 9,
    /* 1: special-register mode */
    YAM_MACHINE_MODE = 10,
    /* 1 straight after a port write, and its address */
    YAM_MACHINE_POSTED = 11,
    YAM_MACHINE_PORT = 12,
    /* how many inputs were taken, low word and high word */
    YAM_MACHINE_TAKEN_LOW = 13,
    YAM_MACHINE_TAKEN_HIGH = 14,
    /* how many places of the log are filled, likewise */
    YAM_MACHINE_LOGGED_LOW = 15,
    YAM_MACHINE_LOGGED_HIGH = 16,
    /* YAM_STACK_WORDS words: the return stack, oldest address first, zeros above */
    YAM_MACHINE_STACK = 17,
    /* 1 once an LDYX has run since reset; until then 0, and so are RX and RY */
    YAM_MACHINE_LOADED = 80,
    /* from here to the end: zeros */
    YAM_MACHINE_ZEROS = 81
};

/* An instruction. Parts are named by their place in the word; a part that the row does not use is
   0. Another length is refused by 7, after 1. */
#define YAM_INSTRUCTION_WORDS 6
enum yam_instruction_word {
    /* yam_rows.h */
    YAM_INSTRUCTION_ROW = 0,
    /* bit 26 of an ALU word as it stands: 0 updates the flags */
    YAM_INSTRUCTION_FLAG = 1,
    /* what stands in bits 22-16: also the source register of MOV &a,%s, the register of JMP @ and
       JSR @, the address register of MOVX to data memory, RY of LDYX, WP/16 of JSRWP */
    YAM_INSTRUCTION_DESTINATION = 2,
    /* what stands in bits 6-0: also the address register of MOVX from data memory, RX of LDYX */
    YAM_INSTRUCTION_SOURCE = 3,
    /* the byte number, 0 to 3, of BST, BLD and BLDS */
    YAM_INSTRUCTION_NUMBER = 4,
    /* what stands in bits 15-0 (immediate, shift count, data address, JSRWP address) or 22-0
       (target of JMP and JSR); a target and a JSRWP address are below IM_SIZE, else 7 */
    YAM_INSTRUCTION_VALUE = 5
};

#ifdef __cplusplus
extern "C" {
#endif

/* Reads a word: 1, 5, 6, 7. On a pass the six words of `instruction` are written, on a refusal
   none. An `instruction` of another length than YAM_INSTRUCTION_WORDS is refused by 7, after the
   word's own refusals. */
uint32_t yam_read(const uint32_t *config, size_t config_length, uint32_t word, uint32_t *instruction, size_t instruction_length);

/* Writes an instruction as a word: 1, 5, 6, 7. answers: the word. */
uint32_t yam_write(const uint32_t *config, size_t config_length, const uint32_t *instruction, size_t instruction_length, uint64_t *answers,
                   size_t answers_length);

/* The machine at reset: 3 where the list is not YAM_MACHINE_WORDS long, and then it is left as it
   was; else all its words are written. */
uint32_t yam_reset(uint32_t *machine, size_t machine_length);

/* One step: 1; 2 (lengths: image IM_SIZE, registers RM_SIZE, memory DM_SIZE, both lists of the log
   alike); 3; 4 to 9, 27, 10 to 15. inputs: what the ports give, one word for each port read.
   answers: the step's cycles. On a refusal machine, registers, memory and log are left as they
   were. A call on the lists that a step or a run left reads the state that it left: that is
   proved. So is the return from a context switch: after a step that carried out a JSRWP, any steps
   and runs, and a step that carries out a RETWP while WP, and register zero of that bank, are what
   the JSRWP left there, PC is the call's address plus one, and WP, N, Z and the interrupt mask are
   as before the call. And so are double-length sums: after two steps one after the other, an ADD
   that updates flags and an ADDC on registers that the ADD did not write, the two registers hold the
   two-word sum modulo 2^(2W), and N is its carry where the ADDC updates flags; the same for SUB,
   SUBC and the borrow. */
uint32_t yam_step(const uint32_t *config, size_t config_length, const uint32_t *image, size_t image_length, const uint32_t *inputs,
                  size_t inputs_length, uint32_t *machine, size_t machine_length, uint32_t *registers, size_t registers_length, uint32_t *memory,
                  size_t memory_length, uint32_t *log_addresses, size_t log_addresses_length, uint32_t *log_values, size_t log_values_length,
                  uint64_t *answers, size_t answers_length);

/* At most `budget` steps: 1, 2, 3 as a step; 16 (budget above 1,000,000); then the number of the
   step that ended the run; 0 for a spent budget. answers: the steps done, their cycles. The steps
   done are kept, whatever ended the run. */
uint32_t yam_run(const uint32_t *config, size_t config_length, const uint32_t *image, size_t image_length, const uint32_t *inputs,
                 size_t inputs_length, uint32_t *machine, size_t machine_length, uint32_t *registers, size_t registers_length, uint32_t *memory,
                 size_t memory_length, uint32_t *log_addresses, size_t log_addresses_length, uint32_t *log_values, size_t log_values_length,
                 uint64_t budget, uint64_t *answers, size_t answers_length);

/* Checks an image against its certificate (document 01's sheet), a byte an address: 1; 2 (image or
   certificate not IM_SIZE long); 17. answers: on a pass the level at address 0, and 0; beside 17
   the first address that breaks a rule, and its lowest rule. After a pass every list of yam_step
   and yam_run calls from a machine of yam_reset, with memories of the right lengths whose cells
   fit the word width and two log lists of equal length, each call on the lists that the last one
   left, answers 0, 13, 14, 15 and 27 alone (a run also 16), and YAM_MACHINE_DEPTH of the machine
   stays at most that level: that is proved. */
uint32_t yam_check(const uint32_t *config, size_t config_length, const uint32_t *image, size_t image_length, const uint8_t *certificate,
                   size_t certificate_length, uint64_t *answers, size_t answers_length);

/* Writes the text of a word into the page from `place` on: 1, 5, 6, 7, 18, 23. answers: the place
   after the text; the given one on a refusal, which leaves the page as it was. */
uint32_t yam_text(const uint32_t *config, size_t config_length, uint32_t word, uint8_t *page, size_t page_length, uint64_t place, uint64_t *answers,
                  size_t answers_length);

/* Writes lines into the page from `place` on, from address `first` to the image's end: 1; 2 (image
   not IM_SIZE long); 18. answers: the place after the last whole line, the address of the next
   line (after 1 and 2 those that were given). 18 keeps the whole lines; other bytes of the page
   stay. */
uint32_t yam_list(const uint32_t *config, size_t config_length, const uint32_t *image, size_t image_length, uint64_t first, uint8_t *page,
                  size_t page_length, uint64_t place, uint64_t *answers, size_t answers_length);

/* Reads source text into words (document 02, K1), an instruction a line in the listing's form
   without address and word: 1; 36 (more than 1,024 lines that start with a label, or more lines
   that count as a word than words are lent); 24 at the first line that repeats any label; then the
   first bad line, at one line 26, 25, 6, 7. Newlines part lines, which are numbered from 1.
   answers: how many words were written, and 0; beside 24, 25, 26, 6 and 7 0 and the line. On a
   pass so many of the first words are written; words beyond stay. On a refusal none is written. */
uint32_t yam_assemble(const uint32_t *config, size_t config_length, const uint8_t *text, size_t text_length, uint32_t *words, size_t words_length,
                      uint64_t *answers, size_t answers_length);

/* Loads an image file: 1 where config is not YAM_CONFIG_WORDS long; then 19; block 0 by 20, 21,
   22, 1; 19; 2 (image shorter than IM_SIZE); each block 20, 21; the last filling 22. On a pass
   config and the first IM_SIZE words of image are written; on a refusal nothing. */
uint32_t yam_load(const uint8_t *file, size_t file_length, uint32_t *config, size_t config_length, uint32_t *image, size_t image_length);

/* Writes an image file: 1; 2 (image not IM_SIZE long); 19 where file is not exactly 512 +
   512 * ((IM_SIZE + 125) / 126) bytes long. On a pass the whole of file is written; on a refusal
   nothing. */
uint32_t yam_store(const uint32_t *config, size_t config_length, const uint32_t *image, size_t image_length, uint8_t *file, size_t file_length);

#ifdef __cplusplus
}
#endif
#endif
