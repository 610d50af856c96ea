/* Calls every function of include/yam.h with each of its lists in turn of length 0: once with a
   pointer to something, once null. Number, answers and every list must be alike, and the number the
   one that the header says. Then with several lists null at once. Exit status 1 on a difference. */
#include "yam.h"
#include <stdio.h>
#include <string.h>

#define WORDS 6
#define REGISTERS 16
#define MEMORY 32
#define LOG 2
#define ANSWERS 2
#define FILE_BYTES 1024
#define PAGE_BYTES 512
#define LISTS 9
#define MOST_BYTES 1024
#define MARK 0x5b
#define ANY YAM_PASSES
#define NO_LIST -1
#ifdef __cplusplus
#define LANGUAGE "C++17"
#else
#define LANGUAGE "C99"
#endif

enum function {
    READ, WRITE, RESET, STEP, RUN, CHECK, TEXT, LIST, ASSEMBLE, LOAD, STORE, FUNCTIONS
};

static const uint32_t config[YAM_CONFIG_WORDS] = {
    WORDS, 32, REGISTERS, REGISTERS, 16, MEMORY, 0, 2, 0, 0, 0, 0, 0, 0, 0, 0, 0, 32, 0};
static const uint32_t image[WORDS] = {0xa2860010u, 0x9c041402u, 0x98061800u,
                                      0x46860001u, 0xc1000002u, 0xc0000005u};
static const uint32_t add[YAM_INSTRUCTION_WORDS] = {YAM_ROW_ADD_SIGNED, 1, 6, 0, 0, 1};
static const uint32_t zeros[MEMORY] = {0};
static const char source[] = "MOV %06,#0010\nLDYX %04,%02\n";
static uint32_t at_reset[YAM_MACHINE_WORDS];
static uint8_t stored[FILE_BYTES];
static unsigned wrong = 0, tried = 0;

/* A list of a call: what it starts with (null: marks), its length, the bytes of an element, and the
   number that the call answers where only this list has length 0. */
struct list {
    const void *first;
    size_t length, size;
    uint32_t number;
};

struct call {
    const char *name;
    struct list lists[LISTS]; /* in the order of the header; those behind the last have size 0 */
};

/* clang-format off */
#define WORDS_OF(list, length, number) {list, length, sizeof(uint32_t), number}
#define BYTES_OF(list, length, number) {list, length, 1, number}
#define ANSWER_LIST {NULL, ANSWERS, sizeof(uint64_t), YAM_PASSES}
#define NO_MORE {NULL, 0, 0, ANY}
#define NONE5 NO_MORE, NO_MORE, NO_MORE, NO_MORE, NO_MORE
#define CONFIG WORDS_OF(config, YAM_CONFIG_WORDS, YAM_UNLAWFUL_CONFIG)
#define IMAGE WORDS_OF(image, WORDS, YAM_WRONG_LENGTH)
#define STATE \
    {CONFIG, IMAGE, WORDS_OF(zeros, 1, YAM_PASSES), \
     WORDS_OF(at_reset, YAM_MACHINE_WORDS, YAM_OUT_OF_RANGE), \
     WORDS_OF(zeros, REGISTERS, YAM_WRONG_LENGTH), WORDS_OF(zeros, MEMORY, YAM_WRONG_LENGTH), \
     WORDS_OF(NULL, LOG, YAM_WRONG_LENGTH), WORDS_OF(NULL, LOG, YAM_WRONG_LENGTH), ANSWER_LIST}
/* clang-format on */

static const struct call calls[FUNCTIONS] = {
    {"read",
     {CONFIG, WORDS_OF(NULL, YAM_INSTRUCTION_WORDS, YAM_BEYOND_LIMIT), NONE5, NO_MORE, NO_MORE}},
    {"write",
     {CONFIG, WORDS_OF(add, YAM_INSTRUCTION_WORDS, YAM_BEYOND_LIMIT), ANSWER_LIST, NONE5, NO_MORE}},
    {"reset",
     {WORDS_OF(NULL, YAM_MACHINE_WORDS, YAM_OUT_OF_RANGE), NONE5, NO_MORE, NO_MORE, NO_MORE}},
    {"step", STATE},
    {"run", STATE},
    {"check", {CONFIG, IMAGE, BYTES_OF(zeros, WORDS, YAM_WRONG_LENGTH), ANSWER_LIST, NONE5}},
    {"text", {CONFIG, BYTES_OF(NULL, PAGE_BYTES, YAM_PAGE_FULL), ANSWER_LIST, NONE5, NO_MORE}},
    {"list", {CONFIG, IMAGE, BYTES_OF(NULL, PAGE_BYTES, YAM_PAGE_FULL), ANSWER_LIST, NONE5}},
    {"assemble",
     {CONFIG, BYTES_OF(source, sizeof source - 1, YAM_PASSES),
      WORDS_OF(NULL, WORDS, YAM_SOURCE_TOO_LONG), ANSWER_LIST, NONE5}},
    {"load",
     {BYTES_OF(stored, FILE_BYTES, YAM_FILE_LENGTH),
      WORDS_OF(NULL, YAM_CONFIG_WORDS, YAM_UNLAWFUL_CONFIG),
      WORDS_OF(NULL, WORDS, YAM_WRONG_LENGTH), NONE5, NO_MORE}},
    {"store", {CONFIG, IMAGE, BYTES_OF(NULL, FILE_BYTES, YAM_FILE_LENGTH), NONE5, NO_MORE}},
};

/* A call's lists as they are lent: room for each, what is passed as its pointer, and its length. */
struct lent {
    uint64_t room[LISTS][MOST_BYTES / sizeof(uint64_t)];
    void *pointer[LISTS];
    size_t length[LISTS];
};

static void lend(struct lent *lent, const struct call *call)
{
    size_t i;
    memset(lent->room, MARK, sizeof lent->room);
    for (i = 0; i < LISTS; i += 1) {
        if (call->lists[i].first != NULL)
            memcpy(lent->room[i], call->lists[i].first,
                   call->lists[i].length * call->lists[i].size);
        lent->pointer[i] = lent->room[i];
        lent->length[i] = call->lists[i].length;
    }
}

#define W(i) (uint32_t *)l->pointer[i], l->length[i]
#define B(i) (uint8_t *)l->pointer[i], l->length[i]
#define A(i) (uint64_t *)l->pointer[i], l->length[i]

static uint32_t make(enum function function, struct lent *l)
{
    switch (function) {
    case READ:
        return yam_read(W(0), image[3], W(1));
    case WRITE:
        return yam_write(W(0), W(1), A(2));
    case RESET:
        return yam_reset(W(0));
    case STEP:
        return yam_step(W(0), W(1), W(2), W(3), W(4), W(5), W(6), W(7), A(8));
    case RUN:
        return yam_run(W(0), W(1), W(2), W(3), W(4), W(5), W(6), W(7), 2, A(8));
    case CHECK:
        return yam_check(W(0), W(1), B(2), A(3));
    case TEXT:
        return yam_text(W(0), image[3], B(1), 0, A(2));
    case LIST:
        return yam_list(W(0), W(1), 0, B(2), 0, A(3));
    case ASSEMBLE:
        return yam_assemble(W(0), B(1), W(2), A(3));
    case LOAD:
        return yam_load(B(0), W(1), W(2));
    case STORE:
        return yam_store(W(0), W(1), B(2));
    default:
        return YAM_PASSES;
    }
}

/* The call with these lists of length 0, with pointers and without. */
static void compare(enum function function, const int *empty, size_t count, uint32_t number)
{
    static struct lent with, without;
    uint32_t got_with, got_without;
    size_t i;
    lend(&with, &calls[function]);
    lend(&without, &calls[function]);
    for (i = 0; i < count; i += 1) {
        with.length[empty[i]] = without.length[empty[i]] = 0;
        without.pointer[empty[i]] = NULL;
    }
    got_with = make(function, &with);
    got_without = make(function, &without);
    tried += 1;
    if (got_with != number || got_without != number ||
        memcmp(with.room, without.room, sizeof with.room) != 0) {
        wrong += 1;
        printf("%s, list %d of length 0: %u with a pointer, %u with null, and it should be %u with "
               "the same lists\n",
               calls[function].name, count > 0 ? empty[0] : NO_LIST, (unsigned)got_with,
               (unsigned)got_without, (unsigned)number);
    }
}

/* How many lists a call has. */
static int lists_of(enum function function)
{
    int count = 0;
    while (count < LISTS && calls[function].lists[count].size != 0)
        count += 1;
    return count;
}

/* A core without data memory needs none, and no inputs and no log where no port is used. */
static void without_memory(void)
{
    uint32_t small[YAM_CONFIG_WORDS], machine[YAM_MACHINE_WORDS], registers[REGISTERS] = {0};
    memcpy(small, config, sizeof small);
    memcpy(machine, at_reset, sizeof machine);
    small[YAM_CONFIG_DM_SIZE] = 0;
    tried += 1;
    if (yam_step(small, YAM_CONFIG_WORDS, image, WORDS, NULL, 0, machine, YAM_MACHINE_WORDS,
                 registers, REGISTERS, NULL, 0, NULL, 0, NULL, 0, NULL, 0) != YAM_PASSES ||
        machine[YAM_MACHINE_PC] != 1 || registers[6] != 16) {
        wrong += 1;
        printf("a step without data memory, inputs, log and answers is not done\n");
    }
}

int main(void)
{
    static const int all[LISTS] = {0, 1, 2, 3, 4, 5, 6, 7, 8};
    static const int no_log_and_no_answers[] = {2, 6, 7, 8};
    /* What a call answers to lists that are all empty. */
    static const uint32_t all_empty[FUNCTIONS] = {
        YAM_UNLAWFUL_CONFIG, YAM_UNLAWFUL_CONFIG, YAM_OUT_OF_RANGE,    YAM_UNLAWFUL_CONFIG,
        YAM_UNLAWFUL_CONFIG, YAM_UNLAWFUL_CONFIG, YAM_UNLAWFUL_CONFIG, YAM_UNLAWFUL_CONFIG,
        YAM_UNLAWFUL_CONFIG, YAM_UNLAWFUL_CONFIG, YAM_UNLAWFUL_CONFIG,
    };
    int function, list, lists = 0;
    if (yam_reset(at_reset, YAM_MACHINE_WORDS) != YAM_PASSES ||
        yam_store(config, YAM_CONFIG_WORDS, image, WORDS, stored, FILE_BYTES) != YAM_PASSES)
        wrong += 1;
    for (function = 0; function < FUNCTIONS; function += 1) {
        compare((enum function)function, NULL, 0, YAM_PASSES);
        for (list = 0; list < lists_of((enum function)function); list += 1) {
            compare((enum function)function, &list, 1, calls[function].lists[list].number);
            lists += 1;
        }
        compare((enum function)function, all, (size_t)lists_of((enum function)function),
                all_empty[function]);
    }
    compare(STEP, no_log_and_no_answers, 4, YAM_PASSES);
    compare(RUN, no_log_and_no_answers, 4, YAM_PASSES);
    without_memory();
    if (wrong == 0)
        printf("%s: null for each of %d lists of length 0, %u calls, is as a pointer\n", LANGUAGE,
               lists, tried);
    return wrong != 0;
}
