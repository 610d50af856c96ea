/* Loads an image file and runs it for STEPS steps from reset, with zeroed memories: a program of a
   user, compiled outside the tree with what tools/install installed. */
#include <stdio.h>
#include <stdlib.h>
#include <yam_structs.h>

#define MOST_WORDS 32768
#define MOST_BYTES (1 << 18)
#define STEPS 11

int main(int count, char **arguments)
{
    static uint8_t file[MOST_BYTES];
    static uint32_t image[MOST_WORDS];
    struct yam_config config;
    struct yam_machine machine;
    struct yam_lists lists = {0};
    uint64_t steps = 0, cycles = 0;
    uint32_t number;
    size_t length;
    FILE *from = count == 2 ? fopen(arguments[1], "rb") : NULL;
    if (from == NULL) {
        fprintf(stderr, "usage: %s IMAGE\n", arguments[0]);
        return 2;
    }
    length = fread(file, 1, sizeof file, from);
    fclose(from);
    number = yam_load_struct(file, length, &config, image, MOST_WORDS);
    if (number != YAM_PASSES) {
        printf("refused %u: %s\n", (unsigned)number, yam_meaning(number));
        return 1;
    }
    lists.image = image;
    lists.image_length = config.imsize;
    lists.registers = (uint32_t *)calloc(config.rmsize, sizeof(uint32_t));
    lists.registers_length = config.rmsize;
    lists.memory = (uint32_t *)calloc(config.dmsize, sizeof(uint32_t));
    lists.memory_length = config.dmsize;
    yam_reset_struct(&machine);
    number = yam_run_struct(&config, &lists, &machine, STEPS, &steps, &cycles);
    printf("yam %s: ended %u, %u steps, %u cycles, PC %u\n", YAM_VERSION, (unsigned)number,
           (unsigned)steps, (unsigned)cycles, (unsigned)machine.pc);
    free(lists.registers);
    free(lists.memory);
    return number != YAM_PASSES;
}
