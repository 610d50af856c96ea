/* Prints the verdict on an image file and its certificate, by the library's C interface.

   usage: check IMAGE [CERTIFICATE]

   Without a certificate one of zeros is taken: each address is used, in the main program, with no
   call. The statuses are those of `./yam check`. */
#include <stdio.h>
#include <stdlib.h>
#include "yam_structs.h"

#define MOST_WORDS 8192
#define MOST_BYTES 34304

enum status { PASSED, REFUSED, USAGE, UNREADABLE };

/* Reads a file, or one byte more than the most that is wanted of it; ends the program where it
   cannot be read. */
static size_t read_file(const char *name, uint8_t *bytes, size_t most)
{
    FILE *file = fopen(name, "rb");
    size_t length = 0;
    if (file != NULL)
        length = fread(bytes, 1, most + 1, file);
    if (file == NULL || ferror(file)) {
        fprintf(stderr, "check: cannot read %s\n", name);
        exit(UNREADABLE);
    }
    fclose(file);
    return length;
}

int main(int count, char **arguments)
{
    static uint8_t file[MOST_BYTES + 1], certificate[MOST_WORDS + 1];
    static uint32_t image[MOST_WORDS];
    struct yam_config config;
    uint64_t level = 0, address = 0, rule = 0;
    uint32_t number = YAM_WRONG_LENGTH;
    size_t length;
    if (count < 2 || count > 3) {
        fprintf(stderr, "usage: check IMAGE [CERTIFICATE]\n");
        return USAGE;
    }
    length = read_file(arguments[1], file, MOST_BYTES);
    if (length <= MOST_BYTES)
        number = yam_load_struct(file, length, &config, image, MOST_WORDS);
    if (number == YAM_PASSES) {
        length = count == 3 ? read_file(arguments[2], certificate, MOST_WORDS) : config.imsize;
        number = yam_check_struct(&config, image, config.imsize, certificate, length, &level,
                                  &address, &rule);
    }
    if (number == YAM_PASSES)
        printf("passes level %u\n", (unsigned)level);
    else if (number == YAM_RULE_BROKEN)
        printf("refused %u address %06x rule %u\n", (unsigned)number, (unsigned)address,
               (unsigned)rule);
    else
        printf("refused %u\n", (unsigned)number);
    return number == YAM_PASSES ? PASSED : REFUSED;
}
