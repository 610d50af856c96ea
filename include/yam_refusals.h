/* The numbers of refusal and stop, with what each means. Written by tools/refusals from docs/refusals.md. */
#ifndef YAM_REFUSALS_H
#define YAM_REFUSALS_H
#include <stdint.h>

enum yam_refusal {
    YAM_PASSES = 0,
    YAM_UNLAWFUL_CONFIG = 1,
    YAM_WRONG_LENGTH = 2,
    YAM_OUT_OF_RANGE = 3,
    YAM_PC_OUTSIDE = 4,
    YAM_NO_ROW = 5,
    YAM_OPTION_OFF = 6,
    YAM_BEYOND_LIMIT = 7,
    YAM_SPECIAL_MODE = 8,
    YAM_PORT_TURNAROUND = 9,
    YAM_STACK_FULL = 10,
    YAM_STACK_EMPTY = 11,
    YAM_BANK_OUTSIDE = 12,
    YAM_DATA_ADDRESS = 13,
    YAM_NO_INPUT = 14,
    YAM_LOG_FULL = 15,
    YAM_BUDGET = 16,
    YAM_RULE_BROKEN = 17,
    YAM_PAGE_FULL = 18,
    YAM_FILE_LENGTH = 19,
    YAM_BLOCK_NUMBER = 20,
    YAM_BLOCK_CHECK = 21,
    YAM_FILLING = 22,
    YAM_TEXT_TOO_LONG = 23,
    YAM_LABEL_REPEATED = 24,
    YAM_LABEL_UNKNOWN = 25,
    YAM_LINE_FORM = 26,
    YAM_INDEX_NOT_LOADED = 27,
    YAM_SOURCE_TOO_LONG = 36
};

/* What a number means, in words. */
static inline const char *yam_meaning(uint32_t number)
{
    switch (number) {
    case YAM_PASSES:
        return "Passes";
    case YAM_UNLAWFUL_CONFIG:
        return "The configuration breaks document 01's rules";
    case YAM_WRONG_LENGTH:
        return "A list has not the length that the configuration says, or the log's two lists differ in length";
    case YAM_OUT_OF_RANGE:
        return "The machine record is outside its ranges, or a memory cell is 2^W or more";
    case YAM_PC_OUTSIDE:
        return "PC is IM_SIZE or more: after JMP @, JSR @, RETWP, a return, or the last word (a direct target there is 7)";
    case YAM_NO_ROW:
        return "No row for the word, or for the instruction to be written";
    case YAM_OPTION_OFF:
        return "The row needs an option that is off";
    case YAM_BEYOND_LIMIT:
        return "A part is beyond its limit: register, data address, count, byte number, WP unit, unused bit, or too wide for its field";
    case YAM_SPECIAL_MODE:
        return "In special-register mode the instruction is neither MOV %d,%s from 0, 1, 2, 3 or 7 nor SPR_OFF";
    case YAM_PORT_TURNAROUND:
        return "A port read straight after a port write to another address";
    case YAM_STACK_FULL:
        return "A call with the return stack full";
    case YAM_STACK_EMPTY:
        return "A return with the return stack empty";
    case YAM_BANK_OUTSIDE:
        return "The new WP and REG_SIZE go beyond RM_SIZE";
    case YAM_DATA_ADDRESS:
        return "A data address from a register is DM_SIZE or more";
    case YAM_NO_INPUT:
        return "A port read with no input left";
    case YAM_LOG_FULL:
        return "A port write with no room in the log";
    case YAM_BUDGET:
        return "A budget above 1,000,000";
    case YAM_RULE_BROKEN:
        return "A rule of the certificate (document 01: sheet) is broken; address and rule are answered";
    case YAM_PAGE_FULL:
        return "The page is too small for the next line or text, or the place is beyond it";
    case YAM_FILE_LENGTH:
        return "The image file has the wrong length";
    case YAM_BLOCK_NUMBER:
        return "A block of the image file has the wrong number";
    case YAM_BLOCK_CHECK:
        return "A block of the image file has the wrong checksum (document 01: check)";
    case YAM_FILLING:
        return "The image file has filling that is not zero";
    case YAM_TEXT_TOO_LONG:
        return "An instruction text longer than 20 bytes";
    case YAM_LABEL_REPEATED:
        return "The line starts with a label that an earlier line starts with; it is the first such line";
    case YAM_LABEL_UNKNOWN:
        return "The line names a label that no line starts with";
    case YAM_LINE_FORM:
        return "A line not in the form, unsupported, or with a name's digit above 3 or an offset no multiple of 16";
    case YAM_INDEX_NOT_LOADED:
        return "A MOVX, to data memory or from it, and no LDYX has run since reset (K4)";
    case YAM_SOURCE_TOO_LONG:
        return "More than 1,024 lines start with a label, or more words than are lent";
    default:
        return "A number that this version does not know";
    }
}

#endif
