"""The numbers of refusal and stop, with what each means. Written by tools/refusals from docs/refusals.md."""

from enum import IntEnum
from typing import Dict


class Refusal(IntEnum):
    """What a call answers: PASSES, or why it was refused or stopped."""

    PASSES = 0
    UNLAWFUL_CONFIG = 1
    WRONG_LENGTH = 2
    OUT_OF_RANGE = 3
    PC_OUTSIDE = 4
    NO_ROW = 5
    OPTION_OFF = 6
    BEYOND_LIMIT = 7
    SPECIAL_MODE = 8
    PORT_TURNAROUND = 9
    STACK_FULL = 10
    STACK_EMPTY = 11
    BANK_OUTSIDE = 12
    DATA_ADDRESS = 13
    NO_INPUT = 14
    LOG_FULL = 15
    BUDGET = 16
    RULE_BROKEN = 17
    PAGE_FULL = 18
    FILE_LENGTH = 19
    BLOCK_NUMBER = 20
    BLOCK_CHECK = 21
    FILLING = 22
    TEXT_TOO_LONG = 23
    LABEL_REPEATED = 24
    LABEL_UNKNOWN = 25
    LINE_FORM = 26
    INDEX_NOT_LOADED = 27
    SOURCE_TOO_LONG = 36


MEANINGS: Dict[int, str] = {
    Refusal.PASSES: "Passes",
    Refusal.UNLAWFUL_CONFIG: "The configuration breaks document 01's rules",
    Refusal.WRONG_LENGTH: "A list has not the length that the configuration says, or the log's two lists differ in length",
    Refusal.OUT_OF_RANGE: "The machine record is outside its ranges, or a memory cell is 2^W or more",
    Refusal.PC_OUTSIDE: "PC is IM_SIZE or more: after JMP @, JSR @, RETWP, a return, or the last word (a direct target there is 7)",
    Refusal.NO_ROW: "No row for the word, or for the instruction to be written",
    Refusal.OPTION_OFF: "The row needs an option that is off",
    Refusal.BEYOND_LIMIT: "A part is beyond its limit: register, data address, count, byte number, WP unit, unused bit, or too wide for its field",
    Refusal.SPECIAL_MODE: "In special-register mode the instruction is neither MOV %d,%s from 0, 1, 2, 3 or 7 nor SPR_OFF",
    Refusal.PORT_TURNAROUND: "A port read straight after a port write to another address",
    Refusal.STACK_FULL: "A call with the return stack full",
    Refusal.STACK_EMPTY: "A return with the return stack empty",
    Refusal.BANK_OUTSIDE: "The new WP and REG_SIZE go beyond RM_SIZE",
    Refusal.DATA_ADDRESS: "A data address from a register is DM_SIZE or more",
    Refusal.NO_INPUT: "A port read with no input left",
    Refusal.LOG_FULL: "A port write with no room in the log",
    Refusal.BUDGET: "A budget above 1,000,000",
    Refusal.RULE_BROKEN: "A rule of the certificate (document 01: sheet) is broken; address and rule are answered",
    Refusal.PAGE_FULL: "The page is too small for the next line or text, or the place is beyond it",
    Refusal.FILE_LENGTH: "The image file has the wrong length",
    Refusal.BLOCK_NUMBER: "A block of the image file has the wrong number",
    Refusal.BLOCK_CHECK: "A block of the image file has the wrong checksum (document 01: check)",
    Refusal.FILLING: "The image file has filling that is not zero",
    Refusal.TEXT_TOO_LONG: "An instruction text longer than 20 bytes",
    Refusal.LABEL_REPEATED: "The line starts with a label that an earlier line starts with; it is the first such line",
    Refusal.LABEL_UNKNOWN: "The line names a label that no line starts with",
    Refusal.LINE_FORM: "A line not in the form, unsupported, or with a name's digit above 3 or an offset no multiple of 16",
    Refusal.INDEX_NOT_LOADED: "A MOVX, to data memory or from it, and no LDYX has run since reset (K4)",
    Refusal.SOURCE_TOO_LONG: "More than 1,024 lines start with a label, or more words than are lent",
}


def meaning(number: int) -> str:
    """What a number means, in words."""
    return MEANINGS.get(number, "A number that this version does not know")
