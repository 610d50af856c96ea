/* What bits 31 to 23 of a word say: the kind of its row, where lower bits do not decide as well. */
#ifndef PLAIN_KINDS_H
#define PLAIN_KINDS_H
#include <stdint.h>

enum plain_kind {
    NO_ROW, UNSUPPORTED,
    TST_R, TST_S, TST_U, TST_H, AND_R, AND_S, AND_U, AND_H, OR_R, OR_S, OR_U, OR_H, XOR_R, XOR_S, XOR_U, XOR_H,
    CMP_R, CMP_S, CMP_U, CMP_H, CMPS_R, CMPS_S, CMPS_U, CMPS_H, SUB_R, SUB_S, SUB_U, SUB_H, SUBS_R, SUBS_S, SUBS_U, SUBS_H,
    ADD_R, ADD_S, ADD_U, ADD_H, ADDC_R, ADDC_S, ADDC_U, ADDC_H, SUBC_R, SUBC_S, SUBC_U, SUBC_H,
    MUL_R, MUL_S, MUL_U, MUL_H,
    SHR_R, SHRA_R, SHL_R, SHR_I, SHRA_I, SHL_I, ROTR, ROTL, SHL16, ABS, CLZ, LEVEL2,
    MOV_R, MOV_S, MOV_U, MOV_H, MOV_FROM_R, MOV_FROM_A, MOV_TO_R, MOV_TO_A,
    PORT_READ, PORT_R, PORT_S, PORT_U, PORT_H,
    JMP, JMP_IF, JMP_BIO, JMP_R, JMP_R_BIO, JSR, JSR_R, RLD, JSRWP, CONTROL
};

extern const uint8_t plain_kinds[512];

static inline uint8_t plain_kind_of(uint32_t word) { return plain_kinds[word >> 23]; }
#endif
