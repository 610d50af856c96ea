/* Reading a word, the text of a word, the listing and the loader, plainly. */
#include "plain.h"
#include "plain_kinds.h"
#include <string.h>

/* The library's number of a row; the word can be read. */
uint32_t plain_row(uint32_t w) {
    const uint32_t kind = plain_kind_of(w), code = w >> 8 & 0xff;
    if (kind <= MUL_H) return (kind - TST_R) / 4 * 5 + (kind - TST_R) % 4;
    if (kind <= CLZ) return 60 + (kind - SHR_R);
    if (kind == LEVEL2) return code == 0x01 ? 71 : code == 0x02 ? 72 : code == 0x06 ? 73 : 74 + (code - 0x14) / 4;
    if (kind <= MOV_TO_A) return 77 + (kind - MOV_R);
    switch (kind) {
    case PORT_READ: return 85 + (w >> 15 & 1);
    case PORT_R: case PORT_S: case PORT_U: case PORT_H: return 87 + (kind - PORT_R);
    case JMP: case JMP_IF: case JMP_BIO: return 91 + (w >> 23 & 15);
    case JMP_R: case JMP_R_BIO: return 104 + (w >> 23 & 15);
    case JSR: return 118;
    case JSR_R: return 119;
    case RLD: return 120;
    case JSRWP: return 121;
    default: return (w >> 16 & 0x7f) <= 1 ? 124 + (w >> 16 & 1) : 127 + (w >> 16 & 1);
    }
}

uint32_t plain_read(const struct plain_config *c, uint32_t w, uint32_t parts[6]) {
    const uint32_t number = plain_verdict(c, w);
    if (number != 0) return number;
    const uint32_t kind = plain_kind_of(w), d = w >> 16 & 0x7f, s = w & 0x7f, code = w >> 8 & 0xff;
    parts[0] = plain_row(w);
    parts[1] = kind <= LEVEL2 ? w >> 26 & 1 : 0;
    parts[2] = d;
    parts[3] = parts[4] = parts[5] = 0;
    switch (kind) {
    case LEVEL2:
        parts[3] = s;
        if (code <= 0x06) parts[4] = w >> 23 & 3;
        break;
    case JMP: case JMP_IF: case JMP_BIO: case JSR:
        parts[2] = 0;
        parts[5] = w & 0x7fffff;
        break;
    case JMP_R: case JMP_R_BIO: case JSR_R: break;
    case CONTROL: parts[2] = 0; break;
    case TST_R: case AND_R: case OR_R: case XOR_R: case CMP_R: case CMPS_R: case SUB_R: case SUBS_R: case ADD_R: case ADDC_R:
    case SUBC_R: case MUL_R: case SHR_R: case SHRA_R: case SHL_R: case ROTR: case ROTL: case SHL16: case ABS: case CLZ:
    case MOV_R: case MOV_FROM_R: case MOV_TO_R: case PORT_READ: case PORT_R: parts[3] = s; break;
    default: parts[5] = w & 0xffff;
    }
    return 0;
}

/* ---- the loader ---- */

static uint32_t word_at(const uint8_t *p) { return (uint32_t)p[0] | (uint32_t)p[1] << 8 | (uint32_t)p[2] << 16 | (uint32_t)p[3] << 24; }

static uint32_t block_number(const uint8_t *block, uint32_t number) {
    uint32_t sum = 512;
    if (word_at(block) != number) return 20;
    for (size_t i = 0; i < 127; i++) sum += word_at(block + 4 * i);
    return sum == word_at(block + 508) ? 0 : 21;
}

uint32_t plain_load(const uint8_t *file, size_t file_len, struct plain_config *c, uint32_t *image, size_t image_len) {
    uint32_t number;
    struct plain_config read = {.im_width = 32};
    if (file_len == 0 || file_len % 512 != 0) return 19;
    if ((number = block_number(file, 0)) != 0) return number;
    for (size_t i = 15; i < 127; i++)
        if (word_at(file + 4 * i) != 0) return 22;
    for (size_t i = 0; i < 14; i++) (&read.im_size)[i] = word_at(file + 4 + 4 * i);
    if (plain_config_number(&read) != 0) return 1;
    const size_t size = read.im_size, blocks = (size + 125) / 126;
    if (file_len != (1 + blocks) * 512) return 19;
    if (image_len < size) return 2;
    for (size_t i = 1; i <= blocks; i++)
        if ((number = block_number(file + 512 * i, (uint32_t)i)) != 0) return number;
    for (size_t i = size - (blocks - 1) * 126; i < 126; i++)
        if (word_at(file + 512 * blocks + 4 + 4 * i) != 0) return 22;
    for (size_t i = 0; i < size; i++) image[i] = word_at(file + 512 * (1 + i / 126) + 4 + 4 * (i % 126));
    *c = read;
    return 0;
}

/* ---- text and listing ---- */

static const char *const base_names[] = {"TST", "AND", "OR", "XOR", "CMP", "CMPS", "SUB", "SUBS", "ADD", "ADDC", "SUBC", "MUL"};
static const char *const shift_names[] = {"SHR", "SHRA", "SHL", "SHR", "SHRA", "SHL", "ROTR", "ROTL", "SHL16", "ABS", "CLZ"};
static const char *const conditions[] = {"", ",Z", ",NZ", ",GT", ",LT", ",GE", ",LE", "", "", "", "", "", ",BIO"};
static const char marks[] = "%#><";

static uint8_t *put(uint8_t *p, const char *text) {
    const size_t length = strlen(text);
    memcpy(p, text, length);
    return p + length;
}

static uint8_t *hex(uint8_t *p, uint32_t value, int digits) {
    for (int i = digits - 1; i >= 0; i--) *p++ = (uint8_t)"0123456789abcdef"[value >> (4 * i) & 15];
    return p;
}

static uint8_t *reg(uint8_t *p, const char *before, uint32_t number) { return hex(put(put(p, before), "%"), number, 2); }

/* %s, or an immediate: form 0 to 3. */
static uint8_t *operand(uint8_t *p, uint32_t w, uint32_t form) {
    *p++ = ',';
    *p++ = (uint8_t)marks[form];
    return form == 0 ? hex(p, w & 0x7f, 2) : hex(p, w & 0xffff, 4);
}

size_t plain_text(uint32_t w, uint8_t *out) {
    const uint32_t kind = plain_kind_of(w), d = w >> 16 & 0x7f, s = w & 0x7f, code = w >> 8 & 0xff;
    uint8_t *p = out;
    if (kind <= MUL_H) {
        p = operand(reg(put(p, base_names[(kind - TST_R) / 4]), " ", d), w, (kind - TST_R) % 4);
    } else if (kind <= CLZ) {
        p = operand(reg(put(p, shift_names[kind - SHR_R]), " ", d), w, kind >= SHR_I && kind <= SHL_I);
    } else if (kind == LEVEL2) {
        if (code == 0x18) p = put(reg(put(p, "MOVX "), "@", d), ",@%X+");
        else if (code == 0x1c) p = reg(put(p, "MOVX @%X+,"), "@", s);
        else {
            p = put(p, code == 0x01 ? "BST" : code == 0x02 ? "BLD" : code == 0x06 ? "BLDS" : "LDYX");
            if (code != 0x14) *p++ = (uint8_t)('0' + (w >> 23 & 3));
            p = operand(reg(p, " ", d), w, 0);
        }
    } else if (kind <= MOV_H) {
        p = operand(reg(put(p, "MOV"), " ", d), w, kind - MOV_R);
    } else switch (kind) {
    case MOV_FROM_R: p = reg(reg(put(p, "MOV"), " ", d), ",@", s); break;
    case MOV_FROM_A: p = hex(put(reg(put(p, "MOV"), " ", d), ",&"), w & 0xffff, 4); break;
    case MOV_TO_R: p = operand(reg(put(p, "MOV"), " @", d), w, 0); break;
    case MOV_TO_A: p = reg(hex(put(p, "MOV &"), w & 0xffff, 4), ",", d); break;
    case PORT_READ: p = reg(reg(put(p, w & 0x8000 ? "IORMW" : "MOVIO"), " ", d), ",@", s); break;
    case PORT_R: case PORT_S: case PORT_U: case PORT_H: p = operand(reg(put(p, "MOVIO"), " @", d), w, kind - PORT_R); break;
    case JMP: case JMP_IF: case JMP_BIO: p = put(hex(put(p, "JMP "), w & 0x7fffff, 6), conditions[w >> 23 & 15]); break;
    case JMP_R: case JMP_R_BIO: p = put(reg(put(p, "JMP"), " @", d), conditions[w >> 23 & 15]); break;
    case JSR: p = hex(put(p, "JSR "), w & 0x7fffff, 6); break;
    case JSR_R: p = reg(put(p, "JSR"), " @", d); break;
    case RLD: p = operand(reg(put(p, "RLD"), " ", d), w, 1); break;
    case JSRWP: p = hex(put(hex(put(p, "JSRWP "), w & 0xffff, 4), ","), 16 * d, 3); break;
    default: p = put(p, d == 0 ? "RET" : d == 1 ? "RETWP" : d == 4 ? "SPR_OFF" : "SPR_ON");
    }
    if (kind <= LEVEL2 && !(w >> 26 & 1)) p = put(p, ",S");
    return (size_t)(p - out);
}

uint32_t plain_list(const struct plain_config *c, const uint32_t *image, uint64_t first, uint8_t *page, size_t page_len,
                    uint64_t place, uint64_t answers[2]) {
    uint32_t number = 0;
    uint8_t line[48];
    if (place > page_len) number = 18;
    while (number == 0 && first < c->im_size) {
        const uint32_t w = image[first], verdict = plain_verdict(c, w);
        uint8_t *p = put(hex(put(hex(line, (uint32_t)first, 6), " "), w, 8), " ");
        if (verdict == 0) {
            p += plain_text(w, p);
        } else {
            *p++ = '?';
            *p++ = (uint8_t)('0' + verdict);
        }
        *p++ = '\n';
        const size_t length = (size_t)(p - line);
        if (length > page_len - place) {
            number = 18;
        } else {
            memcpy(page + place, line, length);
            place += length;
            first++;
        }
    }
    answers[0] = place;
    answers[1] = first;
    return number;
}
