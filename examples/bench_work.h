/* The kinds of work of scripts/bench: each is a piece of code that is run round and round, the same bytes for this library and for
 * its peer. All are real-mode code at 0:100 (the paged ones 64-bit code at the same place). */
#ifndef BENCH_WORK_H
#define BENCH_WORK_H
#include <stdint.h>
#include <string.h>

#define WORK_CODE 0x100u        /* where the code begins */
#define WORK_DATA 0x8000u       /* what BX, SI and DI point to */
#define WORK_SOURCE 0x10000u    /* the base of DS for the string kinds, and the first byte behind the code's 64 KiB */
#define WORK_TARGET 0x20000u    /* the base of ES for the string kinds */
#define WORK_STACK 0x40000u     /* the base of SS where the stack is to be a device's */
#define WORK_BLOCK 0x10000u     /* the bytes of one repeated string instruction */

enum work_mode { WORK_REAL, WORK_PAGES_4K, WORK_PAGES_2M, WORK_STRING, WORK_PORT, WORK_DEVICES };

struct work {
    const char *name;
    enum work_mode mode;
    unsigned element;           /* bytes of a string's element */
    unsigned copies;            /* how often the bytes stand one behind the other, before a jump to the first */
    unsigned length;
    uint8_t bytes[24];
};

static const struct work works[] = {
    /* add ax, bx / sub cx, dx / xor si, di / shl bp, 3 */
    { "registers", WORK_REAL, 0, 32, 9, { 0x01, 0xD8, 0x29, 0xD1, 0x31, 0xFE, 0xC1, 0xE5, 0x03 } },
    /* mov ax, [bx] / mov ecx, [si+4] / mov dl, [di+8] / mov dx, [bx+16] */
    { "loads", WORK_REAL, 0, 32, 13, { 0x8B, 0x07, 0x66, 0x8B, 0x4C, 0x04, 0x8A, 0x55, 0x08, 0x8B, 0x97, 0x10, 0x00 } },
    /* mov [bx], ax / mov [si+4], ecx / mov [di+8], dl / mov [bx+16], dx */
    { "stores", WORK_REAL, 0, 32, 13, { 0x89, 0x07, 0x66, 0x89, 0x4C, 0x04, 0x88, 0x55, 0x08, 0x89, 0x97, 0x10, 0x00 } },
    /* add [bx], ax / xor [si+4], ecx / inc byte [di+8] / sub [bx+16], dx */
    { "read-modify-write", WORK_REAL, 0, 32, 13, { 0x01, 0x07, 0x66, 0x31, 0x4C, 0x04, 0xFE, 0x45, 0x08, 0x29, 0x97, 0x10, 0x00 } },
    /* mov ax, [bx] / add ax, cx / mov [bx+8], ax / add [bx+16], ax / sub cx, 1 / jnz to the first; in 64-bit code the same with EAX
     * and RDI for BX */
    { "loop", WORK_REAL, 0, 1, 15, { 0x8B, 0x07, 0x01, 0xC8, 0x89, 0x47, 0x08, 0x01, 0x47, 0x10, 0x83, 0xE9, 0x01, 0x75, 0xF1 } },
    { "loop-pages-4k", WORK_PAGES_4K, 0, 1, 15, { 0x8B, 0x07, 0x01, 0xC8, 0x89, 0x47, 0x08, 0x01, 0x47, 0x10, 0x83, 0xE9, 0x01, 0x75, 0xF1 } },
    { "loop-pages-2m", WORK_PAGES_2M, 0, 1, 15, { 0x8B, 0x07, 0x01, 0xC8, 0x89, 0x47, 0x08, 0x01, 0x47, 0x10, 0x83, 0xE9, 0x01, 0x75, 0xF1 } },
    /* in al, 60h */
    { "port", WORK_PORT, 0, 32, 2, { 0xE4, 0x60 } },
    /* mov ecx, N / xor esi, esi / xor edi, edi / the instruction with REP and 32-bit addresses */
    { "rep-movsb", WORK_STRING, 1, 1, 15, { 0x66, 0xB9, 0x00, 0x00, 0x01, 0x00, 0x66, 0x31, 0xF6, 0x66, 0x31, 0xFF, 0x67, 0xF3, 0xA4 } },
    { "rep-movsd", WORK_STRING, 4, 1, 16, { 0x66, 0xB9, 0x00, 0x40, 0x00, 0x00, 0x66, 0x31, 0xF6, 0x66, 0x31, 0xFF, 0x67, 0x66, 0xF3, 0xA5 } },
    { "rep-stosd", WORK_STRING, 4, 1, 16, { 0x66, 0xB9, 0x00, 0x40, 0x00, 0x00, 0x66, 0x31, 0xF6, 0x66, 0x31, 0xFF, 0x67, 0x66, 0xF3, 0xAB } },
    /* push ax / pusha / enter 0, 31, with a stack that isn't RAM: 1, 8 and 62 device accesses */
    { "device-push", WORK_DEVICES, 0, 32, 1, { 0x50 } },
    { "device-pusha", WORK_DEVICES, 0, 32, 1, { 0x60 } },
    { "device-enter", WORK_DEVICES, 0, 32, 4, { 0xC8, 0x00, 0x00, 0x1F } },
};

static const struct work *work_named(const char *name) {
    for (size_t i = 0; i < sizeof works / sizeof works[0]; i++) {
        if (strcmp(works[i].name, name) == 0) return &works[i];
    }
    return NULL;
}

/* Writes the work's code, with the jump to its start; answers its length. The jump of one copy is short, that of several is near. */
static size_t work_code(const struct work *w, uint8_t *code) {
    size_t at = 0;
    for (unsigned i = 0; i < w->copies; i++, at += w->length) memcpy(code + at, w->bytes, w->length);
    if (w->copies == 1) {
        code[at] = 0xEB;
        code[at + 1] = (uint8_t)-(int)(at + 2);
        return at + 2;
    }
    unsigned back = 0x10000u - (unsigned)(at + 3);
    code[at] = 0xE9;
    code[at + 1] = (uint8_t)back;
    code[at + 2] = (uint8_t)(back >> 8);
    return at + 3;
}
#define WORK_MOST_CODE 512

/* One number over the registers: RAX, RCX, RDX, RBX, RSP, RBP, RSI, RDI and RIP in this order, 32 bits of each. */
static uint32_t work_sum(uint32_t sum, uint32_t value) {
    return (sum ^ value) * 16777619u + 1;
}

#endif
