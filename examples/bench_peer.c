/* The same work as examples/bench.c by libx86emu, for comparison. Both libraries' headers are named x86emu.h: this one is built
 * without this repository's include folder.
 *
 *     bench_peer KIND STEPS WAY
 *
 * WAY is `plain` (one call for all steps), `single` (a call for each instruction) or `trace` (one call, with its trace of registers,
 * code, data and ports on standard error). Prints the steps, the nanoseconds and the number over the registers as that one does. A
 * repeated string instruction is one instruction of this library; what is printed are its elements. */
#define _POSIX_C_SOURCE 200809L
#include <stdio.h>
#include <stdlib.h>
#include <time.h>
#include <x86emu.h>
#include "bench_work.h"

static x86emu_memio_handler_t memory;

static uint64_t now(void) {
    struct timespec t;
    clock_gettime(CLOCK_MONOTONIC, &t);
    return (uint64_t)t.tv_sec * 1000000000u + (uint64_t)t.tv_nsec;
}

/* Answers ports itself: the library's own handler would ask the real ones. */
static unsigned port(x86emu_t *emu, u32 address, u32 *value, unsigned type) {
    if ((type & ~0xFFu) == X86EMU_MEMIO_I) {
        *value = 0x5A;
        return 0;
    }
    return memory(emu, address, value, type);
}

static void flush(x86emu_t *emu, char *bytes, unsigned size) {
    (void)emu;
    fwrite(bytes, 1, size, stderr);
}

static x86emu_t *prepare(const struct work *w) {
    uint8_t code[WORK_MOST_CODE];
    x86emu_t *emu = x86emu_new(X86EMU_PERM_R | X86EMU_PERM_W | X86EMU_PERM_X, 0);
    size_t length = work_code(w, code);
    for (unsigned i = 0; i < (w->mode == WORK_STRING ? WORK_TARGET + WORK_BLOCK : 0x10000u); i++) x86emu_write_byte(emu, i, 0);
    for (size_t i = 0; i < length; i++) x86emu_write_byte(emu, WORK_CODE + (u32)i, code[i]);
    x86emu_set_seg_register(emu, emu->x86.R_CS_SEL, 0);
    x86emu_set_seg_register(emu, emu->x86.R_DS_SEL, w->mode == WORK_STRING ? WORK_SOURCE >> 4 : 0);
    x86emu_set_seg_register(emu, emu->x86.R_ES_SEL, w->mode == WORK_STRING ? WORK_TARGET >> 4 : 0);
    emu->x86.R_EIP = WORK_CODE;
    emu->x86.R_EBX = emu->x86.R_ESI = emu->x86.R_EDI = WORK_DATA;
    emu->x86.R_ECX = 0x1234;
    if (w->mode == WORK_PORT) memory = x86emu_set_memio_handler(emu, port);
    return emu;
}

/* The library counts instructions in its time stamp counter, and a limit of instructions is a value of that counter. */
static uint64_t run(x86emu_t *emu, uint64_t instructions, int single) {
    uint64_t first = emu->x86.R_TSC, each = single ? 1 : instructions;
    for (uint64_t done = 0; done < instructions; done += each) {
        emu->max_instr = emu->x86.R_TSC + each;
        x86emu_run(emu, X86EMU_RUN_MAX_INSTR);
    }
    return emu->x86.R_TSC - first;
}

static uint32_t registers(const x86emu_regs_t *x) {
    const uint32_t all[] = { x->R_EAX, x->R_ECX, x->R_EDX, x->R_EBX, x->R_ESP, x->R_EBP, x->R_ESI, x->R_EDI, x->R_EIP };
    uint32_t sum = 0;
    for (size_t i = 0; i < sizeof all / sizeof all[0]; i++) sum = work_sum(sum, all[i]);
    return sum;
}

int main(int count, char **words) {
    const struct work *w = count > 3 ? work_named(words[1]) : NULL;
    uint64_t steps, start, done, time;
    /* a round of a string kind is 5 instructions, and in this library's way one is all elements of a block */
    unsigned elements = w != NULL && w->element != 0 ? WORK_BLOCK / w->element : 0;
    x86emu_t *emu;
    if (w == NULL || w->mode == WORK_PAGES_4K || w->mode == WORK_PAGES_2M || w->mode == WORK_DEVICES) {
        fprintf(stderr, "usage: bench_peer KIND STEPS plain|single|trace\n");
        return 2;
    }
    steps = strtoull(words[2], NULL, 10);
    emu = prepare(w);
    if (strcmp(words[3], "trace") == 0) {
        x86emu_set_log(emu, 1 << 16, flush);
        emu->log.trace = X86EMU_TRACE_REGS | X86EMU_TRACE_CODE | X86EMU_TRACE_DATA | X86EMU_TRACE_IO;
    }
    start = now();
    done = run(emu, elements != 0 ? (steps + elements - 1) / elements * 5 : steps, strcmp(words[3], "single") == 0);
    x86emu_clear_log(emu, 1);
    time = now() - start;
    done = elements != 0 ? done / 5 * elements : done;
    printf("%llu %llu %u\n", (unsigned long long)done, (unsigned long long)time, registers(&emu->x86));
    x86emu_done(emu);
    return 0;
}
