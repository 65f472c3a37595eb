/* What a call and a step cost across the border, in nanoseconds: the best of nine rounds. */
#define _POSIX_C_SOURCE 200809L
#include <stdio.h>
#include <stdlib.h>
#include <string.h>
#include <time.h>
#include "x86emu.h"

static double now(void) {
    struct timespec t;
    clock_gettime(CLOCK_MONOTONIC, &t);
    return (double)t.tv_sec * 1e9 + (double)t.tv_nsec;
}

#define COST(name, turns, work) do { double best = 1e300; \
    for (int round = 0; round < 9; round++) { double t = now(); for (long i = 0; i < (turns); i++) { work; } \
        t = (now() - t) / (turns); if (t < best) best = t; } printf("%-44s %8.1f\n", name, best); } while (0)

int main(void) {
    x86emu_machine m = X86EMU_NONE;
    x86emu_region ram = { 0, 0x10000 };
    x86emu_cpu cpu;
    x86emu_report r;
    static uint8_t page[4096];
    /* inc ax at each address, and a jump back to 100h */
    uint8_t code[0x200], port[] = { 0xE4, 0x60, 0xEB, 0xFC };
    memset(code, 0x40, sizeof code);
    code[0x1FD] = 0xE9, code[0x1FE] = 0x00, code[0x1FF] = 0xFE;
    if (x86emu_create(&m, &ram, 1) || x86emu_write(&m, 0x100, code, sizeof code)) return 1;
    x86emu_get_cpu(&m, &cpu);
    cpu.rip = 0x100;
    if (x86emu_set_cpu(&m, &cpu)) return 1;
    COST("run, batch 0 (a call that does nothing)", 5000000, x86emu_run(&m, 0, &r));
    COST("run, one instruction", 200000, if (x86emu_run(&m, 1, &r) || r.end != X86EMU_END_DONE) abort());
    COST("get_cpu", 2000000, x86emu_get_cpu(&m, &cpu));
    COST("set_cpu", 2000000, x86emu_set_cpu(&m, &cpu));
    COST("read of 8 bytes", 2000000, x86emu_read(&m, 64, page, 8));
    COST("read of 4096 bytes", 20000, x86emu_read(&m, 0, page, 4096));
    x86emu_write(&m, 0x100, port, sizeof port);
    cpu.rip = 0x100;
    if (x86emu_set_cpu(&m, &cpu)) return 1;
    COST("in and jmp: pending, answer, two steps", 100000, if (x86emu_run(&m, 1, &r) || r.end != X86EMU_END_PENDING) abort();
         x86emu_answer(&m, 1); if (x86emu_run(&m, 1, &r) || r.end != X86EMU_END_DONE) abort(); x86emu_run(&m, 1, &r));
    if (x86emu_run(&m, 1, &r) || r.end != X86EMU_END_PENDING) return 1;
    COST("pending, run again", 200000, x86emu_run(&m, 1, &r));
    return x86emu_destroy(&m) != X86EMU_OK;
}
