/* Runs one kind of work through the C face for so many steps, and prints the steps, the nanoseconds that they took, and a number over
 * the registers afterwards. scripts/bench calls it.
 *
 *     bench KIND STEPS [BATCH [WAITS [REGIONS [BYTES [PLACE]]]]]
 *
 * BATCH (1) is how many elements of a repeated string instruction a call may run. WAITS (0) is how often a device isn't ready before
 * it answers. The RAM is REGIONS (1) regions with a page free between them, of BYTES (what the work needs) in all; the one with the number
 * PLACE (0) holds the work, which for another than 0 has to be real-mode code without strings.
 * `bench copy BYTES` is the C library's memcpy of 64 KiB, and `bench list` prints each kind with its code. */
#define _POSIX_C_SOURCE 200809L
#include <stdio.h>
#include <stdlib.h>
#include <time.h>
#include "bench_work.h"
#include "x86emu.h"

#define PAGE 4096u
#define PML4 0x2000u
#define PDPT 0x3000u
#define DIRECTORY 0x4000u
#define TABLE 0x5000u
#define PRESENT_WRITABLE 3u
#define PAGE_SIZE_BIT 0x80u

static uint64_t now(void) {
    struct timespec t;
    clock_gettime(CLOCK_MONOTONIC, &t);
    return (uint64_t)t.tv_sec * 1000000000u + (uint64_t)t.tv_nsec;
}

static void must(uint32_t status, const char *what) {
    if (status != X86EMU_OK) {
        fprintf(stderr, "bench: %s answers %u\n", what, status);
        exit(1);
    }
}

/* Regions with a page that is no RAM behind each. That with the number `place` holds the work, and its address is answered. */
static uint64_t create(x86emu_machine *m, uint64_t own, unsigned count, uint64_t bytes, unsigned place) {
    x86emu_region regions[16];
    uint64_t each = count > 1 && bytes > own ? (bytes - own) / (count - 1) / PAGE * PAGE : 0;
    uint64_t at = 0, base = 0;
    if (count < 1 || count > 16 || place >= count) must(X86EMU_TOO_LARGE, "the number of regions");
    if (count == 1 && bytes > own) own = bytes;
    for (unsigned i = 0; i < count; i++) {
        regions[i] = (x86emu_region){ at, i == place ? own : each >= PAGE ? each : PAGE };
        if (i == place) base = at;
        at += regions[i].length + PAGE;
    }
    must(x86emu_create(m, regions, count), "x86emu_create");
    return base;
}

static void put(x86emu_machine *m, uint64_t at, uint64_t value) {
    must(x86emu_write(m, at, (const uint8_t *)&value, sizeof value), "x86emu_write");
}

/* 64-bit code under 4-level paging: the first 2 MiB are mapped to themselves. */
static void map(x86emu_machine *m, x86emu_cpu *cpu, int large) {
    put(m, PML4, PDPT | PRESENT_WRITABLE);
    put(m, PDPT, DIRECTORY | PRESENT_WRITABLE);
    put(m, DIRECTORY, large ? PAGE_SIZE_BIT | PRESENT_WRITABLE : TABLE | PRESENT_WRITABLE);
    for (uint64_t i = 0; !large && i < 512; i++) put(m, TABLE + 8 * i, i * PAGE | PRESENT_WRITABLE);
    cpu->cr0 = 0x80000011u;
    cpu->cr3 = PML4;
    cpu->cr4 = 0x20;
    cpu->efer = 0x500;
    cpu->cs.attributes = 0x29B;
}

static void prepare(x86emu_machine *m, const struct work *w, uint64_t base) {
    uint8_t code[WORK_MOST_CODE];
    x86emu_cpu cpu;
    must(x86emu_write(m, base + WORK_CODE, code, work_code(w, code)), "x86emu_write");
    must(x86emu_get_cpu(m, &cpu), "x86emu_get_cpu");
    cpu.rip = WORK_CODE;
    cpu.cs.base = cpu.ds.base = base;
    cpu.gpr[X86EMU_RBX] = cpu.gpr[X86EMU_RSI] = cpu.gpr[X86EMU_RDI] = WORK_DATA;
    cpu.gpr[X86EMU_RCX] = 0x1234;
    if (w->mode == WORK_STRING) {
        cpu.ds.base = WORK_SOURCE, cpu.ds.selector = WORK_SOURCE >> 4;
        cpu.es.base = WORK_TARGET, cpu.es.selector = WORK_TARGET >> 4;
    }
    if (w->mode == WORK_DEVICES) cpu.ss.base = WORK_STACK, cpu.ss.selector = WORK_STACK >> 4;
    if (w->mode == WORK_PAGES_4K || w->mode == WORK_PAGES_2M) map(m, &cpu, w->mode == WORK_PAGES_2M);
    must(x86emu_set_cpu(m, &cpu), "x86emu_set_cpu");
}

/* Each device access is asked for, asked for again as often as it has to wait, and answered. */
static uint64_t work(x86emu_machine *m, uint64_t steps, uint32_t batch, uint64_t waits) {
    uint64_t done = 0;
    x86emu_report r;
    while (done < steps) {
        if (x86emu_run(m, batch, &r) != X86EMU_OK) break;
        for (uint64_t i = 0; r.end == X86EMU_END_PENDING && i < waits; i++) x86emu_run(m, batch, &r);
        if (r.end == X86EMU_END_PENDING) {
            must(x86emu_answer(m, 0x5A), "x86emu_answer");
        } else if (r.end == X86EMU_END_DONE) {
            done += r.elements;
        } else {
            fprintf(stderr, "bench: after %llu steps the end is %u, vector %u\n", (unsigned long long)done, r.end, r.vector);
            exit(1);
        }
    }
    return done;
}

static uint32_t registers(x86emu_machine *m) {
    x86emu_cpu cpu;
    uint32_t sum = 0;
    must(x86emu_get_cpu(m, &cpu), "x86emu_get_cpu");
    for (int i = 0; i < 8; i++) sum = work_sum(sum, (uint32_t)cpu.gpr[i]);
    return work_sum(sum, (uint32_t)cpu.rip);
}

static int list(void) {
    uint8_t code[WORK_MOST_CODE];
    for (size_t i = 0; i < sizeof works / sizeof works[0]; i++) {
        size_t length = work_code(&works[i], code);
        printf("%s ", works[i].name);
        for (size_t at = 0; at < length; at++) printf("%02x", code[at]);
        printf("\n");
    }
    return 0;
}

static uint64_t copy(uint64_t bytes) {
    static uint8_t from[WORK_BLOCK], to[WORK_BLOCK];
    uint64_t done = 0;
    for (; done < bytes; done += WORK_BLOCK) {
        from[done / WORK_BLOCK % WORK_BLOCK]++;
        memcpy(to, from, WORK_BLOCK);
        __asm__ volatile("" : : "r"(to), "r"(from) : "memory");
    }
    return done;
}

int main(int count, char **words) {
    const char *name = count > 1 ? words[1] : "";
    uint64_t steps = count > 2 ? strtoull(words[2], NULL, 10) : 0;
    uint32_t batch = count > 3 ? (uint32_t)strtoul(words[3], NULL, 10) : 1;
    uint64_t waits = count > 4 ? strtoull(words[4], NULL, 10) : 0;
    unsigned regions = count > 5 ? (unsigned)strtoul(words[5], NULL, 10) : 1;
    uint64_t bytes = count > 6 ? strtoull(words[6], NULL, 0) : 0;
    unsigned place = count > 7 ? (unsigned)strtoul(words[7], NULL, 10) : 0;
    const struct work *w = work_named(name);
    x86emu_machine m = X86EMU_NONE;
    uint64_t start, done, time;
    if (strcmp(name, "list") == 0) return list();
    if (w == NULL && strcmp(name, "copy") != 0) {
        fprintf(stderr, "usage: bench KIND STEPS [BATCH [WAITS [REGIONS [BYTES [PLACE]]]]]\n");
        return 2;
    }
    if (w != NULL) {
        prepare(&m, w, create(&m, w->mode == WORK_STRING ? WORK_TARGET + WORK_BLOCK : 0x10000, regions, bytes, place));
    }
    start = now();
    done = w != NULL ? work(&m, steps, batch, waits) : copy(steps);
    time = now() - start;
    printf("%llu %llu %u\n", (unsigned long long)done, (unsigned long long)time, w != NULL ? registers(&m) : 0);
    if (w != NULL) must(x86emu_destroy(&m), "x86emu_destroy");
    return 0;
}
