/* Plays a scenario of this repository through the C face, and prints its trace as `x86emu run` does: for scenarios of ram, poke,
 * reg (general registers and rip), dev and one run. scripts/check-c compares the two. */
#include <inttypes.h>
#include <stdio.h>
#include <stdlib.h>
#include <string.h>
#include "x86emu.h"

#define WAIT UINT64_MAX

static const char *const names[16] = { "rax", "rcx", "rdx", "rbx", "rsp", "rbp", "rsi", "rdi", "r8", "r9", "r10", "r11", "r12", "r13", "r14", "r15" };
static const char *const spaces[4] = { "mem", "port", "msr", "cpuid" };

/* A queue of the script: what a device answers to accesses of one space, direction and address, one after another. */
struct queue { uint32_t space; bool write; uint64_t address; uint64_t items[64]; unsigned count, next; };
static struct queue queues[16];
static unsigned queue_count;

/* The device's answer, or WAIT; an empty queue reads as all ones. */
static uint64_t reply(const x86emu_access *a) {
    uint64_t ones = a->size == 8 ? UINT64_MAX - 1 : (1ull << (8 * a->size)) - 1;
    for (unsigned i = 0; i < queue_count; i++) {
        struct queue *q = &queues[i];
        if (q->space != a->space || q->write != a->write || q->address != a->address || q->next == q->count) continue;
        return q->items[q->next] == WAIT ? (q->next++, WAIT) : (q->items[q->next++] & ones);
    }
    return a->write ? 0 : ones;
}

static void feed(char *words) {
    struct queue *q = &queues[queue_count++];
    char *space = strtok(words, " \n"), *way = strtok(NULL, " \n"), *word;
    for (q->space = 0; q->space < 3 && strcmp(spaces[q->space], space) != 0; q->space++) { }
    q->write = way[0] == 'w';
    q->address = strtoull(strtok(NULL, " \n"), NULL, 16);
    while ((word = strtok(NULL, " \n")) != NULL && q->count < 64) q->items[q->count++] = strcmp(word, "wait") == 0 ? WAIT : strtoull(word, NULL, 16);
}

static int poke(x86emu_machine *m, const char *at, const char *hex) {
    uint64_t address = strtoull(at, NULL, 16);
    for (; hex[0] > ' ' && hex[1] > ' '; hex += 2, address++) {
        char digits[3] = { hex[0], hex[1], 0 };
        uint8_t byte = (uint8_t)strtoul(digits, NULL, 16);
        if (x86emu_write(m, address, &byte, 1) != X86EMU_OK) return 1;
    }
    return 0;
}

static void tell_accesses(x86emu_machine *m, const x86emu_report *r, const unsigned *waits) {
    x86emu_made made;
    for (uint32_t i = 0; i < r->accesses && x86emu_made_at(m, i, &made) == X86EMU_OK; i++)
        printf("io %s %c %" PRIx64 " %u %" PRIx64 " %u\n", spaces[made.access.space], made.access.write ? 'w' : 'r', made.access.address,
               made.access.size, made.access.write ? made.access.value : made.answer, waits[i]);
}

static void tell_step(x86emu_machine *m, const x86emu_report *r, const x86emu_cpu *old, const x86emu_cpu *new) {
    x86emu_name_text name;
    x86emu_instruction(m, true, &name);
    printf("step %s %u rip=%" PRIx64 " flags=%" PRIx64, name.text, r->elements, new->rip, new->rflags);
    for (int i = 0; i < 16; i++) if (old->gpr[i] != new->gpr[i]) printf(" %s=%" PRIx64, names[i], new->gpr[i]);
    if (r->retire) printf(" retire=%x", r->retire);
    printf("\n");
}

/* One step, asked again after each device that isn't ready; answers whether the run goes on. */
static bool step(x86emu_machine *m) {
    x86emu_cpu old, new;
    x86emu_report r;
    unsigned waits[256] = { 0 };
    x86emu_get_cpu(m, &old);
    while (x86emu_run(m, 1, &r) == X86EMU_OK && r.end == X86EMU_END_PENDING) {
        uint64_t value = reply(&r.access);
        if (value == WAIT) waits[r.accesses]++;
        else if (x86emu_answer(m, value) != X86EMU_OK) return false;
    }
    tell_accesses(m, &r, waits);
    x86emu_get_cpu(m, &new);
    if (r.end != X86EMU_END_DONE) {
        printf("end %u vector %u code %x\n", r.end, r.vector, r.code);
        return false;
    }
    tell_step(m, &r, &old, &new);
    return !(r.retire & X86EMU_RETIRE_HALT);
}

int main(void) {
    x86emu_machine m = X86EMU_NONE;
    x86emu_cpu cpu;
    static char line[8192];
    char name[8], at[32], rest[4096];
    while (fgets(line, sizeof line, stdin) != NULL) {
        if (sscanf(line, "ram %31s %4095s", at, rest) == 2) {
            x86emu_region ram = { strtoull(at, NULL, 16), strtoull(rest, NULL, 16) };
            if (x86emu_create(&m, &ram, 1) != X86EMU_OK) return 1;
            x86emu_get_cpu(&m, &cpu);
        } else if (sscanf(line, "poke %31s %4095s", at, rest) == 2) {
            if (poke(&m, at, rest)) return 1;
        } else if (sscanf(line, "reg %7s %31s", name, at) == 2) {
            for (int i = 0; i < 16; i++) if (strcmp(names[i], name) == 0) cpu.gpr[i] = strtoull(at, NULL, 16);
            if (strcmp(name, "rip") == 0) cpu.rip = strtoull(at, NULL, 16);
        } else if (strncmp(line, "dev ", 4) == 0) {
            feed(line + 4);
        } else if (strncmp(line, "run ", 4) == 0) {
            if (x86emu_set_cpu(&m, &cpu) != X86EMU_OK) return 1;
            for (long left = strtol(line + 4, NULL, 10); left > 0 && step(&m); left--) { }
        }
    }
    return x86emu_destroy(&m) != X86EMU_OK;
}
