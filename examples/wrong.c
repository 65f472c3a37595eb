/* Each wrong call that the face answers, with the status that it gives: the program ends with 1 where one is another. */
#include <stdio.h>
#include <string.h>
#include "x86emu.h"

static int wrong;

#define SAY(want, call) do { uint32_t got_ = (call); printf("%-52s %u\n", #call, got_); \
    if (got_ != (want)) { printf("  is not " #want "\n"); wrong++; } } while (0)

static void no_machine(void) {
    x86emu_machine m = X86EMU_NONE;
    x86emu_cpu cpu;
    x86emu_report r;
    x86emu_made made;
    x86emu_name_text name;
    uint8_t b[4] = { 0 };
    memset(&cpu, 0, sizeof cpu);
    puts("no machine:");
    SAY(X86EMU_NO_MACHINE, x86emu_run(&m, 1, &r));
    SAY(X86EMU_END_NONE, r.end);
    SAY(X86EMU_NO_MACHINE, x86emu_made_at(&m, 0, &made));
    SAY(X86EMU_NO_MACHINE, x86emu_instruction(&m, true, &name));
    SAY(X86EMU_NO_MACHINE, x86emu_answer(&m, 1));
    SAY(X86EMU_NO_MACHINE, x86emu_answer_none(&m));
    SAY(X86EMU_NO_MACHINE, x86emu_abandon(&m));
    SAY(X86EMU_NO_MACHINE, x86emu_read(&m, 0, b, 1));
    SAY(X86EMU_NO_MACHINE, x86emu_write(&m, 0, b, 1));
    SAY(X86EMU_NO_MACHINE, x86emu_get_cpu(&m, &cpu));
    SAY(X86EMU_NO_MACHINE, x86emu_set_cpu(&m, &cpu));
    SAY(X86EMU_NO_MACHINE, x86emu_intercept(&m, X86EMU_HLT));
    SAY(X86EMU_NO_MACHINE, x86emu_intercept_no_more(&m, X86EMU_HLT));
    SAY(X86EMU_NO_MACHINE, x86emu_intercept_ports(&m, 0, 1));
    SAY(X86EMU_NO_MACHINE, x86emu_intercept_msr(&m, 0, false));
    SAY(X86EMU_NO_MACHINE, x86emu_destroy(&m));
}

static void bad_regions(void) {
    x86emu_machine m = X86EMU_NONE;
    x86emu_region odd = { 0x800, 0x1000 }, empty = { 0, 0 }, high = { 1ull << 40, 0x1000 }, large = { 0, 0x1001000 };
    x86emu_region over[] = { { 0, 0x2000 }, { 0x1000, 0x1000 } };
    static x86emu_region many[17];
    puts("regions:");
    for (unsigned i = 0; i < 17; i++) many[i] = (x86emu_region){ 0x1000 * i, 0x1000 };
    SAY(X86EMU_BAD_REGION, x86emu_create(&m, &odd, 1));
    SAY(X86EMU_BAD_REGION, x86emu_create(&m, &empty, 1));
    SAY(X86EMU_BAD_REGION, x86emu_create(&m, &high, 1));
    SAY(X86EMU_BAD_REGION, x86emu_create(&m, over, 2));
    SAY(X86EMU_TOO_LARGE, x86emu_create(&m, &large, 1));
    SAY(X86EMU_TOO_LARGE, x86emu_create(&m, many, 17));
    SAY(X86EMU_OK, x86emu_create(&m, many, 16));
    SAY(X86EMU_HAS_MACHINE, x86emu_create(&m, many, 16));
    SAY(X86EMU_OK, x86emu_destroy(&m));
    SAY(X86EMU_OK, x86emu_create(&m, NULL, 0));
    SAY(X86EMU_OK, x86emu_destroy(&m));
    SAY(X86EMU_NO_MACHINE, x86emu_destroy(&m));
}

static void memory(x86emu_machine *m) {
    uint8_t b[4] = { 0xE4, 0x60, 0xF4, 0x90 }, back[4] = { 7, 7, 7, 7 };
    puts("memory:");
    SAY(X86EMU_OK, x86emu_write(m, 0, b, 4));
    SAY(X86EMU_OK, x86emu_read(m, 0, back, 4));
    SAY(0, (uint32_t)memcmp(b, back, 4));
    SAY(X86EMU_NOT_RAM, x86emu_write(m, 0xFFE, b, 4));
    SAY(X86EMU_NOT_RAM, x86emu_read(m, 0x2000, back, 1));
    SAY(X86EMU_NOT_RAM, x86emu_read(m, UINT64_MAX, back, 2));
    SAY(0, (uint32_t)memcmp(b, back, 4));
    SAY(X86EMU_OK, x86emu_read(m, 0x2000, NULL, 0));
    SAY(X86EMU_OK, x86emu_read(m, 0xFFE, back, 2));
    SAY(0, back[0] + back[1]);
}

static void settings(x86emu_machine *m) {
    x86emu_cpu cpu;
    x86emu_report r;
    puts("registers and intercepts:");
    SAY(X86EMU_OK, x86emu_get_cpu(m, &cpu));
    SAY(0, x86emu_check_cpu(&cpu));
    cpu.rflags = 0;
    SAY(1, x86emu_check_cpu(&cpu));
    SAY(X86EMU_BAD_CPU, x86emu_set_cpu(m, &cpu));
    SAY(X86EMU_BAD_NAME, x86emu_intercept(m, 32));
    SAY(X86EMU_BAD_NAME, x86emu_intercept_no_more(m, UINT32_MAX));
    SAY(X86EMU_BAD_RANGE, x86emu_intercept_ports(m, 2, 1));
    for (uint32_t i = 0; i < 64; i++) if (x86emu_intercept_msr(m, i, i % 2) != X86EMU_OK) wrong++;
    SAY(X86EMU_OK, x86emu_intercept_msr(m, 63, true));
    SAY(X86EMU_FULL, x86emu_intercept_msr(m, 64, true));
    SAY(X86EMU_BAD_BATCH, x86emu_run(m, 0, &r));
    SAY(X86EMU_END_NONE, r.end);
}

static void answers(x86emu_machine *m) {
    x86emu_cpu cpu;
    x86emu_report r;
    x86emu_made made;
    puts("answers:");
    SAY(X86EMU_NOT_ASKED, x86emu_answer(m, 1));
    SAY(X86EMU_NOT_ASKED, x86emu_answer_none(m));
    SAY(X86EMU_OK, x86emu_abandon(m));
    SAY(X86EMU_OK, x86emu_run(m, 1, &r));
    SAY(X86EMU_END_PENDING, r.end);
    SAY(X86EMU_OK, x86emu_run(m, 1, &r));
    SAY(X86EMU_END_PENDING, r.end);
    SAY(X86EMU_OK, x86emu_get_cpu(m, &cpu));
    SAY(X86EMU_AWAITING, x86emu_set_cpu(m, &cpu));
    SAY(X86EMU_BAD_BATCH, x86emu_run(m, 0, &r));
    SAY(X86EMU_BAD_ANSWER, x86emu_answer(m, 0x100));
    SAY(X86EMU_BAD_ANSWER, x86emu_answer_none(m));
    SAY(X86EMU_OK, x86emu_answer(m, 0x5A));
    SAY(X86EMU_ANSWERED, x86emu_answer(m, 0x5A));
    SAY(X86EMU_ANSWERED, x86emu_answer_none(m));
    SAY(X86EMU_AWAITING, x86emu_set_cpu(m, &cpu));
    SAY(X86EMU_OK, x86emu_run(m, 1, &r));
    SAY(X86EMU_END_DONE, r.end);
    SAY(1, r.accesses);
    SAY(X86EMU_OK, x86emu_made_at(m, 0, &made));
    SAY(0x5A, (uint32_t)made.answer);
    SAY(X86EMU_BAD_INDEX, x86emu_made_at(m, 1, &made));
    SAY(X86EMU_NOT_ASKED, x86emu_answer(m, 0x5A));
    SAY(X86EMU_OK, x86emu_set_cpu(m, &cpu));
}

/* The guest is changed under a suspended step: the record belongs to another step, until it is given up. */
static void changed(x86emu_machine *m) {
    uint8_t hlt = 0xF4;
    x86emu_report r;
    puts("changed under a suspended step:");
    SAY(X86EMU_OK, x86emu_run(m, 1, &r));
    SAY(X86EMU_END_PENDING, r.end);
    SAY(X86EMU_OK, x86emu_write(m, 0, &hlt, 1));
    SAY(X86EMU_OK, x86emu_answer(m, 1));
    SAY(X86EMU_OK, x86emu_run(m, 1, &r));
    SAY(X86EMU_END_DIVERGED, r.end);
    SAY(0, r.has_wanted);
    SAY(0x60, (uint32_t)r.access.address);
    SAY(X86EMU_OK, x86emu_abandon(m));
    SAY(X86EMU_OK, x86emu_run(m, 1, &r));
    SAY(X86EMU_END_DONE, r.end);
    SAY(X86EMU_RETIRE_HALT, r.retire);
}

int main(void) {
    x86emu_machine m = X86EMU_NONE;
    x86emu_region ram = { 0, 0x1000 };
    SAY(X86EMU_ABI, x86emu_abi());
    no_machine();
    bad_regions();
    SAY(X86EMU_OK, x86emu_create(&m, &ram, 1));
    memory(&m);
    settings(&m);
    answers(&m);
    changed(&m);
    SAY(X86EMU_OK, x86emu_destroy(&m));
    printf("%d wrong\n", wrong);
    return wrong != 0;
}
