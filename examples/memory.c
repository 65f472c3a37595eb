/* Each allocation of x86emu_create fails in turn: it answers NO_MEMORY, leaves no machine, and leaks nothing. Built with
 * -DX86EMU_FAIL_ALLOC, for heap.c. */
#include <stdio.h>
#include "x86emu.h"

extern size_t x86emu_fail_alloc, x86emu_alloc_count;

int main(void) {
    const x86emu_region ram[] = { { 0, 0x1000 }, { 0x10000, 0x1000 } };
    for (size_t n = 1; n < 20; n++) {
        x86emu_machine m = X86EMU_NONE;
        x86emu_report r;
        x86emu_alloc_count = 0;
        x86emu_fail_alloc = n;
        uint32_t made = x86emu_create(&m, ram, 2);
        uint32_t ran = x86emu_run(&m, 1, &r);
        printf("allocation %zu fails: create %u, run %u, destroy %u\n", n, made, ran, x86emu_destroy(&m));
        if (made == X86EMU_OK) return x86emu_alloc_count != n - 1;
        if (made != X86EMU_NO_MEMORY || ran != X86EMU_NO_MACHINE) return 1;
    }
    return 1;
}
