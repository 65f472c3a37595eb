/* A small monitor: a boot sector that prints over a serial port, and reads a disk port that isn't ready at first.
 *
 * The guest's access is plain data. The event loop below makes it when it can: the serial port is ready at once, the disk after three
 * turns of the loop, and in between the monitor does other work. */
#include <stdio.h>
#include "x86emu.h"

#define SERIAL 0x3F8
#define DISK 0x1F0

/* 7c00:  mov dx, 1F0h / in ax, dx          a word from the disk
 *        mov dx, 3F8h / mov cx, 3
 *        mov si, text / rep outsb          three bytes to the serial port
 *        out dx, al / mov al, ah / out dx, al
 *        hlt */
static const uint8_t sector[] = {
    0xBA, 0xF0, 0x01, 0xED, 0xBA, 0xF8, 0x03, 0xB9, 0x03, 0x00, 0xBE, 0x17, 0x7C, 0xF3, 0x6E, 0xEE, 0x88, 0xE0, 0xEE, 0xF4,
    0x90, 0x90, 0x90, 'H', 'i', ' ',
};

/* Ready after three times that it is asked. */
static bool disk_is_ready(void) {
    static int asked;
    return ++asked > 3;
}

/* Makes an access where the device is ready; answers whether it was made. */
static bool device(const x86emu_access *a, uint64_t *value) {
    *value = 0;
    if (a->space == X86EMU_SPACE_PORT && a->address == SERIAL && a->write) {
        printf("serial: %c\n", (int)a->value);
        return true;
    }
    if (a->space == X86EMU_SPACE_PORT && a->address == DISK && !a->write) {
        if (!disk_is_ready()) {
            printf("disk: not ready\n");
            return false;
        }
        *value = 0x4B4F;
        return true;
    }
    *value = a->write ? 0 : (a->size == 8 ? UINT64_MAX : (1ull << (8 * a->size)) - 1);
    return true;
}

int main(void) {
    x86emu_machine m = X86EMU_NONE;
    const x86emu_region ram = { 0, 0x10000 };
    x86emu_cpu cpu;
    x86emu_report r;
    uint32_t status = X86EMU_OK;

    if (x86emu_abi() != X86EMU_ABI || x86emu_create(&m, &ram, 1) != X86EMU_OK) return 1;
    x86emu_write(&m, 0x7C00, sector, sizeof sector);
    x86emu_get_cpu(&m, &cpu);
    cpu.rip = 0x7C00;
    if (x86emu_set_cpu(&m, &cpu) != X86EMU_OK) return 1;

    for (int turn = 0; turn < 200 && status == X86EMU_OK; turn++) {
        status = x86emu_run(&m, 1, &r);
        if (status != X86EMU_OK) break;
        if (r.end == X86EMU_END_PENDING) {
            uint64_t value;
            if (device(&r.access, &value)) status = x86emu_answer(&m, value);
        } else if (r.end != X86EMU_END_DONE || r.retire & X86EMU_RETIRE_HALT) {
            break;
        }
    }
    x86emu_get_cpu(&m, &cpu);
    printf("end %u, retire %u, rip %llx, ax %llx, cx %llx\n", r.end, r.retire, (unsigned long long)cpu.rip,
           (unsigned long long)cpu.gpr[X86EMU_RAX] & 0xFFFF, (unsigned long long)cpu.gpr[X86EMU_RCX]);
    return x86emu_destroy(&m) != X86EMU_OK;
}
