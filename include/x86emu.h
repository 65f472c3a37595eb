/* x86emu.h: an emulator of x86 instructions that suspends where a device isn't ready.
 *
 * A machine is a processor in a valid state with its RAM. x86emu_run makes one turn of it: one instruction, or some elements of a
 * repeated string instruction. Where the turn needs a device it ends as PENDING with the access, as plain data: make the access when
 * you can, hand the result to x86emu_answer, and run again. No call blocks, none calls back, and no device is asked twice.
 *
 * What you owe
 *   - An x86emu_machine is 16 bytes of yours, all 0 at first (X86EMU_NONE). Don't copy it and go on with both: two copies are one
 *     machine, and after a call on the one the other may be used for nothing.
 *   - No pointer is null, but that of a buffer of length 0. What a call reads is initialised, and each bool is 0 or 1.
 *   - One call at a time on one machine. Calls on different machines may run at the same time, and a machine may go to another thread
 *     where something orders the two threads' calls (a lock, a join). No call from a signal handler.
 *   - End each machine by x86emu_destroy.
 * All else is answered: a call that can't be made returns a status and changes nothing, and no call keeps a pointer that you pass.
 *
 * Link libx86emu_c.a, and three functions over your allocator: examples/heap.c is the file over malloc. docs/EMBEDDING.md tells the rest.
 */
#ifndef X86EMU_H
#define X86EMU_H

#include <stdbool.h>
#include <stddef.h>
#include <stdint.h>

#ifdef __cplusplus
extern "C" {
#endif

/* The number of this face. x86emu_abi() tells that of the library: another one has other structs, numbers or calls. */
#define X86EMU_ABI 1u

/* A machine, or none. The fields are the library's. */
typedef struct x86emu_machine {
    bool live_;
    void *held_;
} x86emu_machine;

#define X86EMU_NONE { false, NULL }

/* ---- What a call answers */

enum x86emu_status {
    X86EMU_OK = 0,
    X86EMU_NO_MACHINE = 1,      /* there is no machine in the struct */
    X86EMU_HAS_MACHINE = 2,     /* x86emu_create: there is one already */
    X86EMU_NO_MEMORY = 3,
    X86EMU_BAD_REGION = 4,      /* a region isn't some whole pages of 4 KiB below 2^40, behind the region before it */
    X86EMU_TOO_LARGE = 5,       /* more than 16 regions, or more than 16 MiB in all */
    X86EMU_BAD_CPU = 6,         /* the registers are no valid state: x86emu_check_cpu tells the rule */
    X86EMU_AWAITING = 7,        /* an access awaits its answer: answer it, or x86emu_abandon */
    X86EMU_NOT_RAM = 8,         /* a byte isn't RAM; no byte was moved */
    X86EMU_NOT_ASKED = 9,       /* an answer that nothing asked for */
    X86EMU_ANSWERED = 10,       /* a second answer to one access */
    X86EMU_BAD_ANSWER = 11,     /* a value of more bytes than the access has; or "none" to what is no MSR */
    X86EMU_BAD_NAME = 12,       /* no intercept has this number */
    X86EMU_BAD_RANGE = 13,      /* the lowest port is above the highest */
    X86EMU_FULL = 14,           /* 64 pairs of an MSR and a direction are intercepted already */
    X86EMU_BAD_BATCH = 15,      /* a run of no step */
    X86EMU_BAD_INDEX = 16       /* the last step made no access with this number */
};

uint32_t x86emu_abi(void);

/* ---- A machine and its RAM */

/* A range of guest physical addresses that is RAM. */
typedef struct x86emu_region {
    uint64_t start;             /* a multiple of 4 KiB */
    uint64_t length;            /* in bytes, a multiple of 4 KiB, not 0 */
} x86emu_region;

/* Makes a machine with RAM of these regions, lowest first, all of whose bytes are 0, and the registers of a reset: real mode, at
 * address 0. NO_MEMORY comes only for regions that are in order. Takes all memory that the machine will ever have. */
uint32_t x86emu_create(x86emu_machine *m, const x86emu_region *regions, size_t count);

/* Ends a machine and frees its memory. The struct is X86EMU_NONE then. */
uint32_t x86emu_destroy(x86emu_machine *m);

/* Reads and writes guest physical memory. Where a byte isn't RAM (NOT_RAM), no byte is moved. */
uint32_t x86emu_read(x86emu_machine *m, uint64_t address, uint8_t *bytes, size_t count);
uint32_t x86emu_write(x86emu_machine *m, uint64_t address, const uint8_t *bytes, size_t count);

/* ---- Registers */

/* A segment register with what the processor caches of its descriptor. */
typedef struct x86emu_segment {
    uint64_t base;
    uint32_t limit;             /* the greatest offset, in bytes: scaled already where G is set */
    uint16_t selector;
    uint16_t attributes;        /* type in bits 3:0, S 4, DPL 6:5, P 7, AVL 8, L 9, DB 10, G 11 */
} x86emu_segment;

/* GDTR or IDTR. */
typedef struct x86emu_table {
    uint64_t base;
    uint16_t limit;             /* the offset of the last byte */
} x86emu_table;

/* The numbers of the general registers. */
enum x86emu_register {
    X86EMU_RAX = 0, X86EMU_RCX = 1, X86EMU_RDX = 2, X86EMU_RBX = 3, X86EMU_RSP = 4, X86EMU_RBP = 5, X86EMU_RSI = 6, X86EMU_RDI = 7,
    X86EMU_R8 = 8, X86EMU_R9 = 9, X86EMU_R10 = 10, X86EMU_R11 = 11, X86EMU_R12 = 12, X86EMU_R13 = 13, X86EMU_R14 = 14, X86EMU_R15 = 15
};

/* All registers. FS_BASE and GS_BASE are fs.base and gs.base. */
typedef struct x86emu_cpu {
    uint64_t gpr[16];           /* by enum x86emu_register */
    uint64_t rip, rflags;
    x86emu_segment es, cs, ss, ds, fs, gs, ldtr, tr;
    x86emu_table gdtr, idtr;
    uint64_t cr0, cr2, cr3, cr4, cr8, efer;
    uint64_t kgs;               /* KERNEL_GS_BASE */
    uint8_t cpl;                /* 0 to 3 */
} x86emu_cpu;

/* 0 where the registers are a valid state, else the first rule that they break: 1 the flags, 2 CR0, 3 CR4, 4 EFER, 5 CR3 and CR8, 6 the
 * segments' attributes and bases, 7 CPL, 8 CS.L with CS.DB, 9 the instruction pointer. */
uint32_t x86emu_check_cpu(const x86emu_cpu *cpu);

/* Sets all registers: BAD_CPU where they are no valid state, AWAITING while an access awaits its answer. */
uint32_t x86emu_set_cpu(x86emu_machine *m, const x86emu_cpu *cpu);
uint32_t x86emu_get_cpu(x86emu_machine *m, x86emu_cpu *cpu);

/* ---- What is intercepted: the exits of AMD's SVM (APM volume 2) */

enum x86emu_name {
    X86EMU_READ_CR0 = 0, X86EMU_READ_CR2 = 1, X86EMU_READ_CR3 = 2, X86EMU_READ_CR4 = 3, X86EMU_READ_CR8 = 4,
    X86EMU_WRITE_CR0 = 5, X86EMU_WRITE_CR2 = 6, X86EMU_WRITE_CR3 = 7, X86EMU_WRITE_CR4 = 8, X86EMU_WRITE_CR8 = 9,
    X86EMU_CR0_SEL = 10,        /* a write of CR0 that changes more than TS and MP */
    X86EMU_READ_IDTR = 11, X86EMU_READ_GDTR = 12, X86EMU_READ_LDTR = 13, X86EMU_READ_TR = 14,
    X86EMU_WRITE_IDTR = 15, X86EMU_WRITE_GDTR = 16, X86EMU_WRITE_LDTR = 17, X86EMU_WRITE_TR = 18,
    X86EMU_RDTSC = 19, X86EMU_PUSHF = 20, X86EMU_POPF = 21, X86EMU_CPUID = 22, X86EMU_IRET = 23, X86EMU_SWINT = 24,
    X86EMU_INVD = 25, X86EMU_PAUSE = 26, X86EMU_HLT = 27, X86EMU_INVLPG = 28,
    X86EMU_IOIO = 29,           /* of the ports that are set */
    X86EMU_MSR = 30,            /* of the pairs that are set */
    X86EMU_WBINVD = 31
};

/* Sets and clears a name. */
uint32_t x86emu_intercept(x86emu_machine *m, uint32_t name);
uint32_t x86emu_intercept_no_more(x86emu_machine *m, uint32_t name);

/* Adds the ports low to high, and an MSR with a direction. They matter where IOIO and MSR are set. */
uint32_t x86emu_intercept_ports(x86emu_machine *m, uint16_t low, uint16_t high);
uint32_t x86emu_intercept_msr(x86emu_machine *m, uint32_t number, bool write);

/* ---- Device accesses */

enum x86emu_space {
    X86EMU_SPACE_MEM = 0,       /* physical memory outside RAM */
    X86EMU_SPACE_PORT = 1,
    X86EMU_SPACE_MSR = 2,       /* address is the register's number */
    X86EMU_SPACE_CPUID = 3      /* address is leaf * 2^32 + subleaf; EBX:EAX is read first, then EDX:ECX */
};

typedef struct x86emu_access {
    uint64_t address;
    uint64_t value;             /* what is written; 0 for a read */
    uint32_t space;             /* enum x86emu_space */
    uint8_t size;               /* in bytes: 1, 2, 4 or 8 */
    bool write;
} x86emu_access;

/* An access with its answer. */
typedef struct x86emu_made {
    x86emu_access access;
    uint64_t answer;            /* what was read; to a write it has no meaning */
    bool answered;              /* false: there is no such MSR */
} x86emu_made;

/* ---- A run */

enum x86emu_end {
    X86EMU_END_NONE = 0,        /* the call was wrong, and nothing ran */
    X86EMU_END_DONE = 1,        /* more, retire */
    X86EMU_END_PENDING = 2,     /* access: answer it and run again */
    X86EMU_END_FAULT = 3,       /* vector; code where has_code; the page fault's address is value where has_cr2 */
    X86EMU_END_EXIT = 4,        /* code, info1, info2 */
    X86EMU_END_EVENT = 5,       /* kind, vector; value is the RIP behind the instruction */
    X86EMU_END_HANDOFF = 6,     /* kind, value */
    X86EMU_END_UNHANDLED = 7,   /* no instruction that the emulator knows */
    X86EMU_END_BUS_FAULT = 8,   /* access; never of this face's runs, whose device is you */
    X86EMU_END_DIVERGED = 9     /* at, access (the kept one), wanted where has_wanted: the guest was changed under a suspended step */
};

/* Bits of retire. */
enum x86emu_retire {
    X86EMU_RETIRE_STI = 1,      /* STI turned IF from 0 to 1 */
    X86EMU_RETIRE_SS = 2,       /* MOV SS or POP SS */
    X86EMU_RETIRE_HALT = 4,     /* the processor halts */
    X86EMU_RETIRE_TRAP = 8      /* TF was 1 when the step began */
};

enum x86emu_event { X86EMU_EVENT_INT = 0, X86EMU_EVENT_INT3 = 1, X86EMU_EVENT_INTO = 2 };

enum x86emu_handoff {
    X86EMU_HANDOFF_CALL_GATE = 0,   /* value is the instruction's selector, here and below */
    X86EMU_HANDOFF_TASK_GATE = 1,
    X86EMU_HANDOFF_TSS = 2,
    X86EMU_HANDOFF_TASK_RETURN = 3, /* IRET with NT set; no value */
    X86EMU_HANDOFF_VM86 = 4,        /* IRET into virtual-8086 mode; value is the CS that it loaded */
    X86EMU_HANDOFF_ENTRY = 5,       /* a page table entry isn't in RAM; value is its physical address */
    X86EMU_HANDOFF_FETCH = 6        /* a byte of the instruction isn't in RAM; value is its physical address */
};

/* How a run ended. What an end doesn't name beside it above has no meaning. At every end but DONE the machine is as before the last
 * step. */
typedef struct x86emu_report {
    uint32_t end;               /* enum x86emu_end */
    uint32_t elements;          /* steps that finished in this run */
    uint32_t accesses;          /* of the last step, answered ones: x86emu_made tells each */
    uint32_t kind;
    uint32_t code;
    uint16_t at;
    uint8_t vector;
    uint8_t retire;             /* bits of enum x86emu_retire */
    bool more;                  /* RIP stays on a repeated instruction, of which elements are left */
    bool has_code, has_cr2, has_wanted;
    uint64_t value;
    uint64_t info1, info2;
    x86emu_access access;
    x86emu_access wanted;
} x86emu_report;

/* Runs one turn of at most batch steps, batch at least 1: one instruction, or of a repeated string instruction up to batch elements. */
uint32_t x86emu_run(x86emu_machine *m, uint32_t batch, x86emu_report *report);

/* One of the accesses of the last run's last step, by its number from 0. */
uint32_t x86emu_made_at(x86emu_machine *m, uint32_t index, x86emu_made *made);

/* The name of an instruction as the table has it (docs/INSTRUCTIONS.md), with a zero behind it; empty where there is none. */
typedef struct x86emu_name_text {
    char text[16];
} x86emu_name_text;

/* Names the instruction of the last run's last step, empty where it wasn't decoded; or of its last step that finished. */
uint32_t x86emu_instruction(x86emu_machine *m, bool finished, x86emu_name_text *name);

/* Answers the access that awaits one: a value below 2^(8 * size); for a write any such value. The next x86emu_run goes on with it. */
uint32_t x86emu_answer(x86emu_machine *m, uint64_t value);

/* Answers a read or a write of an MSR: there is no such register. */
uint32_t x86emu_answer_none(x86emu_machine *m);

/* Gives a suspended step up, with the answers that it has; the machine is as before the step. OK too where none is suspended. */
uint32_t x86emu_abandon(x86emu_machine *m);

/* The layout that the library was built for. */
#if defined(__cplusplus) && __cplusplus >= 201103L
#define X86EMU_LAYOUT(x) static_assert(x, "x86emu.h: a 64-bit ABI is needed")
#elif defined(__STDC_VERSION__) && __STDC_VERSION__ >= 201112L
#define X86EMU_LAYOUT(x) _Static_assert(x, "x86emu.h: a 64-bit ABI is needed")
#endif
#ifdef X86EMU_LAYOUT
X86EMU_LAYOUT(sizeof(bool) == 1 && sizeof(void *) == 8 && sizeof(size_t) == 8);
X86EMU_LAYOUT(sizeof(x86emu_machine) == 16 && offsetof(x86emu_machine, held_) == 8);
X86EMU_LAYOUT(sizeof(x86emu_region) == 16);
X86EMU_LAYOUT(sizeof(x86emu_segment) == 16 && offsetof(x86emu_segment, attributes) == 14);
X86EMU_LAYOUT(sizeof(x86emu_table) == 16 && offsetof(x86emu_table, limit) == 8);
X86EMU_LAYOUT(sizeof(x86emu_cpu) == 368 && offsetof(x86emu_cpu, es) == 144 && offsetof(x86emu_cpu, gdtr) == 272);
X86EMU_LAYOUT(offsetof(x86emu_cpu, cr0) == 304 && offsetof(x86emu_cpu, cpl) == 360);
X86EMU_LAYOUT(sizeof(x86emu_access) == 24 && offsetof(x86emu_access, write) == 21);
X86EMU_LAYOUT(sizeof(x86emu_made) == 40 && offsetof(x86emu_made, answered) == 32);
X86EMU_LAYOUT(sizeof(x86emu_name_text) == 16);
X86EMU_LAYOUT(sizeof(x86emu_report) == 104 && offsetof(x86emu_report, at) == 20 && offsetof(x86emu_report, more) == 24);
X86EMU_LAYOUT(offsetof(x86emu_report, value) == 32 && offsetof(x86emu_report, access) == 56 && offsetof(x86emu_report, wanted) == 80);
#endif

#ifdef __cplusplus
}
#endif
#endif
