/* The three functions that libx86emu_c.a asks for, over malloc, realloc and free. A monitor with an allocator of its own writes them
 * over that one: a block is aligned to each power of two up to 16 that divides its size, and all three are of one allocator.
 *
 * For a test, X86EMU_FAIL_ALLOC makes the allocation with that number fail. */
#include <stdbool.h>
#include <stddef.h>
#include <stdlib.h>

struct rattle_block {
    bool ok;
    void *at;
};

static char nothing[16];

#ifdef X86EMU_FAIL_ALLOC
size_t x86emu_fail_alloc, x86emu_alloc_count;

static bool fails(void) {
    return ++x86emu_alloc_count == x86emu_fail_alloc;
}
#else
static bool fails(void) {
    return false;
}
#endif

static struct rattle_block made(void *at) {
    return (struct rattle_block){ at != NULL, at != NULL ? at : nothing };
}

struct rattle_block rattle_alloc(size_t size, size_t align) {
    return made(fails() ? NULL : malloc(size != 0 ? size : align));
}

struct rattle_block rattle_realloc(void *at, size_t old, size_t size, size_t align) {
    (void)old;
    return made(fails() ? NULL : realloc(at, size != 0 ? size : align));
}

void rattle_dealloc(void *at) {
    free(at);
}
