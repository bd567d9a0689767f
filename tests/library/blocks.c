/* blocks: calls the functions of library/heap.c, also with malloc and realloc refused. A block that is refused isn't there, and a refused
 * change leaves the old block with its bytes. Every block has its size and alignment, and is given back. The last line is 'N passed, M
 * failed'. */
#include <malloc.h>
#include <stdbool.h>
#include <stdint.h>
#include <stdio.h>
#include <stdlib.h>
#include <string.h>

struct tried {
    bool ok;
    void *at;
};

struct tried rattle_alloc(size_t size, size_t align);
struct tried rattle_realloc(void *at, size_t kept, size_t size, size_t align);
void rattle_dealloc(void *at);

void *__real_malloc(size_t size);
void *__real_realloc(void *at, size_t size);
void __real_free(void *at);

static bool is_refusing;
static long live, passed, failed;

void *__wrap_malloc(size_t size) {
    void *at = is_refusing ? NULL : __real_malloc(size);
    live += at != NULL;
    return at;
}

void *__wrap_realloc(void *at, size_t size) {
    return is_refusing ? NULL : __real_realloc(at, size);
}

void __wrap_free(void *at) {
    live -= at != NULL;
    __real_free(at);
}

static void check(bool is_right, const char *about, size_t size, size_t align) {
    passed += is_right;
    failed += !is_right;
    if (!is_right) {
        printf("%s of %zu bytes, aligned to %zu: wrong\n", about, size, align);
    }
}

/* Whether nothing was allocated: no block, and the address that isn't null. */
static bool is_nothing(struct tried tried) {
    return !tried.ok && tried.at == (void *)16;
}

static bool is_block(struct tried tried, size_t size, size_t align) {
    return tried.ok && tried.at != NULL && (uintptr_t)tried.at % align == 0 && malloc_usable_size(tried.at) >= size;
}

/* Whether the first bytes are those that a block was filled with. */
static bool is_filled(const unsigned char *bytes, size_t count) {
    for (size_t place = 0; place < count; place++) {
        if (bytes[place] != 0xAA) {
            return false;
        }
    }
    return true;
}

/* A block that is refused, given, refused another size, given it, and given back. */
static void check_block(size_t size, size_t next, size_t align) {
    size_t kept = size < next ? size : next;
    is_refusing = true;
    check(is_nothing(rattle_alloc(size, align)), "a refused block", size, align);
    is_refusing = false;
    struct tried block = rattle_alloc(size, align);
    check(is_block(block, size, align) && live == 1, "a block", size, align);
    if (!block.ok) {
        return;
    }
    memset(block.at, 0xAA, size);
    is_refusing = true;
    check(is_nothing(rattle_realloc(block.at, kept, next, align)), "a refused change", size, align);
    is_refusing = false;
    check(is_filled(block.at, size) && live == 1, "the block after a refused change", size, align);
    struct tried changed = rattle_realloc(block.at, kept, next, align);
    check(is_block(changed, next, align) && is_filled(changed.at, kept) && live == 1, "a changed block", size, align);
    rattle_dealloc(changed.ok ? changed.at : block.at);
    check(live == 0, "a block given back", size, align);
}

int main(void) {
    static const size_t sizes[] = {0, 1, 2, 15, 16, 17, 100, 4095, 4096, 4097, 1 << 20};
    enum { SIZES = sizeof sizes / sizeof *sizes };
    for (size_t align = 1; align <= 16; align *= 2) {
        for (size_t place = 0; place < SIZES; place++) {
            for (size_t other = 0; other < SIZES; other++) {
                check_block(sizes[place], sizes[other], align);
            }
        }
    }
    for (size_t align = 32; align <= 4096; align *= 2) {
        check(is_nothing(rattle_alloc(100, align)), "a block that is aligned too much,", 100, align);
        struct tried block = rattle_alloc(100, 1);
        check(is_nothing(rattle_realloc(block.at, 100, 200, align)) && live == 1, "a change that is aligned too much,", 100, align);
        rattle_dealloc(block.at);
    }
    printf("%ld passed, %ld failed\n", passed, failed);
    return failed != 0;
}
