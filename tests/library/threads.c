/* threads FILE: calls the library with the text of a file on 1,000 threads, one after the other, with the memory of heap.c. The option
 * --wrap of the linker, for the five functions below, has the blocks of heap.c counted. When a call returns, no block is left, and its
 * status is that of the same call on the first thread. The memory of the process doesn't grow. The last line is 'N passed, M failed'. */
#define _POSIX_C_SOURCE 200809L
#include "dam.h"

#include <pthread.h>
#include <stdbool.h>
#include <stdio.h>
#include <stdlib.h>
#include <unistd.h>

/* The first threads also fill what the C library keeps for the later ones. */
enum { MOST_TEXT = 1 << 13, CALLS = 5, FEW_NODES = 10, FIRST_THREADS = 10, THREADS = 1000, MOST_GROWTH = 1 << 18 };

static long got, live; /* blocks of heap.c, in all and now */

/* Counts a new block, if there is one. */
static void *counted(void *at) {
    got += at != NULL;
    live += at != NULL;
    return at;
}

void *__real_malloc(size_t size);
void *__real_calloc(size_t count, size_t size);
void *__real_aligned_alloc(size_t align, size_t size);
void *__real_realloc(void *at, size_t size);
void __real_free(void *at);

void *__wrap_malloc(size_t size) {
    return counted(__real_malloc(size));
}

void *__wrap_calloc(size_t count, size_t size) {
    return counted(__real_calloc(count, size));
}

void *__wrap_aligned_alloc(size_t align, size_t size) {
    return counted(__real_aligned_alloc(align, size));
}

void *__wrap_realloc(void *at, size_t size) {
    void *resized = __real_realloc(at, size);
    return at == NULL ? counted(resized) : resized;
}

void __wrap_free(void *at) {
    live -= at != NULL;
    __real_free(at);
}

static uint8_t text[MOST_TEXT], secret[16] = {1}, buffer[DAM_MOST_ANSWER];
static size_t length;
static uint8_t first[CALLS], statuses[CALLS];
static long left[CALLS]; /* blocks after each call of a thread */

static struct dam_answer call(int number) {
    switch (number) {
    case 0:
        return dam_replay(text, length, buffer, sizeof buffer);
    case 1:
        return dam_replay_seeded(secret, sizeof secret, text, length, buffer, sizeof buffer);
    case 2:
        return dam_clear(text, length, DAM_MOST_NODES, buffer, sizeof buffer);
    case 3:
        return dam_clear_seeded(secret, sizeof secret, text, length, DAM_MOST_NODES, buffer, sizeof buffer);
    default:
        return dam_clear(text, length, FEW_NODES, buffer, sizeof buffer);
    }
}

static void *call_all(void *none) {
    for (int number = 0; number < CALLS; number++) {
        statuses[number] = call(number).status;
        left[number] = live;
    }
    return none;
}

/* Makes each call on a new thread. */
static bool is_run(void) {
    pthread_t thread;
    return pthread_create(&thread, NULL, call_all, NULL) == 0 && pthread_join(thread, NULL) == 0;
}

/* The bytes of the process that are in memory, or 0. */
static long resident(void) {
    long all = 0, pages = 0;
    FILE *file = fopen("/proc/self/statm", "r");
    bool is_read = file != NULL && fscanf(file, "%ld %ld", &all, &pages) == 2;
    if (file != NULL) {
        fclose(file);
    }
    return is_read ? pages * sysconf(_SC_PAGESIZE) : 0;
}

/* Whether the file's text was read whole. */
static bool is_read(const char *path) {
    FILE *file = fopen(path, "rb");
    if (file == NULL) {
        return false;
    }
    length = fread(text, 1, sizeof text, file);
    return fclose(file) == 0 && length < sizeof text;
}

static long passed, failed;

static void check(bool is_right, const char *about, long number) {
    passed += is_right;
    failed += !is_right;
    if (!is_right) {
        printf("%s: %ld\n", about, number);
    }
}

int main(int count, char **words) {
    if (count != 2 || !is_read(words[1])) {
        return 2;
    }
    long before = 0;
    for (long thread = 0; thread < THREADS; thread++) {
        bool is_right = is_run();
        for (int number = 0; number < CALLS; number++) {
            first[number] = thread == 0 ? statuses[number] : first[number];
            is_right &= statuses[number] == first[number] && left[number] == 0;
        }
        check(is_right && live == 0, "a status differs, or blocks are left, on thread", thread);
        before = thread < FIRST_THREADS ? resident() : before;
    }
    check(got != 0, "blocks that were counted", got);
    check(before != 0 && resident() - before <= MOST_GROWTH, "bytes by which the process grew", resident() - before);
    printf("%ld passed, %ld failed\n", passed, failed);
    return failed != 0;
}
