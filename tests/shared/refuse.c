/* refuse.c: a library to preload under a program, which refuses chosen calls for memory, for a thread, for random bytes, of a clock or of
   a device, and counts the calls of that kind. It stands on names of the GNU C library.

   HOSTILE in the environment is 'KIND FIRST LAST ERROR MOST'. KIND is memory, thread, random, clock, read (of standard input), write
   (of standard output) or report (writes to standard error). The calls of the kind whose numbers are from FIRST to LAST fail with the
   error number ERROR; if that is 0, such a read or write moves no byte. Every other read or write of the kind moves at most MOST
   bytes, or all if MOST is 0. The file that HOSTILE_CALLS names holds three numbers: the calls of the kind so far, the writes to
   standard output or standard error made before every started thread was joined, and the calls for memory that got a block.

   For memory and clock, MOST is no limit: each reading of the clock is MOST milliseconds later than the one before, for memory only if it
   isn't 0.

   Four kinds refuse nothing. given counts the calls for random bytes, and gives in each those of FIRST, the lowest first, then those of
   LAST, and then zeros. While the program holds a block of at least MOST bytes, held counts the starts of threads, and beside counts the
   calls for memory that got a block. peak counts no calls: the number is the most bytes of blocks that the program held at once, and a
   block that moves counts twice while it does. */

#define _GNU_SOURCE
#include <dlfcn.h>
#include <errno.h>
#include <fcntl.h>
#include <malloc.h>
#include <pthread.h>
#include <stdatomic.h>
#include <stdbool.h>
#include <stdio.h>
#include <stdlib.h>
#include <string.h>
#include <sys/mman.h>
#include <sys/random.h>
#include <sys/syscall.h>
#include <time.h>
#include <unistd.h>

extern void *__libc_malloc(size_t size);
extern void *__libc_calloc(size_t count, size_t size);
extern void *__libc_realloc(void *block, size_t size);
extern void *__libc_memalign(size_t alignment, size_t size);
extern void __libc_free(void *block);

typedef int create_thread(pthread_t *, const pthread_attr_t *, void *(*)(void *), void *);
typedef int join_thread(pthread_t, void **);
typedef int give_entropy(void *, size_t);
typedef ssize_t give_random(void *, size_t, unsigned);

enum kind { NONE, MEMORY, THREAD, RANDOM, READ, WRITE, REPORT, GIVEN, HELD, BESIDE, CLOCK, PEAK };

static const char *const names[] = {"none", "memory", "thread", "random", "read", "write", "report", "given", "held", "beside", "clock", "peak"};

static enum kind chosen = NONE;
static unsigned long first, last, most;
static int error;
static atomic_ulong *calls, *early, *growths;
static atomic_long large;    /* the blocks of at least MOST bytes */
static atomic_long unjoined; /* the threads that were started and not joined */
static atomic_long bytes;    /* of the blocks that the program holds */
static atomic_ulong readings; /* of the clock */
static create_thread *create;
static join_thread *join;
static give_entropy *entropy;
static give_random *randomly;

/* Reads which calls are to be refused. Requests of the program and its libraries before this are granted. */
__attribute__((constructor)) static void begin(void) {
    const char *plan = getenv("HOSTILE"), *file = getenv("HOSTILE_CALLS");
    char name[16];
    create = (create_thread *)dlsym(RTLD_NEXT, "pthread_create");
    join = (join_thread *)dlsym(RTLD_NEXT, "pthread_join");
    entropy = (give_entropy *)dlsym(RTLD_NEXT, "getentropy");
    randomly = (give_random *)dlsym(RTLD_NEXT, "getrandom");
    if (plan == NULL || file == NULL || sscanf(plan, "%15s %lu %lu %d %lu", name, &first, &last, &error, &most) != 5)
        return;
    int shared = open(file, O_RDWR);
    void *page = mmap(NULL, 3 * sizeof *calls, PROT_READ | PROT_WRITE, MAP_SHARED, shared, 0);
    close(shared);
    if (page == MAP_FAILED)
        return;
    calls = page;
    early = calls + 1;
    growths = calls + 2;
    *growths = 0; /* valgrind makes some before it runs the program */
    for (int kind = MEMORY; kind <= PEAK; kind++)
        if (strcmp(name, names[kind]) == 0)
            chosen = kind;
}

/* Counts a call of this kind, and says whether it is one to refuse. */
static bool refuses(enum kind kind) {
    if (kind == NONE || kind != chosen)
        return false;
    unsigned long number = atomic_fetch_add(calls, 1) + 1;
    return first <= number && number <= last;
}

static bool refuses_memory(void) {
    if (!refuses(MEMORY))
        return false;
    errno = ENOMEM;
    return true;
}

static bool is_large(void *block) {
    return (chosen == HELD || chosen == BESIDE) && malloc_usable_size(block) >= most;
}

static size_t size_of(void *block) {
    return chosen == PEAK ? malloc_usable_size(block) : 0;
}

/* Counts a block that the program gets from here on. */
static void *held(void *block) {
    if (growths != NULL)
        ++*growths;
    if (large > 0)
        refuses(BESIDE);
    large += is_large(block);
    if (chosen != PEAK)
        return block;
    long now = atomic_fetch_add(&bytes, (long)size_of(block)) + (long)size_of(block);
    for (unsigned long top = *calls; now > (long)top && !atomic_compare_exchange_weak(calls, &top, (unsigned long)now);)
        ;
    return block;
}

/* Counts a block that the program gives back. */
static void given_back(bool was_large, size_t size) {
    large -= was_large;
    bytes -= (long)size;
}

void *malloc(size_t size) {
    return refuses_memory() ? NULL : held(__libc_malloc(size));
}

void *calloc(size_t count, size_t size) {
    return refuses_memory() ? NULL : held(__libc_calloc(count, size));
}

void *realloc(void *block, size_t size) {
    if (refuses_memory())
        return NULL;
    bool was_large = is_large(block);
    size_t old = size_of(block);
    void *new = __libc_realloc(block, size);
    if (new == NULL)
        return NULL;
    held(new);
    given_back(was_large, old);
    return new;
}

void *aligned_alloc(size_t alignment, size_t size) {
    return refuses_memory() ? NULL : held(__libc_memalign(alignment, size));
}

void *memalign(size_t alignment, size_t size) {
    return refuses_memory() ? NULL : held(__libc_memalign(alignment, size));
}

int posix_memalign(void **block, size_t alignment, size_t size) {
    if (refuses(MEMORY))
        return ENOMEM;
    *block = held(__libc_memalign(alignment, size));
    return *block == NULL ? ENOMEM : 0;
}

void free(void *block) {
    given_back(is_large(block), size_of(block));
    __libc_free(block);
}

int pthread_create(pthread_t *thread, const pthread_attr_t *how, void *(*work)(void *), void *given) {
    if (large > 0)
        refuses(HELD);
    if (refuses(THREAD))
        return EAGAIN;
    int status = create(thread, how, work, given);
    unjoined += status == 0;
    return status;
}

int pthread_join(pthread_t thread, void **result) {
    int status = join(thread, result);
    unjoined -= status == 0;
    return status;
}

int clock_gettime(clockid_t clock, struct timespec *now) {
    if (chosen != CLOCK && (chosen != MEMORY || most == 0))
        return (int)syscall(SYS_clock_gettime, clock, now);
    if (refuses(CLOCK)) {
        errno = error;
        return -1;
    }
    unsigned long moved = atomic_fetch_add(&readings, 1) * most;
    *now = (struct timespec){moved / 1000, moved % 1000 * 1000000};
    return 0;
}

static bool refuses_random(void) {
    if (!refuses(RANDOM))
        return false;
    errno = error;
    return true;
}

/* Gives the chosen bytes, or says that it doesn't. */
static bool gives(unsigned char *bytes, size_t count) {
    if (chosen != GIVEN)
        return false;
    refuses(GIVEN);
    for (size_t at = 0; at < count; at++)
        bytes[at] = at < 16 ? (unsigned char)((at < 8 ? first : last) >> at % 8 * 8) : 0;
    return true;
}

int getentropy(void *bytes, size_t count) {
    return refuses_random() ? -1 : gives(bytes, count) ? 0 : entropy(bytes, count);
}

ssize_t getrandom(void *bytes, size_t count, unsigned how) {
    return refuses_random() ? -1 : gives(bytes, count) ? (ssize_t)count : randomly(bytes, count, how);
}

/* A read or write by its number, of one of the three standard streams. */
static ssize_t moved(long number, enum kind kind, int stream, void *bytes, size_t count) {
    if (refuses(kind)) {
        errno = error;
        return error == 0 ? 0 : -1;
    }
    size_t room = kind != NONE && kind == chosen && most != 0 && most < count ? most : count;
    return syscall(number, stream, bytes, room);
}

ssize_t read(int stream, void *bytes, size_t count) {
    return moved(SYS_read, stream == STDIN_FILENO ? READ : NONE, stream, bytes, count);
}

ssize_t write(int stream, const void *bytes, size_t count) {
    enum kind kind = stream == STDOUT_FILENO ? WRITE : stream == STDERR_FILENO ? REPORT : NONE;
    if (kind != NONE && early != NULL && unjoined > 0)
        atomic_fetch_add(early, 1);
    return moved(SYS_write, kind, stream, (void *)bytes, count);
}
