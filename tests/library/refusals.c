/* refusals CALL NODES MOST FILE..: calls the library with the text of each file and with memory that is counted. CALL is replay, clear, or
 * one of these with `_seeded`, and NODES the limit of a search. First with each request for memory refused in turn: the status is 4, the
 * answer is the line that says that memory ran out, and every block is given back. Then 10,000 times, with the texts in turn: each has the
 * status that it had first, and no block is left. No more than MOST bytes are held at once. The last line is 'N passed, M failed'. */
#include "dam.h"

#include <malloc.h>
#include <stdbool.h>
#include <stdio.h>
#include <stdlib.h>
#include <string.h>

enum { MOST_TEXT = 1 << 11, MOST_TEXTS = 256, ROOM = 1 << 20, CALLS = 10000 };

static long left = -1; /* requests until one is refused; none if it is negative */
static long asked, live;
static size_t held, most_held; /* bytes of blocks, now and at most */

struct tried {
    bool ok;
    void *at;
};

static struct tried tried(void *at) {
    return (struct tried){at != NULL, at != NULL ? at : (void *)16};
}

static bool is_refused(void) {
    asked++;
    return left >= 0 && left-- == 0;
}

/* Counts a new block, if there is one. */
static void hold(void *at) {
    held += malloc_usable_size(at);
    most_held = held > most_held ? held : most_held;
}

struct tried rattle_alloc(size_t size, size_t align) {
    if (is_refused()) {
        return tried(NULL);
    }
    live++;
    void *at = malloc(size != 0 ? size : align);
    hold(at);
    return tried(at);
}

/* A block that is resized may move, and so counts twice until then. */
struct tried rattle_realloc(void *at, size_t kept, size_t size, size_t align) {
    (void)kept;
    if (is_refused()) {
        return tried(NULL);
    }
    size_t before = malloc_usable_size(at);
    void *resized = realloc(at, size != 0 ? size : align);
    hold(resized);
    held -= resized != NULL ? before : 0;
    return tried(resized);
}

void rattle_dealloc(void *at) {
    live--;
    held -= malloc_usable_size(at);
    free(at);
}

struct text {
    uint8_t bytes[MOST_TEXT];
    size_t length;
    uint8_t status; /* of the first call */
};

static struct text texts[MOST_TEXTS];
static uint8_t secret[16] = {1}, buffer[ROOM];
static uint32_t nodes;
static const char *name; /* of the call */
static long passed, failed;

static struct dam_answer call(const struct text *text) {
    const uint8_t *bytes = text->bytes;
    size_t length = text->length;
    if (strcmp(name, "replay") == 0) {
        return dam_replay(bytes, length, buffer, sizeof buffer);
    }
    if (strcmp(name, "replay_seeded") == 0) {
        return dam_replay_seeded(secret, sizeof secret, bytes, length, buffer, sizeof buffer);
    }
    if (strcmp(name, "clear") == 0) {
        return dam_clear(bytes, length, nodes, buffer, sizeof buffer);
    }
    return dam_clear_seeded(secret, sizeof secret, bytes, length, nodes, buffer, sizeof buffer);
}

static bool is_out_of_memory(struct dam_answer answer) {
    return answer.status == 4 && answer.length == 7 && memcmp(buffer, "memory\n", 7) == 0;
}

/* Counts a check, and prints a failed one: what it is about, and the number of the text, the call or the bytes. */
static void check(bool is_right, const char *about, size_t number) {
    passed += is_right;
    failed += !is_right;
    if (!is_right) {
        printf("%s %zu: wrong\n", about, number);
    }
}

/* Whether the file's text was read whole. */
static bool is_read(struct text *text, const char *path) {
    FILE *file = fopen(path, "rb");
    if (file == NULL) {
        return false;
    }
    text->length = fread(text->bytes, 1, sizeof text->bytes, file);
    return fclose(file) == 0 && text->length < sizeof text->bytes;
}

/* Calls with the text of this number: first with memory, and then with each request for it refused. */
static void check_refusals(size_t number) {
    struct text *text = &texts[number];
    asked = live = 0;
    text->status = call(text).status;
    check(text->status != 4 && live == 0, "text", number);
    for (long requests = asked, refused = 0; refused < requests; refused++) {
        left = refused;
        live = 0;
        check(is_out_of_memory(call(text)) && live == 0, "a request refused for text", number);
    }
    left = -1;
}

int main(int count, char **words) {
    size_t given = count > 4 ? (size_t)count - 4 : 0;
    if (given == 0 || given > MOST_TEXTS) {
        return 2;
    }
    name = words[1];
    nodes = (uint32_t)strtoul(words[2], NULL, 10);
    for (size_t number = 0; number < given; number++) {
        if (!is_read(&texts[number], words[4 + number])) {
            return 2;
        }
        check_refusals(number);
    }
    live = 0;
    bool is_right = true;
    for (size_t number = 0; number < CALLS; number++) {
        const struct text *text = &texts[number % given];
        is_right &= call(text).status == text->status && live == 0;
    }
    check(is_right, "calls", CALLS);
    check(most_held != 0 && most_held <= strtoul(words[3], NULL, 10), "the bytes that were held at once", most_held);
    printf("%ld passed, %ld failed\n", passed, failed);
    return failed != 0;
}
