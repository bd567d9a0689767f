/* The engines of `dam` for C and C++, and for any language that calls C. A journal's text goes in, and the text of `dam` comes out.
 *
 * Each call reads its arguments and leaves its answer in the buffer. It doesn't start threads, install signal handlers or keep state
 * between calls, and it doesn't read or write anything else. So several threads may call at the same time, each with a buffer of its own.
 *
 * `text`: a journal in ASCII (docs/FORMATS.md). A text of more than 16,777,216 bytes isn't a journal, and gets status 1.
 *
 * `buffer`: the room for the answer. If the answer is longer, the buffer holds its first bytes. A second call with more room returns the
 * whole answer, but does all the work again; a buffer of DAM_MOST_ANSWER bytes is always enough. The buffer's bytes after the answer are
 * unchanged.
 *
 * If the status is 0, the answer is the whole text that `dam replay` or `dam clear` prints. Otherwise the answer is the line that `dam`
 * prints on standard error, and the status is the exit status of `dam`:
 *
 *   1  the text isn't a journal, or its book can't be cleared because it is still open
 *   3  the search reached its limit on nodes
 *   4  memory ran out
 *
 * Other statuses never occur. The line of a fault is there even if memory ran out.
 *
 * `length` is the length of the whole answer in bytes; a zero byte doesn't follow it.
 *
 * Stack: 512 KiB were enough in tests. Memory: a call takes at most 10 MiB and four times the text's bytes, by malloc, and frees all
 * of it. A program that is linked with the static library, and defines rattle_alloc, rattle_realloc and rattle_dealloc, gives the
 * library its own memory instead (tests/library/refusals.c of a clone).
 *
 * Preconditions, which the caller must satisfy, since a proof can't see them:
 *
 *   - `text` and `secret` point to as many readable bytes as their lengths say, and `buffer` to as many writable bytes
 *   - the three pointers aren't NULL, even if a length is 0
 *   - the buffer doesn't overlap the others
 *   - other threads don't write to any of them during the call
 *
 * There is no call for `dam day`. docs/C.md has examples in C, Python and Rust.
 *
 * The library is for Linux on x86-64, with a processor that has x86-64-v2, as nearly all do; a call doesn't check this. `struct dam_answer`
 * has 16 bytes: the status at offset 0, the length at offset 8. The other bytes are undefined.
 */
#ifndef DAM_H
#define DAM_H

#include <stddef.h>
#include <stdint.h>

#ifdef __cplusplus
extern "C" {
#endif

/* The calls, the struct and the statuses change only with a new major version. */
#define DAM_VERSION "1.0.0"

/* Enough nodes for every book. Greater limits are allowed too: 0xFFFFFFFF is always enough. */
#define DAM_MOST_NODES UINT32_C(67108864)

/* No answer is longer. */
#define DAM_MOST_ANSWER 300000

struct dam_answer {
    uint8_t status;
    size_t length;
};

/* The text of `dam replay`: the order book's reply to each command, with the reason if it refuses one.
 *
 * Use dam_replay_seeded and dam_clear_seeded below, unless you trust everyone who chose a name in the journal. */
struct dam_answer dam_replay(const uint8_t *text, size_t text_length, uint8_t *buffer, size_t buffer_length);

/* The text of `dam clear`: the price and volume of each period, and the result of each order of the book. dam_replay gives the
 * reason for a refused order, which doesn't have a line here.
 *
 * Prices are in whole cents per MWh, volumes in whole tenths of a MW, the welfare and surpluses in cents per MWh times tenths of a MW
 * (docs/FORMATS.md; docs/TABLES.md for EUR and MW).
 *
 * The calling thread searches alone and can't be stopped; `nodes` is the only limit on its time. A search that needs more nodes ends with
 * status 3. Every number is allowed: 0 stops the search of each closed book, and DAM_MOST_NODES or more never stops a search. Before the
 * nodes, a first selection is looked for, which isn't counted. The search of n blocks has at most 2^(n+1) - 1 nodes; a limit below that
 * makes it slower. Without such a limit, a node takes longer the more the volumes of the blocks differ from period to period. */
struct dam_answer dam_clear(const uint8_t *text, size_t text_length, uint32_t nodes, uint8_t *buffer, size_t buffer_length);

/* The same two calls, for journals from people who are not trusted. Names are hashed with the first 16 bytes of the secret. The hash of the
 * two calls above is public, so somebody can choose names that collide: 4,000 of them make a call take dozens of times as long. The secret
 * must be random and new for each call; the answer doesn't depend on it. Bytes after the first 16 aren't used. With fewer bytes the hash is
 * easier to guess, and without any it is public. */
struct dam_answer dam_replay_seeded(const uint8_t *secret, size_t secret_length, const uint8_t *text, size_t text_length,
                                    uint8_t *buffer, size_t buffer_length);
struct dam_answer dam_clear_seeded(const uint8_t *secret, size_t secret_length, const uint8_t *text, size_t text_length, uint32_t nodes,
                                   uint8_t *buffer, size_t buffer_length);

#ifdef __cplusplus
}
#endif

#endif
