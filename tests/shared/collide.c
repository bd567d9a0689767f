/* collide.c: prints names that collide in the map of a book whose seed is known.

   collide COUNT [CODE [KEY KEY]] prints COUNT names of orders of the participant CODE, or else A, of twelve letters each, one in each line.
   The map of the kit's `indexmap` hashes participant and name by SipHash-1-3, with these two keys, 0 under the fixed seed, and folds the
   hash to 32 bits. The lowest of them choose one of the 512 groups of a map of 2,305 to 4,608 orders, from which on an order is looked
   for, and the highest 8 are its tag there, of which 0 counts as 1; a name is compared with the names of its own tag alone. So names of
   one tag that begin at neighbouring groups are all compared with one another. */

#include <stdint.h>
#include <stdio.h>
#include <stdlib.h>
#include <string.h>

#define GROUPS 512
#define NEIGHBOURS 16
#define LETTERS 12
#define CODE 8

struct sip {
    uint64_t a, b, c, d;
};

static uint64_t turned(uint64_t word, int bits) {
    return word << bits | word >> (64 - bits);
}

static void mix(struct sip *sip) {
    sip->a += sip->b;
    sip->c += sip->d;
    sip->b = turned(sip->b, 13) ^ sip->a;
    sip->d = turned(sip->d, 16) ^ sip->c;
    sip->a = turned(sip->a, 32);
    sip->c += sip->b;
    sip->a += sip->d;
    sip->b = turned(sip->b, 17) ^ sip->c;
    sip->d = turned(sip->d, 21) ^ sip->a;
    sip->c = turned(sip->c, 32);
}

static void take(struct sip *sip, uint64_t word) {
    sip->d ^= word;
    mix(sip);
    sip->a ^= word;
}

/* The folded hash of a participant, in eight places, a name, in twelve, and four zeros. */
static uint32_t hash(uint64_t code, const char *name, const uint64_t *keys) {
    struct sip sip = {0x736f6d6570736575 ^ keys[0], 0x646f72616e646f6d ^ keys[1], 0x6c7967656e657261 ^ keys[0], 0x7465646279746573 ^ keys[1]};
    uint64_t front = 0, rest = 0;
    for (int at = 0; at < 8; at++)
        front |= (uint64_t)name[at] << 8 * at;
    for (int at = 8; at < LETTERS; at++)
        rest |= (uint64_t)name[at] << 8 * (at - 8);
    take(&sip, code);
    take(&sip, front);
    take(&sip, rest);
    take(&sip, (uint64_t)(CODE + LETTERS + 4) << 56);
    sip.c ^= 0xff;
    for (int round = 0; round < 3; round++)
        mix(&sip);
    uint64_t whole = sip.a ^ sip.b ^ sip.c ^ sip.d;
    return (uint32_t)(whole ^ whole >> 32);
}

/* Makes the name that follows this one. */
static void follow(char *name) {
    int at = LETTERS - 1;
    while (at > 0 && name[at] == 'Z')
        name[at--] = 'A';
    name[at]++;
}

int main(int count, char **words) {
    char name[LETTERS + 1];
    uint64_t code = 0, keys[2] = {0, 0};
    const char *letters = count > 2 ? words[2] : "A";
    for (int at = 0; at < CODE && letters[at]; at++)
        code |= (uint64_t)letters[at] << 8 * at;
    for (int at = 0; at < 2 && count == 5; at++)
        keys[at] = strtoull(words[3 + at], NULL, 10);
    memset(name, 'A', LETTERS);
    name[LETTERS] = 0;
    for (long wanted = count > 1 ? atol(words[1]) : 0; wanted > 0; follow(name)) {
        uint32_t folded = hash(code, name, keys);
        if (folded % GROUPS < NEIGHBOURS && folded >> 24 <= 1) {
            puts(name);
            wanted--;
        }
    }
    return 0;
}
