/* caller replay|clear [NODES]: prints for the journal on standard input the output of `dam`, with its status, by the library. */
#include "dam.h"

#include <stdio.h>
#include <stdlib.h>
#include <string.h>
#include <sys/random.h>
#include <sys/types.h>

enum { MOST_TEXT = 16777217 };

static struct dam_answer called(int count, char **words, const uint8_t *text, size_t length, uint8_t *buffer) {
    uint8_t secret[16];
    if (getrandom(secret, sizeof secret, 0) != (ssize_t)sizeof secret) {
        exit(99);
    }
    if (strcmp(words[1], "replay") == 0) {
        return dam_replay_seeded(secret, sizeof secret, text, length, buffer, DAM_MOST_ANSWER);
    }
    uint32_t nodes = count > 2 ? (uint32_t)strtoul(words[2], NULL, 10) : DAM_MOST_NODES;
    return dam_clear_seeded(secret, sizeof secret, text, length, nodes, buffer, DAM_MOST_ANSWER);
}

int main(int count, char **words) {
    static uint8_t text[MOST_TEXT], buffer[DAM_MOST_ANSWER];
    if (count < 2) {
        return 2;
    }
    size_t length = fread(text, 1, sizeof text, stdin);
    struct dam_answer answer = called(count, words, text, length, buffer);
    if (answer.length > sizeof buffer) {
        return 99;
    }
    fwrite(buffer, 1, answer.length, answer.status == 0 ? stdout : stderr);
    return answer.status;
}
