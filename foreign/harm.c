/*
 * Damaged files through age_decrypt, in one process:
 *
 *     harm IDENTITIES FILE ROUNDS SEED
 *
 * FILE is a bare file for the identities, which has to open. Each round changes it in one way: a bit, a cut, bytes behind it, a byte
 * more or less inside, or two bytes that change places. Every byte of a file is authenticated, so each has to be refused, and nothing
 * written: the verdict is that of the format, and no second implementation is asked. A change that gives the same bytes is left out.
 * The last line says how many were refused; the status is 1 where one wasn't.
 */
#include "age_c.h"

#include <stdio.h>
#include <stdlib.h>
#include <string.h>

static uint64_t state;

/* xorshift64*: the rounds of one seed are always the same. */
static uint64_t drawn(uint64_t below)
{
    state ^= state >> 12;
    state ^= state << 25;
    state ^= state >> 27;
    return (state * 2685821657736338717ull >> 11) % below;
}

static uint8_t *contents(const char *name, size_t *length)
{
    static uint8_t room[4][1 << 20];
    static int used;
    FILE *file = fopen(name, "rb");
    if (file == NULL) {
        perror(name);
        exit(2);
    }
    *length = fread(room[used], 1, sizeof room[used], file);
    fclose(file);
    return room[used++];
}

int main(int count, char **words)
{
    static uint8_t bent[(1 << 20) + 100], out[1 << 20], empty[1 << 20];
    if (count != 5)
        return 2;
    size_t keys_length, length, written;
    uint8_t *keys = contents(words[1], &keys_length), *file = contents(words[2], &length);
    long rounds = atol(words[3]), refused = 0, same = 0;
    state = strtoull(words[4], NULL, 10) * 2 + 1;
    if (age_decrypt(keys, keys_length, file, length, out, sizeof out, &written) != AGE_OK) {
        fprintf(stderr, "harm: the file isn't opened as it is\n");
        return 2;
    }
    memset(out, 0, sizeof out);
    for (long round = 0; round < rounds; round++) {
        size_t at = drawn(length), now = length;
        memcpy(bent, file, length);
        switch (drawn(6)) {
        case 0:
        case 1:
            bent[at] ^= (uint8_t)(1 << drawn(8));
            break;
        case 2:
            now = at;
            break;
        case 3:
            now = length + 1 + drawn(99);
            for (size_t i = length; i < now; i++)
                bent[i] = (uint8_t)drawn(256);
            break;
        case 4:
            now = drawn(2) ? length + 1 : length - 1;
            if (now > length) {
                memmove(bent + at + 1, bent + at, length - at);
                bent[at] = (uint8_t)drawn(256);
            } else {
                memmove(bent + at, bent + at + 1, length - at - 1);
            }
            break;
        default: {
            size_t other = drawn(length);
            uint8_t byte = bent[at];
            bent[at] = bent[other];
            bent[other] = byte;
        }
        }
        if (now == length && memcmp(bent, file, length) == 0) {
            same++;
            continue;
        }
        written = 77;
        uint32_t status = age_decrypt(keys, keys_length, bent, now, out, sizeof out, &written);
        if (status > AGE_OUT_TOO_SHORT && written == 0 && memcmp(out, empty, 1024) == 0)
            refused++;
        else
            printf("round %ld of seed %s: status %u, %zu bytes\n", round, words[4], status, written);
    }
    printf("%ld refused of %ld, and %ld were the same\n", refused, rounds - same, same);
    return refused == rounds - same ? 0 : 1;
}
