/*
 * Files encrypted and decrypted from C, over age_c:
 *
 *     age encrypt RECIPIENTS IN OUT              to the recipients in the file RECIPIENTS
 *     age armor RECIPIENTS IN OUT                the same, in armor
 *     age encrypt-passphrase PASSPHRASE IN OUT   with the passphrase in the first line of the file PASSPHRASE
 *     age decrypt IDENTITIES IN OUT              by the identities in the file IDENTITIES
 *     age decrypt-passphrase PASSPHRASE IN OUT
 *     age stream IDENTITIES IN OUT               as decrypt, in memory for a chunk, of a bare file
 *     age part IDENTITIES IN OUT FROM COUNT      COUNT bytes of the plaintext from byte FROM on, or fewer at its end, of a bare file
 *
 * `stream` and `part` read chunk by chunk: `part` the header and those chunks alone that hold the bytes, and the last one where the
 * bytes end there. What was written before a chunk is refused is right as far as it goes; `stream` takes the output away then.
 *
 * It ends with status 0, with the library's number where that refuses, once its text is on standard error, and with 100 where it is called wrongly or a file isn't read
 * or written.
 */
#include "age_c.h"

#include <stdio.h>
#include <stdlib.h>
#include <string.h>

enum { WRONG = 100 };

struct bytes {
    uint8_t *at;
    size_t length;
};

/* A room of so many bytes, and of one at least, so that there is always a pointer. */
static struct bytes room(size_t length)
{
    struct bytes made = {calloc(length ? length : 1, 1), length};
    if (made.at == NULL)
        exit(AGE_OUT_OF_MEMORY);
    return made;
}

/* All bytes of a file. */
static struct bytes contents(const char *name)
{
    FILE *file = fopen(name, "rb");
    if (file == NULL || fseek(file, 0, SEEK_END) != 0) {
        perror(name);
        exit(WRONG);
    }
    struct bytes all = room((size_t)ftell(file));
    rewind(file);
    if (fread(all.at, 1, all.length, file) != all.length) {
        perror(name);
        exit(WRONG);
    }
    fclose(file);
    return all;
}

static void write_out(const char *name, const uint8_t *at, size_t length)
{
    FILE *file = fopen(name, "wb");
    if (file == NULL || fwrite(at, 1, length, file) != length || fclose(file) != 0) {
        perror(name);
        exit(WRONG);
    }
}

/* Random bytes of the system. */
static struct bytes random_bytes(size_t length)
{
    struct bytes made = room(length);
    FILE *file = fopen("/dev/urandom", "rb");
    if (file == NULL || fread(made.at, 1, length, file) != length) {
        perror("/dev/urandom");
        exit(WRONG);
    }
    fclose(file);
    return made;
}

/* At most as many recipients as the text has lines. */
static size_t lines_of(struct bytes text)
{
    size_t lines = 1;
    for (size_t i = 0; i < text.length; i++)
        lines += text.at[i] == '\n';
    return lines;
}

/* Encrypts. Where the room is too short a second call, by the same random bytes, has as much as the first one asked for. */
static uint32_t encrypt(bool with_passphrase, bool armored, struct bytes to, struct bytes plain, struct bytes *out)
{
    struct bytes random = random_bytes(with_passphrase ? AGE_RANDOM_FOR_PASSPHRASE : AGE_RANDOM_FOR_RECIPIENTS(lines_of(to)));
    uint32_t status = AGE_OUT_TOO_SHORT;
    *out = room(plain.length + 1024);
    for (int turn = 0; turn < 2 && status == AGE_OUT_TOO_SHORT; turn++) {
        size_t written;
        if (with_passphrase)
            status = age_encrypt_passphrase(to.at, to.length, random.at, random.length, armored, plain.at, plain.length, out->at,
                                            out->length, &written);
        else
            status = age_encrypt(to.at, to.length, random.at, random.length, armored, plain.at, plain.length, out->at, out->length,
                                 &written);
        if (status == AGE_OUT_TOO_SHORT) {
            free(out->at);
            *out = room(written);
        } else {
            out->length = written;
        }
    }
    /* (whoever knows these bytes can decrypt the file) */
    memset(random.at, 0, random.length);
    free(random.at);
    return status;
}

static uint32_t decrypt(bool with_passphrase, struct bytes by, struct bytes file, struct bytes *out)
{
    *out = room(file.length);
    size_t written;
    uint32_t status = with_passphrase
                          ? age_decrypt_passphrase(by.at, by.length, file.at, file.length, out->at, out->length, &written)
                          : age_decrypt(by.at, by.length, file.at, file.length, out->at, out->length, &written);
    out->length = written;
    return status;
}

enum { PIECE = 65536, CHUNK = 65552 };

/* The payload of a file that is open. */
struct payload {
    FILE *file;
    uint8_t key[AGE_PAYLOAD_KEY];
    uint64_t place, length;
};

static uint64_t length_of(FILE *file, const char *name)
{
    if (fseek(file, 0, SEEK_END) != 0) {
        perror(name);
        exit(WRONG);
    }
    return (uint64_t)ftell(file);
}

/* Up to so many bytes from a place on. */
static size_t read_at(FILE *file, uint64_t place, uint8_t *to, size_t length, const char *name)
{
    size_t got = fseek(file, (long)place, SEEK_SET) == 0 ? fread(to, 1, length, file) : 0;
    if (ferror(file)) {
        perror(name);
        exit(WRONG);
    }
    return got;
}

/* Reads the front of the file until the header is told, and twice as much where it isn't yet. */
static uint32_t open_payload(struct bytes by, const char *name, struct payload *of)
{
    of->file = fopen(name, "rb");
    if (of->file == NULL) {
        perror(name);
        exit(WRONG);
    }
    uint64_t all = length_of(of->file, name);
    uint32_t status = AGE_NEED_MORE;
    for (size_t wanted = 4096; status == AGE_NEED_MORE; wanted *= 2) {
        struct bytes front = room(wanted < all ? wanted : (size_t)all);
        size_t written, place;
        front.length = read_at(of->file, 0, front.at, front.length, name);
        status = age_open_header(by.at, by.length, front.at, front.length, of->key, sizeof of->key, &written, &place);
        free(front.at);
        of->place = place;
        of->length = all - place;
        if (status == AGE_NEED_MORE && wanted >= all)
            return AGE_UNEXPECTED_EOF; /* there is no more */
    }
    return status;
}

/* Opens a chunk by its number, as the last one or as one before it, and tells how many bytes it holds. */
static uint32_t open_chunk(const struct payload *of, uint64_t number, bool last, uint8_t piece[CHUNK], size_t *holds)
{
    uint8_t text[CHUNK];
    uint64_t begins = number * CHUNK, left = of->length - begins;
    size_t length = read_at(of->file, of->place + begins, text, left < CHUNK ? (size_t)left : CHUNK, "the payload");
    return age_open_chunk(of->key, sizeof of->key, number, last, text, length, piece, CHUNK, holds);
}

static uint32_t open_output(const char *name, FILE **out)
{
    *out = fopen(name, "wb");
    if (*out == NULL) {
        perror(name);
        exit(WRONG);
    }
    return AGE_OK;
}

static void append(FILE *out, const char *name, const uint8_t *at, size_t length)
{
    if (fwrite(at, 1, length, out) != length) {
        perror(name);
        exit(WRONG);
    }
}

/* Says why the library refused. */
static uint32_t said(uint32_t status)
{
    uint8_t text[AGE_ERROR_TEXT];
    size_t length;
    if (status != AGE_OK && age_error_text(status, text, sizeof text, &length) == AGE_OK)
        fprintf(stderr, "age: %.*s\n", (int)length, (const char *)text);
    return status;
}

/* Closes both files. What was written of a payload that is refused is removed. */
static uint32_t ended(struct payload *of, FILE *out, const char *out_name, uint32_t status)
{
    fclose(of->file);
    if (out != NULL && fclose(out) != 0)
        exit(WRONG);
    if (out != NULL && status != AGE_OK)
        remove(out_name);
    return status;
}

/* The whole plaintext: the chunk after which nothing is left has to open as the last. */
static uint32_t stream(struct bytes by, const char *name, const char *out_name)
{
    struct payload of;
    uint32_t status = open_payload(by, name, &of);
    FILE *out = NULL;
    bool last = false;
    if (status == AGE_OK)
        status = open_output(out_name, &out);
    for (uint64_t number = 0; status == AGE_OK && !last; number++) {
        uint8_t piece[CHUNK];
        size_t holds;
        last = of.length - number * CHUNK <= CHUNK;
        status = open_chunk(&of, number, last, piece, &holds);
        if (status == AGE_OK)
            append(out, out_name, piece, holds);
    }
    return ended(&of, out, out_name, status);
}

/*
 * Bytes of the plaintext from a place on. How long it is the payload's length tells, which is right only where the last chunk opens as
 * the last: so that one is opened too where fewer than COUNT bytes are there.
 */
static uint32_t part(struct bytes by, const char *name, const char *out_name, uint64_t from, uint64_t count)
{
    struct payload of;
    uint64_t length, end;
    FILE *out = NULL;
    uint32_t status = open_payload(by, name, &of);
    if (status == AGE_OK && age_plain_length(of.length, &length) != AGE_OK)
        status = AGE_TRUNCATED;
    if (status == AGE_OK && from > length)
        status = AGE_PAST_END;
    if (status == AGE_OK) {
        uint64_t last = age_chunk_count(length) - 1;
        uint8_t piece[CHUNK];
        size_t holds;
        end = count < length - from ? from + count : length;
        status = open_output(out_name, &out);
        for (uint64_t number = from / PIECE; status == AGE_OK && from < end && number * PIECE < end; number++) {
            status = open_chunk(&of, number, number == last, piece, &holds);
            if (status == AGE_OK) {
                size_t skip = from > number * PIECE ? (size_t)(from - number * PIECE) : 0;
                size_t stop = end - number * PIECE < holds ? (size_t)(end - number * PIECE) : holds;
                append(out, out_name, piece + skip, stop - skip);
            }
        }
        if (status == AGE_OK && from == length && count > 0)
            status = open_chunk(&of, last, true, piece, &holds);
    }
    return ended(&of, out, out_name, status);
}

/* A number of the command line. */
static uint64_t number_of(const char *word)
{
    char *end;
    uint64_t number = strtoull(word, &end, 10);
    if (*word < '0' || *word > '9' || *end != '\0') {
        fprintf(stderr, "age: %s is no number\n", word);
        exit(WRONG);
    }
    return number;
}

int main(int count, char **words)
{
    bool of_part = count > 1 && strcmp(words[1], "part") == 0;
    if (count != (of_part ? 7 : 5)) {
        fprintf(stderr, "usage: age encrypt|armor|encrypt-passphrase|decrypt|decrypt-passphrase|stream|part KEYS IN OUT [FROM COUNT]\n");
        return WRONG;
    }
    const char *command = words[1];
    if (of_part || strcmp(command, "stream") == 0) {
        struct bytes by = contents(words[2]);
        uint32_t status = of_part ? part(by, words[3], words[4], number_of(words[5]), number_of(words[6]))
                                  : stream(by, words[3], words[4]);
        free(by.at);
        return (int)said(status);
    }
    bool with_passphrase = strstr(command, "-passphrase") != NULL;
    struct bytes keys = contents(words[2]), in = contents(words[3]), out;
    uint32_t status = strncmp(command, "decrypt", 7) == 0
                          ? decrypt(with_passphrase, keys, in, &out)
                          : encrypt(with_passphrase, strcmp(command, "armor") == 0, keys, in, &out);
    if (status == AGE_OK)
        write_out(words[4], out.at, out.length);
    free(keys.at);
    free(in.at);
    free(out.at);
    return (int)said(status);
}
