/*
 * age_c: encrypted files of the format age-encryption.org/v1, proved.
 *
 * A static library, written in Rattle and proved: each call below is an export with a contract, which says what stands here of it.
 * docs/FOREIGN.md says how it is built and linked, and what is proved across this border.
 *
 * What every call has in common:
 *
 * - A buffer is passed as a pointer and then its length in bytes. No pointer may be NULL, also where the length is 0, and no length
 *   may be above PTRDIFF_MAX. A buffer that is written to may overlap no other argument.
 * - Nothing is kept after a call: no buffer, no state. So calls in several threads need no lock, as long as none writes what another
 *   one reads.
 * - A call that answers bytes takes a room for them, `out` of `out_length` bytes, and `written`, which it always sets:
 *     AGE_OK             the bytes stand at the front of `out`, and `*written` is how many they are. The rest of `out` stays.
 *     AGE_OUT_TOO_SHORT  there are more than `out_length`. `*written` is how many, and `out` stays as it was.
 *     any other status   a refusal. `*written` is 0, and `out` stays as it was: no byte of a file that is refused comes out.
 * - Memory comes from malloc, realloc and free, and all of it is given back before the call returns. It isn't cleared before.
 *   No call may be made from a signal handler, or from the child of a fork of a process with threads.
 */
#ifndef AGE_C_H
#define AGE_C_H

#include <stdbool.h>
#include <stddef.h>
#include <stdint.h>

#ifdef __cplusplus
extern "C" {
#endif

/* What a call answers. */
enum age_status {
    AGE_OK = 0,
    /* The room for the answer is too short. How many bytes it has to have is told in its place. */
    AGE_OUT_TOO_SHORT = 1,
    /* The front of a file ends before its header and its nonce do: more of it is needed. */
    AGE_NEED_MORE = 2,
    /* A key of another length than 32 bytes, or a length that no payload has. */
    AGE_BAD_ARGUMENT = 3,
    /* Memory was refused. */
    AGE_OUT_OF_MEMORY = 4,

    /* Reading and writing. The first three don't come over buffers. */
    AGE_DEVICE = 10,
    /* The file ends before its header and its nonce do, or its armor before its end. */
    AGE_UNEXPECTED_EOF = 11,
    AGE_WRITE_ZERO = 12,
    AGE_BEFORE_START = 13,
    AGE_PAST_END = 14,
    /* The file ends before its last chunk. */
    AGE_TRUNCATED = 15,
    /* A chunk opens neither as one in the middle nor as the last one. */
    AGE_BAD_CHUNK = 16,
    /* Bytes follow the last chunk. */
    AGE_AFTER_LAST = 17,
    /* The last chunk is empty, and it isn't the only one. */
    AGE_LAST_CHUNK_EMPTY = 18,
    AGE_BAD_END = 19,
    /* A plaintext of more than 2^60 bytes. */
    AGE_TOO_LONG = 20,
    /* A text of identities of more than 16 MiB. */
    AGE_LIMIT_EXCEEDED = 21,
    /* A line of a text of identities is none, and isn't empty or a comment. */
    AGE_NOT_IDENTITY = 22,
    AGE_FAILED = 23,

    /* The first fault of a file in armor: age-encryption.org/v1, "ASCII armor". */
    AGE_ARMOR_BASE64 = 30,
    AGE_ARMOR_BEGIN_MARKER = 31,
    AGE_ARMOR_UTF8 = 32,
    AGE_ARMOR_CARRIAGE_RETURN = 33,
    AGE_ARMOR_MISSING_PADDING = 34,
    AGE_ARMOR_NOT_WRAPPED = 35,
    AGE_ARMOR_SHORT_LINE = 36,
    AGE_ARMOR_TRAILING_GARBAGE = 37,

    /* Decrypting. */
    /* The passphrase is another one. */
    AGE_DECRYPTION_FAILED = 40,
    /* A passphrase with a work factor above 22, or of 0. */
    AGE_EXCESSIVE_WORK = 41,
    /* The file doesn't begin with a header, or a stanza isn't as its kind has to be. */
    AGE_INVALID_HEADER = 42,
    /* The header isn't as it was written: its MAC is another one. */
    AGE_INVALID_MAC = 43,
    AGE_KEY_DECRYPTION_FAILED = 44,
    /* The file is for none of these identities, or it isn't under a passphrase. */
    AGE_NO_MATCHING_KEYS = 45,
    /* A recipient or an identity of a plugin. Plugins are never started. */
    AGE_PLUGIN = 46,
    /* The first line is that of another version of the format. */
    AGE_UNKNOWN_FORMAT = 47,

    /* Encrypting. */
    AGE_ENCRYPTED_IDENTITIES = 50,
    AGE_INCOMPATIBLE_RECIPIENTS = 51,
    AGE_INVALID_LABELS = 52,
    AGE_MISSING_RECIPIENTS = 53,
    AGE_MIXED_RECIPIENT_AND_PASSPHRASE = 54,
    /* Fewer random bytes were handed in than are needed. */
    AGE_NO_RANDOM = 55,
    /* The shared secret with a recipient is all zero (RFC 7748, section 6.1). */
    AGE_ZERO_SHARED_SECRET = 56,
    AGE_WORK_FACTOR_REFUSED = 57,

    /* Texts of keys and passphrases. */
    /* It isn't UTF-8. */
    AGE_NOT_TEXT = 60,
    /* A line of a text of recipients is none, and isn't empty or a comment. */
    AGE_NOT_RECIPIENT = 61,
    AGE_NO_RECIPIENT = 62,
    /* A text whose recipients are asked for names no identity. */
    AGE_NO_IDENTITY = 63,
    /* The first line of the text of a passphrase is empty, or there is none. */
    AGE_NO_PASSPHRASE = 64,
    /* A text whose recipients are asked for is a file under a passphrase. age_decrypt_passphrase gives the text in it. */
    AGE_PASSPHRASE_NEEDED = 65
};

/*
 * Hands out what a status says, in English: a line without its end, in ASCII, of at most AGE_ERROR_TEXT bytes. No NUL stands behind it.
 * A number that no call answers is "unknown status".
 */
#define AGE_ERROR_TEXT 64
uint32_t age_error_text(uint32_t status, uint8_t *out, size_t out_length, size_t *written);

/* How many random bytes a file takes that is encrypted to so many recipients, and one under a passphrase. */
#define AGE_RANDOM_FOR_RECIPIENTS(recipients) (32 + 32 * (size_t)(recipients))
#define AGE_RANDOM_FOR_PASSPHRASE 72
/* How many random bytes a new key takes. */
#define AGE_RANDOM_FOR_KEY 32

/*
 * Encrypts `plain` to the recipients in a text, one `age1..` to a line, to all of them and to no other. Empty lines and lines that
 * begin with '#' are passed over. The file is written to `out`, in armor where that is asked for.
 *
 * `random` are bytes from a good source of random bytes, AGE_RANDOM_FOR_RECIPIENTS(n) of them or more, whose first ones are used. They
 * must be new for each file: whoever knows them can decrypt it. After AGE_OUT_TOO_SHORT the same call may be made again with the same
 * ones, as long as all of it is the same but the room.
 */
uint32_t age_encrypt(const uint8_t *recipients, size_t recipients_length, const uint8_t *random, size_t random_length, bool armored,
                     const uint8_t *plain, size_t plain_length, uint8_t *out, size_t out_length, size_t *written);

/*
 * Encrypts `plain` with a passphrase: the first line of the text, without its LF or CRLF, in UTF-8. The work factor is 18, which takes
 * about a second and 256 MiB. `random` are AGE_RANDOM_FOR_PASSPHRASE bytes or more. The rest is as for age_encrypt.
 */
uint32_t age_encrypt_passphrase(const uint8_t *passphrase, size_t passphrase_length, const uint8_t *random, size_t random_length,
                                bool armored, const uint8_t *plain, size_t plain_length, uint8_t *out, size_t out_length,
                                size_t *written);

/*
 * Decrypts a whole file, bare or in armor, by the identities in a text, one `AGE-SECRET-KEY-1..` to a line: the first that answers
 * decides. AGE_OK says that the bytes carry a file of exactly this plaintext, header and chunks authenticated. A room as long as the
 * file is always long enough. A text of identities that is itself encrypted with a passphrase is one more file:
 * age_decrypt_passphrase gives the text.
 */
uint32_t age_decrypt(const uint8_t *identities, size_t identities_length, const uint8_t *file, size_t file_length, uint8_t *out,
                     size_t out_length, size_t *written);

/* Decrypts a whole file as age_decrypt does, by the passphrase that is the first line of the text, for work factors up to 22. */
uint32_t age_decrypt_passphrase(const uint8_t *passphrase, size_t passphrase_length, const uint8_t *file, size_t file_length,
                                uint8_t *out, size_t out_length, size_t *written);

/*
 * Makes a new key: a text of two lines, of which the first is "# public key: " and the recipient, and the second the identity. It is
 * a text of identities as age_decrypt takes it. `random` are AGE_RANDOM_FOR_KEY bytes from a good source of random bytes, or more,
 * whose first ones are the secret: AGE_NO_RANDOM where there are fewer. It has 152 bytes.
 */
uint32_t age_keygen(const uint8_t *random, size_t random_length, uint8_t *out, size_t out_length, size_t *written);

/*
 * Tells the recipients of all identities in a text, one `age1..` to a line, in the order of the lines: a text of recipients as
 * age_encrypt takes it. AGE_NOT_IDENTITY where a line is no identity and isn't passed over, AGE_NO_IDENTITY where there is none,
 * AGE_PASSPHRASE_NEEDED where the text is a file under a passphrase.
 */
uint32_t age_recipient_of(const uint8_t *identities, size_t identities_length, uint8_t *out, size_t out_length, size_t *written);

/*
 * Tells the key of a file's payload, AGE_PAYLOAD_KEY bytes in `out`, and in `*place` where the payload begins, counted in bytes of the
 * file, by the identities in a text as for age_decrypt. `front` are the first bytes of the file, as many as there are so far:
 *
 *   AGE_OK             the MAC of the header is right under the file key that the first of the identities gives who answers.
 *   AGE_NEED_MORE      the header, or the nonce of 16 bytes after it, goes on behind the front, as far as that can be told of a beginning.
 *                      No identity was asked. Call again with more of the file; where there is no more, it is cut.
 *   AGE_OUT_TOO_SHORT  `*place` is told too.
 *   any other status   a refusal, whatever follows the front. `*place` is 0, and so it is after AGE_NEED_MORE.
 *
 * A longer front tells the same, so 4,096 bytes are mostly enough, and a header of many recipients has some 100 bytes for each. It takes
 * bare files: one in armor is AGE_INVALID_HEADER, and age_decrypt takes that whole.
 *
 * A success says nothing of the payload yet. By key and place the chunks are read as below.
 */
#define AGE_PAYLOAD_KEY 32
uint32_t age_open_header(const uint8_t *identities, size_t identities_length, const uint8_t *front, size_t front_length, uint8_t *out,
                         size_t out_length, size_t *written, size_t *place);

/* Tells the same by the passphrase that is the first line of the text, for work factors up to 22. */
uint32_t age_open_header_passphrase(const uint8_t *passphrase, size_t passphrase_length, const uint8_t *front, size_t front_length,
                                    uint8_t *out, size_t out_length, size_t *written, size_t *place);

/*
 * The payload of a file in chunks, under its key of 32 bytes, which is derived of the file key and of the nonce after the header
 * (age-encryption.org/v1, "Payload"): piece i of a plaintext, of 65,536 bytes but for the last, is chunk i, of 16 bytes more, so chunk i
 * begins 65,552 * i bytes after that nonce. The last piece has a byte at least, unless it is the only one.
 *
 * To read all of it, open chunk 0, 1 and so on with `last` false as long as 65,552 bytes or more are left and that succeeds; then open
 * what is left with `last` true. Only where that succeeds, and nothing is left, was the payload whole: an earlier end may be a cut. A
 * chunk alone, by its place, is authenticated as that chunk of this payload, and as the last one or not.
 *
 * `key_length` is 32, or the status is AGE_BAD_ARGUMENT.
 */

/* How many chunks the payload of a plaintext of so many bytes has. */
uint64_t age_chunk_count(uint64_t plain_length);

/*
 * Tells how many bytes the plaintext of a payload of so many bytes has: AGE_OK, and `*length` is how many. AGE_BAD_ARGUMENT, and 0 in
 * `*length`, where no payload is so long. That the payload is whole only a chunk tells that opens as the last.
 */
uint32_t age_plain_length(uint64_t payload_length, uint64_t *length);

/*
 * Opens a chunk by its number. AGE_BAD_CHUNK where it is none under the key and the number, as the last one or not, or hasn't the
 * length; AGE_LAST_CHUNK_EMPTY where the last chunk is empty, and isn't chunk 0. A room as long as the chunk is always long enough.
 */
uint32_t age_open_chunk(const uint8_t *key, size_t key_length, uint64_t number, bool last, const uint8_t *text, size_t text_length,
                        uint8_t *out, size_t out_length, size_t *written);

/*
 * Seals a piece of a plaintext as the chunk of this number. AGE_BAD_CHUNK where the piece hasn't the length. Under one key no two
 * pieces may have one number: whoever sees both seals learns of both.
 */
uint32_t age_seal_chunk(const uint8_t *key, size_t key_length, uint64_t number, bool last, const uint8_t *plain, size_t plain_length,
                        uint8_t *out, size_t out_length, size_t *written);

#ifdef __cplusplus
}
#endif

#endif
