/*
 * skrapnefja: Cryptomator vaults, vault format 8, cipher combos SIV_GCM and SIV_CTRMAC.
 *
 * Slices
 *   A slice is a pointer and a number of bytes, and any bytes and lengths may be passed: a size that is wrong is refused.
 *   A pointer to no bytes may not be null: pass any other address with the length 0.
 *   `out`, `stored`, `full` of skrapnefja_write_name, `file` of skrapnefja_mend, `keys` of skrapnefja_open_reader, and the numbers
 *   `length`, `full_length`, `reserved` and `at` are written to, and `combo` and `threshold` of skrapnefja_open_label. None of them
 *   may overlap another argument. The numbers may not be null.
 *
 * What is returned and written
 *   Each function returns SKRAPNEFJA_DONE, or the row of the refusal: the first that applies of those named at the function, in the
 *   order in which they are named there. A vault that is lent is looked at before all else: row 1 if it has another size than 66,
 *   then, where a name is written or opened, row 18, then row 17. What row 1 says of keys and nonces is tried behind these.
 *   skrapnefja_reader_read is lent no vault, and looks at the reader's keys first: row 1 if they have another size than 65, then row
 *   17.
 *   Done: the answer stands at the front of `out`, its length in `length`. Bytes of `out` past it, and `at`, are as before. A mend
 *   has no `out`: it has changed `file` in place, and `length` is the number of new bytes. skrapnefja_open_reader has none either:
 *   its answer stands at the front of `keys`, and `length` is that of the cleartext.
 *   Refused: nothing is written, but that row 10 writes the number of the chunk to `at`, and rows 5 and 13 the place where a text is
 *   broken; and that rows 4 and 9 of skrapnefja_open_reader write 65 zeros to the front of `keys`, if there is room for them.
 *
 * Where a text is broken
 *   Row 5 writes to `at` the place in the text of the name. Row 13 writes to it the place in the label, counted from the label's
 *   start, where a segment is broken; for anything else row 13 leaves `at`, so set it to UINT64_MAX before to tell the two apart.
 *   A place counts characters from 0. It is the first character at which no well-formed text within the limits can go on, whatever
 *   follows; or, where the text only ends too early, its length. So what stands before the place can be right, and the character
 *   at it cannot: the mistake is there, or before it.
 *
 * The vault
 *   A vault is one record: its master keys, its cipher combo and its threshold. skrapnefja_make_vault makes it, and it is lent to
 *   every other call but those on wrapped keys and on the label, and skrapnefja_reader_read. Its bytes are keys: keep them as secret
 *   as keys, and wipe them when done, as the keys it is made of.
 *   Sizes go by the combo. Where two are named, the first is that of SIV_GCM, the second that of SIV_CTRMAC.
 *
 * Keys and nonces
 *   A content key has 32 bytes, a nonce 12 or 16.
 *   The library makes no random bytes. Draw a content key for each file, and a nonce for each header and each chunk, from a
 *   random generator, anew each time that something is written: GCM is broken by a nonce that is used twice under one key. In
 *   SIV_CTRMAC the counter starts at the nonce, so a repeated nonce repeats the keystream, and a nonce that is a little higher than
 *   another repeats a part of it: do not count nonces up. Row 8 finds equal nonces only. A mend keeps the content key of the file,
 *   so none of its nonces may ever have been used in that file; row 8 knows only those that are in the file now.
 *
 * The library keeps no state, takes no memory but the stack, and needs nothing of the C library but memcpy and memset.
 */
#ifndef SKRAPNEFJA_H
#define SKRAPNEFJA_H

#include <stddef.h>
#include <stdint.h>

#ifdef __cplusplus
extern "C" {
#endif

/* What a function returns. */
enum skrapnefja_row {
    SKRAPNEFJA_DONE = 0,
    SKRAPNEFJA_KEY_OR_NONCE_SIZE = 1, /* a vault has not 66 bytes, a reader's keys not 65, a key not 32, a raw key not 64, a nonce not
                                         12 or 16, as the combo has it, or there is not one nonce for each chunk to write */
    SKRAPNEFJA_DIRECTORY_ID = 2,      /* the directory ID has more than 36 bytes, or one that is not ASCII */
    SKRAPNEFJA_NAME = 3,              /* the name has no byte, more than 1,020, or is not proper text: well-formed UTF-8 without a
                                         zero byte and without '/'; at the openers of names tried last, behind row 12 */
    SKRAPNEFJA_LENGTH = 4,            /* no file of this combo has this length, or the cleartext is over the limit; a header isn't 68
                                         or 88 bytes, as the combo has it; a chunk's cleartext isn't 1 to 32,768 bytes, or the chunk
                                         not 29 to 32,796 or 49 to 32,816; a wrapped key isn't 40; a read is through the reader of
                                         no bytes */
    SKRAPNEFJA_TEXT = 5,              /* the text of a name is broken, or longer than the threshold at skrapnefja_open_name; `at` is
                                         the place */
    SKRAPNEFJA_RANGE = 6,             /* the range ends behind the cleartext */
    SKRAPNEFJA_ROOM = 7,              /* a buffer has not the room for what goes into it */
    SKRAPNEFJA_REPEATED_NONCE = 8,    /* two chunk nonces of a file to write are equal; at a mend, two that are lent, or one of these
                                         and that of a chunk now in the file */
    SKRAPNEFJA_HEADER = 9,            /* the header's tag (SIV_GCM) or MAC (SIV_CTRMAC) is wrong */
    SKRAPNEFJA_CHUNK = 10,            /* the tag or MAC of a chunk that is needed is wrong; `at` is the lowest such chunk's number */
    SKRAPNEFJA_HASH_NAME = 11,        /* the full name is no longer than the threshold, or the stored name isn't its hash name */
    SKRAPNEFJA_SYNTHETIC_IV = 12,     /* the name's synthetic IV doesn't match, as other keys, another directory or damage can cause */
    SKRAPNEFJA_LABEL = 13,            /* the label is over 4,096 bytes or malformed, as said at skrapnefja_open_label; `at` is the
                                         place where a segment is broken, and as before if none is */
    SKRAPNEFJA_ALG = 14,              /* the label's "alg" isn't HS256 */
    SKRAPNEFJA_SIGNATURE = 15,        /* the label's signature is wrong, as another raw key or damage can cause */
    SKRAPNEFJA_FORMAT = 16,           /* the label's "format" isn't 8 */
    SKRAPNEFJA_COMBO = 17,            /* the combo is neither SIV_GCM nor SIV_CTRMAC, nor 0 in a reader's keys */
    SKRAPNEFJA_THRESHOLD = 18,        /* the threshold isn't 36 to 220 */
    SKRAPNEFJA_CHECK_VALUE = 20       /* the check value of a wrapped key is wrong, as another key-encryption key or damage can cause */
};

/* The cipher combos: how the contents of files are encrypted. The label has a vault's as "cipherCombo". */
enum skrapnefja_combo {
    SKRAPNEFJA_SIV_GCM = 1,   /* AES in Galois/Counter Mode */
    SKRAPNEFJA_SIV_CTRMAC = 2 /* AES in counter mode and HMAC-SHA-256, as older vaults have it */
};

/* Sizes in bytes. */
#define SKRAPNEFJA_KEY_SIZE 32                  /* a master key, a content key, a key-encryption key */
#define SKRAPNEFJA_WRAPPED_KEY_SIZE 40          /* a wrapped key */
#define SKRAPNEFJA_RAW_KEY_SIZE 64              /* a raw key: the encryption master key, then the MAC master key */
#define SKRAPNEFJA_LABEL_MAX 4096               /* a label, at most */
#define SKRAPNEFJA_VAULT_SIZE 66                /* a vault */
#define SKRAPNEFJA_READER_KEYS_SIZE 65          /* the keys of a reader */
#define SKRAPNEFJA_SIV_GCM_NONCE_SIZE 12        /* the nonce of a header or a chunk */
#define SKRAPNEFJA_SIV_GCM_HEADER_SIZE 68       /* a header as it is stored */
#define SKRAPNEFJA_SIV_GCM_CHUNK_OVERHEAD 28    /* what a chunk as it is stored has more than its cleartext */
#define SKRAPNEFJA_SIV_CTRMAC_NONCE_SIZE 16     /* the same three in the other combo */
#define SKRAPNEFJA_SIV_CTRMAC_HEADER_SIZE 88
#define SKRAPNEFJA_SIV_CTRMAC_CHUNK_OVERHEAD 48
#define SKRAPNEFJA_CHUNK_SIZE 32768             /* the cleartext of a chunk, at most; all chunks of a file but the last have as much */
#define SKRAPNEFJA_CLEARTEXT_MAX 16777216       /* the cleartext of a file, at most */
#define SKRAPNEFJA_DIR_ID_MAX 36                /* a directory ID, at most */
#define SKRAPNEFJA_PATH_SIZE 36                 /* the path of a directory */
#define SKRAPNEFJA_NAME_MAX 1020                /* a name, at most */
#define SKRAPNEFJA_THRESHOLD_MIN 36             /* a threshold, at least: the length of the longest full name that is stored as it is */
#define SKRAPNEFJA_THRESHOLD_MAX 220            /* a threshold, at most */
#define SKRAPNEFJA_STORED_NAME_MAX 220          /* a name as it is stored, at most, whatever the threshold */
#define SKRAPNEFJA_FULL_NAME_MAX 1388           /* the full name of a shortened name, at most */

/* A vault: the encryption master key, the MAC master key, the number of the combo in one byte, and the threshold in one. */
typedef struct skrapnefja_vault {
    uint8_t bytes[SKRAPNEFJA_VAULT_SIZE];
} skrapnefja_vault;

/*
 * A reader: a file that is kept open. Its keys are the content key, the MAC master key in SIV_CTRMAC or 32 zeros in SIV_GCM, and the
 * number of the combo in one byte. With 65 zeros as its keys it is the reader of no bytes, through which every read gets row 4; its
 * `file` may not be null even then.
 */
typedef struct skrapnefja_reader {
    const uint8_t *file;                       /* the file's bytes, which stay the caller's */
    size_t file_len;
    uint8_t keys[SKRAPNEFJA_READER_KEYS_SIZE]; /* what skrapnefja_open_reader writes */
} skrapnefja_reader;

/*
 * How many chunks `count` bytes of a cleartext cover, the first of them at place `from`: as many nonces does skrapnefja_mend take.
 * `from` may be any number of 64 bits. It is not added to `count`, since that sum may wrap; `count` may be any size of a slice.
 */
#define SKRAPNEFJA_COVERING_CHUNKS(from, count) \
    ((count) == 0 ? 0 : ((uint64_t)(from) % SKRAPNEFJA_CHUNK_SIZE + ((count) - 1)) / SKRAPNEFJA_CHUNK_SIZE + 1)

/* A vault as one argument of a call: its bytes and their number. With a pointer to a vault: SKRAPNEFJA_VAULT(*pointer). */
#define SKRAPNEFJA_VAULT(vault) (vault).bytes, sizeof (vault).bytes

/* A reader as one argument of a call: its file and its keys. With a pointer to a reader: SKRAPNEFJA_READER(*pointer). */
#define SKRAPNEFJA_READER(reader) (reader).file, (reader).file_len, (reader).keys, sizeof (reader).keys

/*
 * ---- Master keys. masterkey.cryptomator has those of the vault as "primaryMasterKey" (`enc`) and "hmacMasterKey" (`mac`), each
 * wrapped to 40 bytes by RFC 3394 and written in base64. `kek`, the key-encryption key, is scrypt of the password, which is not
 * in this library: 32 bytes for the salt that "scryptSalt" stands for, also in base64, with N = "scryptCostParam", r =
 * "scryptBlockSize" and p = 1.
 */

/* Unwraps a wrapped key: writes the key, 32 bytes, once its check value is found right. Rows 1, 4, 7, 20. */
uint32_t skrapnefja_unwrap_key(const uint8_t *kek, size_t kek_len, const uint8_t *wrapped_key, size_t wrapped_key_len,
                               uint8_t *out, size_t out_len, uint64_t *length);

/* Wraps a key: writes the wrapped key, 40 bytes. Rows 1, 7. */
uint32_t skrapnefja_wrap_key(const uint8_t *kek, size_t kek_len, const uint8_t *key, size_t key_len,
                             uint8_t *out, size_t out_len, uint64_t *length);

/*
 * ---- The label: vault.cryptomator, from its first byte to its last. It is HEADER.PAYLOAD.SIGNATURE, each of the three in unpadded
 * base64url with zero spare bits (RFC 7515), and has 4,096 bytes at most. The signature is HMAC-SHA-256 of HEADER.PAYLOAD under the
 * raw key, which is `enc` and then `mac`. Header and payload are JSON objects (RFC 8259) in UTF-8, with no byte order mark. The header
 * has the string "alg", the payload the string "cipherCombo" and the whole numbers, without point and exponent, "format" and
 * "shorteningThreshold", each once. Other members may be anything, up to eight arrays and objects deep, and may repeat.
 */

/*
 * Opens a label: writes the number of its combo to `combo` and its threshold, 36 to 220, to `threshold`. A label that is not as said
 * above gets row 13, also for a newline behind it, and row 15 where only the signature is another, be it in its length. Names and
 * strings are compared after their escapes are read. Row 13 writes the place of the first segment that is not base64url to `at`; that
 * of a segment that only ends too early is where the segment ends. It leaves `at` where the label is over 4,096 bytes or has not two
 * dots, which is looked at before, and where the segments are right and the JSON in them is not. Rows 1, 13, 14, 15, 16, 17, 18.
 */
uint32_t skrapnefja_open_label(const uint8_t *raw_key, size_t raw_key_len, const uint8_t *label, size_t label_len,
                               uint32_t *combo, uint32_t *threshold, uint64_t *at);

/*
 * ---- The vault, which is lent to every call from here on but skrapnefja_reader_read:
 *     skrapnefja_open_label(raw_key, sizeof raw_key, label, label_len, &combo, &threshold, &at);
 *     skrapnefja_make_vault(enc, sizeof enc, mac, sizeof mac, combo, threshold, SKRAPNEFJA_VAULT(vault), &length);
 *     skrapnefja_open_file(SKRAPNEFJA_VAULT(vault), file, file_len, out, out_len, &length, &at);
 */

/* Makes the vault of the encryption and the MAC master key, a combo and a threshold: writes it, 66 bytes. Rows 1, 7, 17, 18. */
uint32_t skrapnefja_make_vault(const uint8_t *enc, size_t enc_len, const uint8_t *mac, size_t mac_len, uint32_t combo,
                               uint32_t threshold, uint8_t *out, size_t out_len, uint64_t *length);

/* ---- Lengths: by these a caller sizes its buffers. They go by the vault's combo, and its keys do not matter. */

/* The length of the file of a cleartext of this length. Rows 1, 17, 4. */
uint32_t skrapnefja_file_length(const uint8_t *vault, size_t vault_len, uint64_t cleartext_length, uint64_t *length);

/* The length of the cleartext of a file of this length. Rows 1, 17, 4. */
uint32_t skrapnefja_cleartext_length(const uint8_t *vault, size_t vault_len, uint64_t file_length, uint64_t *length);

/* ---- Files. */

/*
 * Writes the file of a cleartext: a header and the chunks. `chunk_nonces` has 12 or 16 bytes for each chunk of 32,768 bytes, the
 * last of which may be shorter, in order, and no two may be equal; an empty cleartext has no chunk. Rows 1, 17, 4, 7, 8.
 */
uint32_t skrapnefja_write_file(const uint8_t *vault, size_t vault_len,
                               const uint8_t *header_nonce, size_t header_nonce_len,
                               const uint8_t *content_key, size_t content_key_len,
                               const uint8_t *chunk_nonces, size_t chunk_nonces_len,
                               const uint8_t *cleartext, size_t cleartext_len,
                               uint8_t *out, size_t out_len, uint64_t *length);

/* Opens a file: writes its cleartext, once the header and every chunk are found good. Rows 1, 17, 4, 7, 9, 10. */
uint32_t skrapnefja_open_file(const uint8_t *vault, size_t vault_len,
                              const uint8_t *file, size_t file_len,
                              uint8_t *out, size_t out_len, uint64_t *length, uint64_t *at);

/*
 * Reads `count` bytes of the cleartext of a file, the first of them at place `from`, counted from 0, once the header and every
 * chunk that the range covers are found good. `from` and `count` may be any numbers. A range of no bytes looks at the header
 * only.
 * Neighbouring reads add up, also those through a reader: with room, the reads from a to b and from b to c both succeed exactly when
 * the read from a to c does, and give its bytes. Where c is not behind the end of the cleartext, the read from a to c is refused
 * exactly when one of the two is, by the row and the chunk number of the first that is.
 * Rows 1, 17, 4, 6, 7, 9, 10.
 */
uint32_t skrapnefja_read_range(const uint8_t *vault, size_t vault_len,
                               const uint8_t *file, size_t file_len, uint64_t from, uint64_t count,
                               uint8_t *out, size_t out_len, uint64_t *length, uint64_t *at);

/*
 * Mends a file in place: replaces bytes of its cleartext by as many new ones, the first of them at place `from`, counted from 0. The
 * length stays. The chunks that the range covers are sealed again, each with its lent nonce, once the header and all of them are
 * found good. No other byte of the file changes, and a chunk that is not covered may be bad, and stays so. `from` may be any number.
 * A range of no bytes covers no chunk, looks at the header only, and changes nothing. After a mend that succeeded, a read that has
 * none of the replaced bytes, under the same vault or through a reader made for this file under it, returns and writes what it did
 * before.
 * `nonces` has 12 or 16 bytes for each covered chunk, in order: for SKRAPNEFJA_COVERING_CHUNKS(from, new_bytes_len) of them, the first
 * of which is number from / 32,768, rounded down. Row 1 counts them so, also where the range is not inside. Row 8 is given if two of
 * the nonces are equal, or if one is that of a chunk now in the file, covered or not, good or not. The nonce of the header does not
 * count.
 * The mend is done in the caller's buffer. While it runs, the cleartext of one covered chunk at a time stands there: lend memory that
 * nobody else reads, not a map of the stored file. Storing it safely is the caller's: if power is lost in the middle, a half-written
 * file can be left on a card. The bytes to store afterwards are those from the start of the first covered chunk to the end of the
 * last; chunk i starts at place header size + (32,768 + overhead) * i of the file.
 * Rows 1, 17, 4, 6, 8, 9, 10.
 */
uint32_t skrapnefja_mend(const uint8_t *vault, size_t vault_len,
                         uint8_t *file, size_t file_len, uint64_t from,
                         const uint8_t *new_bytes, size_t new_bytes_len,
                         const uint8_t *nonces, size_t nonces_len, uint64_t *length, uint64_t *at);

/*
 * ---- A file that is kept open: its header is opened once, and not at each read.
 *     skrapnefja_reader log = {file, file_len, {0}};
 *     skrapnefja_open_reader(SKRAPNEFJA_VAULT(vault), SKRAPNEFJA_READER(log), &log_length);
 *     skrapnefja_reader_read(SKRAPNEFJA_READER(log), from, count, out, out_len, &length, &at);
 * While the file's bytes are those for which the reader was made, a read through it returns and writes what skrapnefja_read_range
 * does for that file and that vault; through that of a refused file, row 4. Reads do not change the reader: there may be any number of
 * them, in any order. A mend leaves the header and the length, so the same reader reads the mended file. Another file of the vault
 * needs a reader of its own, and so does the same one written anew: in SIV_GCM row 10 tells of it where a chunk is read, but in
 * SIV_CTRMAC, where the MAC does not depend on the content key, wrong bytes are read without a refusal.
 * The keys of a reader are secret: keep them as secret as the vault, and wipe them when done. The encryption master key is not among
 * them.
 */

/*
 * Makes the reader of a file, once the header is found good: writes its keys, 65 bytes, and to `length` the length of the cleartext.
 * No chunk is looked at. Where the file is refused, by row 4 or 9, the first 65 bytes of `keys`, if it has as many, are zeros, those of
 * the reader of no bytes. The other rows leave `keys`, so that a struct which held another reader still has that one's keys.
 * Rows 1, 17, 4, 7, 9.
 */
uint32_t skrapnefja_open_reader(const uint8_t *vault, size_t vault_len,
                                const uint8_t *file, size_t file_len,
                                uint8_t *keys, size_t keys_len, uint64_t *length);

/*
 * Reads `count` bytes of the cleartext of a reader's file, the first of them at place `from`, counted from 0, once every chunk that
 * the range covers is found good. `from` and `count` may be any numbers. A range of no bytes looks at no chunk.
 * The file is taken as it is at the call. Its first 12 or 16 bytes are the nonce of the header, and the rest of the header is not
 * looked at. Keys that were made by hand are taken as they are too. Row 17 is given if their last byte is not 0, 1 or 2, and row 4 if
 * it is 0, whatever the file. Rows 1, 17, 4, 6, 7, 10.
 */
uint32_t skrapnefja_reader_read(const uint8_t *file, size_t file_len,
                                const uint8_t *keys, size_t keys_len, uint64_t from, uint64_t count,
                                uint8_t *out, size_t out_len, uint64_t *length, uint64_t *at);

/* ---- A single header, and single chunks: for a caller that does not hold the file whole. */

/* Writes the header of a nonce and a content key, its eight reserved bytes FF: 68 or 88 bytes. Rows 1, 17, 7. */
uint32_t skrapnefja_write_header(const uint8_t *vault, size_t vault_len,
                                 const uint8_t *nonce, size_t nonce_len,
                                 const uint8_t *content_key, size_t content_key_len,
                                 uint8_t *out, size_t out_len, uint64_t *length);

/*
 * Opens a header of 68 or 88 bytes, of which the first 12 or 16 are its nonce: writes the content key, 32 bytes, and to `reserved`
 * its eight reserved bytes as a number, the first byte the highest. The format keeps them for later use, and any are accepted:
 * those of this library are all FF, and an old program may have put a file's size there. Rows 1, 17, 4, 7, 9.
 */
uint32_t skrapnefja_open_header(const uint8_t *vault, size_t vault_len,
                                const uint8_t *header, size_t header_len,
                                uint8_t *out, size_t out_len, uint64_t *length, uint64_t *reserved);

/* Writes the chunk with a number, counted from 0, of 1 to 32,768 bytes of cleartext: 28 or 48 bytes more. Rows 1, 17, 4, 7. */
uint32_t skrapnefja_write_chunk(const uint8_t *vault, size_t vault_len,
                                const uint8_t *content_key, size_t content_key_len,
                                const uint8_t *header_nonce, size_t header_nonce_len, uint64_t number,
                                const uint8_t *nonce, size_t nonce_len,
                                const uint8_t *cleartext, size_t cleartext_len,
                                uint8_t *out, size_t out_len, uint64_t *length);

/* Opens the chunk with a number, which row 10 writes to `at`: writes its cleartext, 28 or 48 bytes less. Rows 1, 17, 4, 7, 10. */
uint32_t skrapnefja_open_chunk(const uint8_t *vault, size_t vault_len,
                               const uint8_t *content_key, size_t content_key_len,
                               const uint8_t *header_nonce, size_t header_nonce_len, uint64_t number,
                               const uint8_t *chunk, size_t chunk_len,
                               uint8_t *out, size_t out_len, uint64_t *length, uint64_t *at);

/*
 * ---- Names and directories, which are the same in both combos. A directory ID is text of at most 36 bytes; that of the root is
 * empty. A full name is the encrypted name as text that ends in ".c9r". With as many characters as the vault's threshold, or fewer,
 * it is what is stored; in place of a longer one its hash name is stored, 32 characters that end in ".c9s". Buffers of
 * SKRAPNEFJA_STORED_NAME_MAX, SKRAPNEFJA_FULL_NAME_MAX and SKRAPNEFJA_NAME_MAX bytes have room for any name: row 7 is not given.
 */

/*
 * Writes what is stored for a name of 1 to 1,020 bytes in the directory with this ID. The name is proper text: well-formed UTF-8
 * without a zero byte and without '/', or row 3. That it is in Unicode's Normalization Form C is the caller's to see to. Where
 * the full name is stored, `length` is its length, `full_length` is 0, and `full` is neither needed nor written. Where it is
 * shortened, `stored` gets the hash name, and `full` the full name, of `full_length` characters, at most 1,388.
 * Rows 1, 18, 17, 2, 3, 7.
 */
uint32_t skrapnefja_write_name(const uint8_t *vault, size_t vault_len,
                               const uint8_t *dir_id, size_t dir_id_len, const uint8_t *name, size_t name_len,
                               uint8_t *stored, size_t stored_len, uint8_t *full, size_t full_len,
                               uint64_t *length, uint64_t *full_length);

/*
 * Opens a stored name that is a full name, unshortened: writes the name, which is proper text. Row 5 writes to `at` the place in
 * `stored`; the limit is the vault's threshold. Rows 1, 18, 17, 2, 5, 7, 12, 3.
 */
uint32_t skrapnefja_open_name(const uint8_t *vault, size_t vault_len,
                              const uint8_t *dir_id, size_t dir_id_len, const uint8_t *stored, size_t stored_len,
                              uint8_t *out, size_t out_len, uint64_t *length, uint64_t *at);

/*
 * Opens a shortened name, by what is stored and its full name: writes the name, which is proper text. Row 5 writes to `at` the place
 * in `full`, not in `stored`; the limit is the text of a name of SKRAPNEFJA_NAME_MAX bytes. Rows 1, 18, 17, 2, 5, 7, 11, 12, 3.
 */
uint32_t skrapnefja_open_long_name(const uint8_t *vault, size_t vault_len,
                                   const uint8_t *dir_id, size_t dir_id_len, const uint8_t *stored, size_t stored_len,
                                   const uint8_t *full, size_t full_len,
                                   uint8_t *out, size_t out_len, uint64_t *length, uint64_t *at);

/* Writes the path of the directory with this ID, "/d/XX/" and thirty characters: 36 bytes, with no 0 behind them. Rows 1, 17, 2, 7. */
uint32_t skrapnefja_dir_path(const uint8_t *vault, size_t vault_len,
                             const uint8_t *dir_id, size_t dir_id_len,
                             uint8_t *out, size_t out_len, uint64_t *length);

#ifdef __cplusplus
}
#endif

#endif
