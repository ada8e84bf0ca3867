/*
 * Goes from the two files in a vault's folder to an open file: unwraps the master keys of masterkey.cryptomator, opens the label,
 * which is vault.cryptomator, makes the vault of both, and opens log.c9r. Then it writes a file and a name in that vault and opens
 * them, and wraps the master keys for a new password. Its argument is the folder, `samples` if there is none. Ends with status 0
 * if all is as expected.
 * The key-encryption key, the content key and the nonces are fixed here so that each run prints the same; a real program gets the
 * first from scrypt, draws the others from a random generator, and wipes keys and vaults when done.
 */
#include <inttypes.h>
#include <stdint.h>
#include <stdio.h>
#include <stdlib.h>
#include <string.h>

#include "skrapnefja.h"

#define TEXT_SIZE 4096             /* room for masterkey.cryptomator */
#define FILE_SIZE 65536            /* room for a file, and for its cleartext */
#define WRAPPED_KEY_BASE64_SIZE 56 /* the characters of a wrapped key: 14 groups of four */

/* scrypt of the password "signalbox", with the salt and the parameters of masterkey.cryptomator. */
static const uint8_t kek[SKRAPNEFJA_KEY_SIZE] = {
    0xFF, 0xCF, 0x56, 0xDB, 0x23, 0x9C, 0xB1, 0x26, 0x8F, 0x68, 0x94, 0x7C, 0x66, 0x0D, 0x48, 0x14,
    0x8D, 0x74, 0x15, 0x4E, 0x86, 0x59, 0xEF, 0xA7, 0xD3, 0xA5, 0x01, 0x2A, 0x8C, 0xD1, 0xD3, 0xC6};

/* In place of scrypt of another password. */
static const uint8_t other_kek[SKRAPNEFJA_KEY_SIZE] = {10};

/* What the two files say: the wrapped master keys, and the label. */
struct vault_files {
    uint8_t primary_master_key[SKRAPNEFJA_WRAPPED_KEY_SIZE];
    uint8_t hmac_master_key[SKRAPNEFJA_WRAPPED_KEY_SIZE];
    uint8_t label[SKRAPNEFJA_LABEL_MAX];
    size_t label_len;
};

/* A vault, and what its label says. */
struct unlocked {
    uint32_t combo;
    uint32_t threshold;
    skrapnefja_vault vault;
};

static struct vault_files files;
static uint8_t file[FILE_SIZE];
static uint8_t opened[FILE_SIZE];

static void check(int holds, const char *what)
{
    if (!holds) {
        printf("failed: %s\n", what);
        exit(1);
    }
}

/* Reads a file of the folder, which has to fit, and returns its length. */
static size_t load(const char *folder, const char *name, uint8_t *out, size_t room)
{
    char path[1024];
    FILE *stream;
    size_t length;

    check((size_t)snprintf(path, sizeof path, "%s/%s", folder, name) < sizeof path, "length of the path");
    stream = fopen(path, "rb");
    check(stream != NULL, path);
    length = fread(out, 1, room, stream);
    check(fgetc(stream) == EOF && !ferror(stream), path);
    fclose(stream);
    return length;
}

/* The number that a character of base64 stands for, and 0 for the padding. */
static uint32_t digit(char character)
{
    static const char digits[] = "ABCDEFGHIJKLMNOPQRSTUVWXYZabcdefghijklmnopqrstuvwxyz0123456789+/";
    const char *place = character == '=' ? digits : strchr(digits, character);

    check(place != NULL, "a character of base64");
    return (uint32_t)(place - digits);
}

/*
 * The wrapped key that is the value of this member: the base64 between the two quotation marks behind its name. This will do for
 * the sample; a real program has a JSON reader.
 */
static void wrapped_key(const char *text, const char *member, uint8_t out[SKRAPNEFJA_WRAPPED_KEY_SIZE])
{
    const char *base64 = strstr(text, member);
    size_t i;

    check(base64 != NULL, member);
    base64 = strchr(base64 + strlen(member), '"');
    check(base64 != NULL && strcspn(base64 + 1, "\"") == WRAPPED_KEY_BASE64_SIZE, member);
    for (i = 0; i < SKRAPNEFJA_WRAPPED_KEY_SIZE; i++) {
        const char *group = base64 + 1 + i / 3 * 4;
        uint32_t bits = digit(group[0]) << 18 | digit(group[1]) << 12 | digit(group[2]) << 6 | digit(group[3]);
        out[i] = (uint8_t)(bits >> (16 - i % 3 * 8));
    }
}

static void load_the_files(const char *folder)
{
    static uint8_t text[TEXT_SIZE + 1];
    size_t length = load(folder, "masterkey.cryptomator", text, TEXT_SIZE);

    text[length] = 0;
    wrapped_key((const char *)text, "\"primaryMasterKey\"", files.primary_master_key);
    wrapped_key((const char *)text, "\"hmacMasterKey\"", files.hmac_master_key);
    files.label_len = load(folder, "vault.cryptomator", files.label, sizeof files.label);
}

/* The way from the key-encryption key to the vault. Returns the first row that a call gives, if any does. */
static uint32_t unlock(const uint8_t *password_kek, struct unlocked *unlocked)
{
    uint8_t raw_key[SKRAPNEFJA_RAW_KEY_SIZE];
    uint8_t *enc = raw_key;
    uint8_t *mac = raw_key + SKRAPNEFJA_KEY_SIZE;
    uint64_t length;
    uint64_t at = UINT64_MAX; /* stays so where row 13 has no place */
    uint32_t row = skrapnefja_unwrap_key(password_kek, SKRAPNEFJA_KEY_SIZE, files.primary_master_key,
                                         sizeof files.primary_master_key, enc, SKRAPNEFJA_KEY_SIZE, &length);

    if (row == SKRAPNEFJA_DONE) {
        row = skrapnefja_unwrap_key(password_kek, SKRAPNEFJA_KEY_SIZE, files.hmac_master_key, sizeof files.hmac_master_key, mac,
                                    SKRAPNEFJA_KEY_SIZE, &length);
    }
    if (row == SKRAPNEFJA_DONE) {
        row = skrapnefja_open_label(raw_key, sizeof raw_key, files.label, files.label_len, &unlocked->combo, &unlocked->threshold,
                                    &at);
    }
    if (row == SKRAPNEFJA_LABEL && at != UINT64_MAX) {
        printf("the label is broken at character %" PRIu64 "\n", at);
    }
    if (row == SKRAPNEFJA_DONE) {
        row = skrapnefja_make_vault(enc, SKRAPNEFJA_KEY_SIZE, mac, SKRAPNEFJA_KEY_SIZE, unlocked->combo, unlocked->threshold,
                                    SKRAPNEFJA_VAULT(unlocked->vault), &length);
    }
    return row;
}

static void unlock_the_vault(struct unlocked *unlocked)
{
    uint32_t row = unlock(other_kek, unlocked);

    check(row == SKRAPNEFJA_CHECK_VALUE, "another password");
    printf("unlocked the vault with another password: refused %" PRIu32 "\n", row);

    row = unlock(kek, unlocked);
    if (row != SKRAPNEFJA_DONE) {
        printf("unlocked the vault: refused %" PRIu32 "\n", row);
        exit(1);
    }
    check(unlocked->combo == SKRAPNEFJA_SIV_GCM && unlocked->threshold == 220, "what the label says");
    printf("unlocked the vault: combo %" PRIu32 ", threshold %" PRIu32 "\n", unlocked->combo, unlocked->threshold);
}

/*
 * A label that was changed is not believed, and neither is one of another vault. Where a character is none of base64url, its place is
 * told.
 */
static void refuse_a_changed_label(void)
{
    struct unlocked none = {0, 0, {{0}}};
    uint32_t row;

    files.label[files.label_len - 2] ^= 1; /* in the signature; it is still base64url */
    row = unlock(kek, &none);
    files.label[files.label_len - 2] ^= 1;
    check(row == SKRAPNEFJA_SIGNATURE && none.combo == 0 && none.threshold == 0, "a changed label");
    printf("unlocked it with a changed label: refused %" PRIu32 "\n", row);

    files.label[40] ^= 0x80;
    row = unlock(kek, &none);
    files.label[40] ^= 0x80;
    check(row == SKRAPNEFJA_LABEL && none.combo == 0 && none.threshold == 0, "a mangled label");
    printf("unlocked it with a mangled label: refused %" PRIu32 "\n", row);
}

static void open_the_log(const char *folder, const struct unlocked *unlocked)
{
    size_t file_len = load(folder, "log.c9r", file, sizeof file);
    uint64_t length = 0;
    uint64_t at = 0;

    check(skrapnefja_open_file(SKRAPNEFJA_VAULT(unlocked->vault), file, file_len, opened, sizeof opened, &length, &at)
              == SKRAPNEFJA_DONE,
          "opening the log");
    check(length == 40084, "length of the log");
    printf("opened log.c9r: %" PRIu64 " bytes, of which the first are \"%.13s\"\n", length, (const char *)opened);
}

/* The nonces have the size that the combo has, which a program learns from the label. */
static void write_and_open_a_file(const struct unlocked *unlocked)
{
    static const uint8_t cleartext[] = "14:02 handset 7 takes train 12";
    static const uint8_t header_nonce[SKRAPNEFJA_SIV_CTRMAC_NONCE_SIZE] = {3};
    static const uint8_t content_key[SKRAPNEFJA_KEY_SIZE] = {4};
    static const uint8_t chunk_nonce[SKRAPNEFJA_SIV_CTRMAC_NONCE_SIZE] = {5};
    size_t nonce_size =
        unlocked->combo == SKRAPNEFJA_SIV_GCM ? SKRAPNEFJA_SIV_GCM_NONCE_SIZE : SKRAPNEFJA_SIV_CTRMAC_NONCE_SIZE;
    uint64_t file_length = 0;
    uint64_t length = 0;
    uint64_t at = 0;

    check(skrapnefja_write_file(SKRAPNEFJA_VAULT(unlocked->vault), header_nonce, nonce_size, content_key, sizeof content_key,
                                chunk_nonce, nonce_size, cleartext, sizeof cleartext, file, sizeof file, &file_length)
              == SKRAPNEFJA_DONE,
          "writing a file");
    check(skrapnefja_open_file(SKRAPNEFJA_VAULT(unlocked->vault), file, (size_t)file_length, opened, sizeof opened, &length, &at)
              == SKRAPNEFJA_DONE,
          "opening the file");
    check(length == sizeof cleartext && memcmp(opened, cleartext, sizeof cleartext) == 0, "cleartext of the file");
    printf("wrote a file of %" PRIu64 " bytes and opened it: %s\n", file_length, (const char *)opened);
}

/* Whether a name is stored as it is or by its hash name goes by the threshold, which is part of the vault. */
static void write_and_open_a_name(const struct unlocked *unlocked)
{
    static const char name[] = "log.txt";
    const uint8_t *root = kek; /* the root's ID has no bytes, and its address may be any but null */
    uint8_t path[SKRAPNEFJA_PATH_SIZE];
    uint8_t stored[SKRAPNEFJA_STORED_NAME_MAX];
    uint8_t full[SKRAPNEFJA_FULL_NAME_MAX];
    uint8_t out[SKRAPNEFJA_NAME_MAX];
    uint64_t stored_length = 0;
    uint64_t full_length = 0;
    uint64_t length = 0;
    uint64_t at = 0;

    check(skrapnefja_dir_path(SKRAPNEFJA_VAULT(unlocked->vault), root, 0, path, sizeof path, &length) == SKRAPNEFJA_DONE,
          "the path of the root");
    check(skrapnefja_write_name(SKRAPNEFJA_VAULT(unlocked->vault), root, 0, (const uint8_t *)name, strlen(name), stored,
                                sizeof stored, full, sizeof full, &stored_length, &full_length) == SKRAPNEFJA_DONE,
          "writing the name");
    check(stored_length <= unlocked->threshold && full_length == 0, "a name that is stored as it is");
    printf("%s is stored as %.*s/%.*s\n", name, (int)length, (const char *)path, (int)stored_length, (const char *)stored);

    check(skrapnefja_open_name(SKRAPNEFJA_VAULT(unlocked->vault), root, 0, stored, (size_t)stored_length, out, sizeof out, &length,
                               &at) == SKRAPNEFJA_DONE,
          "opening the name");
    check(length == strlen(name) && memcmp(out, name, strlen(name)) == 0, "the name");
}

/* The wrapped key under a new key-encryption key, in place of that under the old one. */
static void wrap_again(uint8_t *wrapped)
{
    uint8_t key[SKRAPNEFJA_KEY_SIZE];
    uint64_t length = 0;

    check(skrapnefja_unwrap_key(kek, sizeof kek, wrapped, SKRAPNEFJA_WRAPPED_KEY_SIZE, key, sizeof key, &length) == SKRAPNEFJA_DONE,
          "unwrapping a master key");
    check(skrapnefja_wrap_key(other_kek, sizeof other_kek, key, sizeof key, wrapped, SKRAPNEFJA_WRAPPED_KEY_SIZE, &length)
              == SKRAPNEFJA_DONE,
          "wrapping a master key");
}

/* The other password becomes that of the vault. Its master keys stay, and so does the label. */
static void change_the_password(void)
{
    struct unlocked again;

    wrap_again(files.primary_master_key);
    wrap_again(files.hmac_master_key);
    check(unlock(other_kek, &again) == SKRAPNEFJA_DONE, "the new password");
    check(unlock(kek, &again) == SKRAPNEFJA_CHECK_VALUE, "the old password");
    printf("changed the password\n");
}

int main(int argc, char **argv)
{
    const char *folder = argc > 1 ? argv[1] : "samples";
    struct unlocked unlocked;

    load_the_files(folder);
    unlock_the_vault(&unlocked);
    refuse_a_changed_label();
    open_the_log(folder, &unlocked);
    write_and_open_a_file(&unlocked);
    write_and_open_a_name(&unlocked);
    change_the_password();
    return 0;
}
