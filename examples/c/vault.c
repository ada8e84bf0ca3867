/*
 * Makes a vault of each combo, writes a file of two chunks in both and reads it back, then writes names in them and opens these, has
 * one refused, and shows where a mangled one is broken. Ends with status 0 if all is as expected.
 * The keys and the nonces are fixed here so that each run prints the same; a real program gets the master keys as unlock.c does,
 * draws the content key and the nonces from a random generator, and wipes keys and vaults when done.
 */
#include <inttypes.h>
#include <stdint.h>
#include <stdio.h>
#include <stdlib.h>
#include <string.h>

#include "skrapnefja.h"

#define CLEAR_SIZE 40000 /* a whole chunk, and a second of 7,232 bytes */
#define GCM_FILE_SIZE (SKRAPNEFJA_SIV_GCM_HEADER_SIZE + CLEAR_SIZE + 2 * SKRAPNEFJA_SIV_GCM_CHUNK_OVERHEAD)
#define CTRMAC_FILE_SIZE (SKRAPNEFJA_SIV_CTRMAC_HEADER_SIZE + CLEAR_SIZE + 2 * SKRAPNEFJA_SIV_CTRMAC_CHUNK_OVERHEAD)
#define UNTOUCHED 0xA5

/* A vault with the sizes of its combo, and the file in it. */
struct club_vault {
    const char *combo_name;
    uint32_t combo;
    uint32_t threshold;
    size_t nonce_size;
    size_t header_size;
    size_t file_size;
    skrapnefja_vault vault;
    uint8_t file[CTRMAC_FILE_SIZE];
};

/* A club has an older vault beside its own, and that one shortens names early. Here both are under the same master keys. */
static struct club_vault own = {
    .combo_name = "SIV_GCM",
    .combo = SKRAPNEFJA_SIV_GCM,
    .threshold = SKRAPNEFJA_THRESHOLD_MAX,
    .nonce_size = SKRAPNEFJA_SIV_GCM_NONCE_SIZE,
    .header_size = SKRAPNEFJA_SIV_GCM_HEADER_SIZE,
    .file_size = GCM_FILE_SIZE,
};
static struct club_vault older = {
    .combo_name = "SIV_CTRMAC",
    .combo = SKRAPNEFJA_SIV_CTRMAC,
    .threshold = SKRAPNEFJA_THRESHOLD_MIN,
    .nonce_size = SKRAPNEFJA_SIV_CTRMAC_NONCE_SIZE,
    .header_size = SKRAPNEFJA_SIV_CTRMAC_HEADER_SIZE,
    .file_size = CTRMAC_FILE_SIZE,
};

static const uint8_t enc[SKRAPNEFJA_KEY_SIZE] = {1};
static const uint8_t mac[SKRAPNEFJA_KEY_SIZE] = {2};

static uint8_t cleartext[CLEAR_SIZE];
static uint8_t opened[CTRMAC_FILE_SIZE]; /* has room for the cleartext of a file of this length in either combo */

static void check(int holds, const char *what)
{
    if (!holds) {
        printf("failed: %s\n", what);
        exit(1);
    }
}

static int all_untouched(const uint8_t *bytes, size_t count)
{
    size_t i;
    for (i = 0; i < count; i++) {
        if (bytes[i] != UNTOUCHED) {
            return 0;
        }
    }
    return 1;
}

static void make_the_vault(struct club_vault *club)
{
    uint64_t length = 0;

    check(skrapnefja_make_vault(enc, sizeof enc, mac, sizeof mac, club->combo, club->threshold, SKRAPNEFJA_VAULT(club->vault),
                                &length) == SKRAPNEFJA_DONE,
          "making the vault");
    check(length == SKRAPNEFJA_VAULT_SIZE, "size of the vault");
    printf("made a vault of %s with the threshold %" PRIu32 "\n", club->combo_name, club->threshold);
}

/*
 * An unknown combo and a threshold outside the limits are refused where a vault is made and where it is lent, the threshold there by
 * the calls on names only. So is a lent vault of another size.
 */
static void refuse_other_vaults(void)
{
    skrapnefja_vault vault;
    uint8_t name[SKRAPNEFJA_NAME_MAX];
    uint64_t length = 99;
    uint64_t at = 77;
    uint32_t row;

    memset(vault.bytes, UNTOUCHED, sizeof vault.bytes);
    row = skrapnefja_make_vault(enc, sizeof enc, mac, sizeof mac, 3, own.threshold, SKRAPNEFJA_VAULT(vault), &length);
    check(row == SKRAPNEFJA_COMBO, "an unknown combo");
    check(length == 99 && all_untouched(vault.bytes, sizeof vault.bytes), "no vault of an unknown combo");
    printf("made a vault of combo 3: refused %" PRIu32 "\n", row);

    row = skrapnefja_make_vault(enc, sizeof enc, mac, sizeof mac, own.combo, SKRAPNEFJA_THRESHOLD_MAX + 1, SKRAPNEFJA_VAULT(vault),
                                &length);
    check(row == SKRAPNEFJA_THRESHOLD, "a threshold outside the limits");
    check(length == 99 && all_untouched(vault.bytes, sizeof vault.bytes), "no vault with such a threshold");
    printf("made a vault with the threshold 221: refused %" PRIu32 "\n", row);

    row = skrapnefja_file_length(SKRAPNEFJA_VAULT(vault), CLEAR_SIZE, &length);
    check(row == SKRAPNEFJA_COMBO && length == 99, "a vault that was not made");
    printf("lent a vault that was not made: refused %" PRIu32 "\n", row);

    row = skrapnefja_file_length(own.vault.bytes, SKRAPNEFJA_VAULT_SIZE - 1, CLEAR_SIZE, &length);
    check(row == SKRAPNEFJA_KEY_OR_NONCE_SIZE && length == 99, "a vault of another size");
    printf("lent a vault of 65 bytes: refused %" PRIu32 "\n", row);

    vault = own.vault;
    vault.bytes[SKRAPNEFJA_VAULT_SIZE - 1] = SKRAPNEFJA_THRESHOLD_MIN - 1;
    row = skrapnefja_open_name(SKRAPNEFJA_VAULT(vault), enc, 0, enc, 0, name, sizeof name, &length, &at);
    check(row == SKRAPNEFJA_THRESHOLD && length == 99 && at == 77, "a vault with another threshold");
    printf("opened a name with the threshold 35: refused %" PRIu32 "\n", row);
}

static void write_the_file(struct club_vault *club)
{
    static const uint8_t header_nonce[SKRAPNEFJA_SIV_CTRMAC_NONCE_SIZE] = {3};
    static const uint8_t content_key[SKRAPNEFJA_KEY_SIZE] = {4};
    static const uint8_t chunk_nonces[2 * SKRAPNEFJA_SIV_CTRMAC_NONCE_SIZE] = {5};
    uint64_t length = 0;
    size_t i;

    for (i = 0; i < CLEAR_SIZE; i++) {
        cleartext[i] = (uint8_t)(i % 251);
    }
    check(skrapnefja_file_length(SKRAPNEFJA_VAULT(club->vault), CLEAR_SIZE, &length) == SKRAPNEFJA_DONE, "telling the length");
    check(length == club->file_size, "length of the file");
    length = 0;
    check(skrapnefja_write_file(SKRAPNEFJA_VAULT(club->vault), header_nonce, club->nonce_size, content_key, sizeof content_key,
                                chunk_nonces, 2 * club->nonce_size, cleartext, sizeof cleartext, club->file,
                                sizeof club->file, &length) == SKRAPNEFJA_DONE,
          "writing the file");
    check(length == club->file_size, "length written");
    printf("wrote a file of %" PRIu64 " bytes in %s\n", length, club->combo_name);
}

static void open_the_file(const struct club_vault *club)
{
    uint64_t length = 0;
    uint64_t at = 77;

    check(skrapnefja_open_file(SKRAPNEFJA_VAULT(club->vault), club->file, club->file_size, opened, sizeof opened, &length, &at)
              == SKRAPNEFJA_DONE,
          "opening the file");
    check(length == CLEAR_SIZE && at == 77 && memcmp(opened, cleartext, CLEAR_SIZE) == 0, "cleartext of the file");
    printf("opened it: %" PRIu64 " bytes\n", length);
}

/* By its length the file could be one of the other combo, but then its header is wrong: row 9. */
static void open_in_the_other_combo(const struct club_vault *club, const struct club_vault *other)
{
    uint64_t length = 99;
    uint64_t at = 77;
    uint32_t row;

    memset(opened, UNTOUCHED, sizeof opened);
    row = skrapnefja_open_file(SKRAPNEFJA_VAULT(other->vault), club->file, club->file_size, opened, sizeof opened, &length, &at);
    check(row == SKRAPNEFJA_HEADER, "a file of the other combo");
    check(length == 99 && at == 77 && all_untouched(opened, sizeof opened), "no cleartext in the other combo");
    printf("opened it as %s: refused %" PRIu32 "\n", other->combo_name, row);
}

static void open_the_header(const struct club_vault *club)
{
    uint8_t content_key[SKRAPNEFJA_KEY_SIZE];
    uint64_t length = 0;
    uint64_t reserved = 0;

    check(skrapnefja_open_header(SKRAPNEFJA_VAULT(club->vault), club->file, club->header_size, content_key, sizeof content_key,
                                 &length, &reserved) == SKRAPNEFJA_DONE,
          "opening the header");
    check(length == SKRAPNEFJA_KEY_SIZE && content_key[0] == 4 && reserved == UINT64_MAX, "what the header says");
    printf("opened its header: reserved bytes %016" PRIx64 "\n", reserved);
}

static void read_ranges(const struct club_vault *club)
{
    uint8_t out[24];
    uint64_t from = SKRAPNEFJA_CHUNK_SIZE - 8;
    uint64_t length = 0;
    uint64_t at = 77;
    uint32_t row;

    memset(out, UNTOUCHED, sizeof out);
    check(skrapnefja_read_range(SKRAPNEFJA_VAULT(club->vault), club->file, club->file_size, from, 16, out, sizeof out, &length,
                                &at) == SKRAPNEFJA_DONE,
          "reading across the border of the chunks");
    check(length == 16 && at == 77 && memcmp(out, cleartext + from, 16) == 0, "bytes of the range");
    check(all_untouched(out + 16, sizeof out - 16), "bytes behind the range");
    printf("read %" PRIu64 " bytes from %" PRIu64 " on\n", length, from);

    memset(out, UNTOUCHED, sizeof out);
    length = 99;
    row = skrapnefja_read_range(SKRAPNEFJA_VAULT(club->vault), club->file, club->file_size, UINT64_MAX, 1, out, sizeof out,
                                &length, &at);
    check(row == SKRAPNEFJA_RANGE, "range far outside");
    check(length == 99 && at == 77 && all_untouched(out, sizeof out), "a refusal changes nothing");
    printf("read 1 byte from %" PRIu64 " on: refused %" PRIu32 "\n", UINT64_MAX, row);
}

static void damage_the_second_chunk(struct club_vault *club)
{
    uint64_t length = 99;
    uint64_t at = 77;
    uint32_t row;

    memset(opened, UNTOUCHED, sizeof opened);
    club->file[club->file_size - 1] ^= 1;
    row = skrapnefja_open_file(SKRAPNEFJA_VAULT(club->vault), club->file, club->file_size, opened, sizeof opened, &length, &at);
    club->file[club->file_size - 1] ^= 1;
    check(row == SKRAPNEFJA_CHUNK && at == 1, "damaged chunk");
    check(length == 99 && all_untouched(opened, sizeof opened), "no cleartext of a damaged file");
    printf("opened it damaged: refused %" PRIu32 " at %" PRIu64 "\n", row, at);
}

static void use_the_vault(struct club_vault *club, const struct club_vault *other)
{
    write_the_file(club);
    open_the_file(club);
    open_the_header(club);
    read_ranges(club);
    damage_the_second_chunk(club);
    open_in_the_other_combo(club, other);
}

static void write_and_open_a_name(void)
{
    static const char name[] = "timetable.txt";
    const size_t name_size = sizeof name - 1;
    const uint8_t *root = enc; /* the root's ID has no bytes, and its address may be any but null */
    uint8_t stored[SKRAPNEFJA_STORED_NAME_MAX];
    uint8_t full[SKRAPNEFJA_FULL_NAME_MAX];
    uint8_t out[SKRAPNEFJA_NAME_MAX];
    uint64_t stored_length = 0;
    uint64_t full_length = 99;
    uint64_t length = 0;
    uint64_t at = 77;

    check(skrapnefja_write_name(SKRAPNEFJA_VAULT(own.vault), root, 0, (const uint8_t *)name, name_size, stored, sizeof stored,
                                full, sizeof full, &stored_length, &full_length) == SKRAPNEFJA_DONE,
          "writing the name");
    check(stored_length == 44 && full_length == 0, "lengths of the name");
    printf("stored %s as %.*s\n", name, (int)stored_length, (const char *)stored);

    check(skrapnefja_open_name(SKRAPNEFJA_VAULT(own.vault), root, 0, stored, (size_t)stored_length, out, sizeof out, &length, &at)
              == SKRAPNEFJA_DONE,
          "opening the name");
    check(length == name_size && at == 77 && memcmp(out, name, name_size) == 0, "the name");
    printf("opened it: %.*s\n", (int)length, (const char *)out);
}

/* What a repair desk shows of a stored name in which a character is wrong: the text, and a mark under the place where it is broken. */
static void show_a_mangled_name(void)
{
    static const char mangled[] = "nA3El8FvIFMAVJ9R?fApweNWPRGHG4cvsPLweok=.c9r";
    uint8_t out[SKRAPNEFJA_NAME_MAX];
    uint64_t length = 99;
    uint64_t at = 77;
    uint32_t row;

    memset(out, UNTOUCHED, sizeof out);
    row = skrapnefja_open_name(SKRAPNEFJA_VAULT(own.vault), enc, 0, (const uint8_t *)mangled, sizeof mangled - 1, out, sizeof out,
                               &length, &at);
    check(row == SKRAPNEFJA_TEXT && at == 16, "a mangled name");
    check(length == 99 && all_untouched(out, sizeof out), "no name of a mangled text");
    printf("opened it mangled: refused %" PRIu32 " at %" PRIu64 "\n    %s\n    %*s\n", row, at, mangled, (int)at + 1, "^");
}

/*
 * In the older vault the same name is shortened. Its full name does not open there as a stored name, and the pair of both does not
 * open where the full name itself is stored.
 */
static void shorten_by_the_threshold(void)
{
    static const uint8_t name[13] = "timetable.txt";
    uint8_t hash[SKRAPNEFJA_STORED_NAME_MAX];
    uint8_t full[SKRAPNEFJA_FULL_NAME_MAX];
    uint8_t out[SKRAPNEFJA_NAME_MAX];
    uint64_t hash_length = 0;
    uint64_t full_length = 0;
    uint64_t length = 0;
    uint64_t at = 77;
    uint32_t row;

    check(skrapnefja_write_name(SKRAPNEFJA_VAULT(older.vault), enc, 0, name, sizeof name, hash, sizeof hash, full, sizeof full,
                                &hash_length, &full_length) == SKRAPNEFJA_DONE,
          "writing the name in the older vault");
    check(hash_length == 32 && full_length == 44, "lengths of the name there");
    check(skrapnefja_open_long_name(SKRAPNEFJA_VAULT(older.vault), enc, 0, hash, (size_t)hash_length, full, (size_t)full_length,
                                    out, sizeof out, &length, &at) == SKRAPNEFJA_DONE,
          "opening it there");
    check(length == sizeof name && memcmp(out, name, sizeof name) == 0, "the name there");
    printf("with the threshold %" PRIu32 " it is stored as %.*s\n", older.threshold, (int)hash_length, (const char *)hash);

    row = skrapnefja_open_name(SKRAPNEFJA_VAULT(older.vault), enc, 0, full, (size_t)full_length, out, sizeof out, &length, &at);
    check(row == SKRAPNEFJA_TEXT && at == 32, "a full name over the threshold");
    printf("opened its full name there: refused %" PRIu32 " at %" PRIu64 "\n", row, at);
    row = skrapnefja_open_long_name(SKRAPNEFJA_VAULT(own.vault), enc, 0, hash, (size_t)hash_length, full, (size_t)full_length, out,
                                    sizeof out, &length, &at);
    check(row == SKRAPNEFJA_HASH_NAME, "a full name that is not shortened");
    printf("opened both with the threshold %" PRIu32 ": refused %" PRIu32 "\n", own.threshold, row);
}

/* A name with a byte that is not UTF-8 is refused, and nothing is stored. */
static void refuse_a_stray_byte(void)
{
    static const uint8_t name[] = {'l', 'o', 'g', 0xFF};
    uint8_t stored[SKRAPNEFJA_STORED_NAME_MAX];
    uint8_t full[SKRAPNEFJA_FULL_NAME_MAX];
    uint64_t length = 99;
    uint64_t full_length = 99;
    uint32_t row;

    memset(stored, UNTOUCHED, sizeof stored);
    memset(full, UNTOUCHED, sizeof full);
    row = skrapnefja_write_name(SKRAPNEFJA_VAULT(own.vault), enc, 0, name, sizeof name, stored, sizeof stored, full, sizeof full,
                                &length, &full_length);
    check(row == SKRAPNEFJA_NAME, "a name with a stray byte");
    check(length == 99 && full_length == 99 && all_untouched(stored, sizeof stored) && all_untouched(full, sizeof full),
          "nothing is stored for it");
    printf("wrote a name with a stray byte: refused %" PRIu32 "\n", row);
}

/* A long name is stored as its hash name; its full name is kept beside that, and both are needed to open it. */
static void write_and_open_a_long_name(void)
{
    static const uint8_t letter[] = {0xE1, 0x83, 0x90}; /* a letter of the Georgian alphabet, U+10D0, in UTF-8 */
    uint8_t name[100 * sizeof letter];
    uint8_t stored[SKRAPNEFJA_STORED_NAME_MAX];
    uint8_t full[SKRAPNEFJA_FULL_NAME_MAX];
    uint8_t out[SKRAPNEFJA_NAME_MAX];
    uint64_t stored_length = 0;
    uint64_t full_length = 0;
    uint64_t length = 0;
    uint64_t at = 77;
    size_t i;

    for (i = 0; i < sizeof name; i++) {
        name[i] = letter[i % sizeof letter];
    }
    check(skrapnefja_write_name(SKRAPNEFJA_VAULT(own.vault), enc, 0, name, sizeof name, stored, sizeof stored, full, sizeof full,
                                &stored_length, &full_length) == SKRAPNEFJA_DONE,
          "writing the long name");
    check(stored_length == 32 && full_length == 428, "lengths of the long name");
    printf("stored a name of 100 letters as %.*s\n", (int)stored_length, (const char *)stored);

    check(skrapnefja_open_long_name(SKRAPNEFJA_VAULT(own.vault), enc, 0, stored, (size_t)stored_length, full,
                                    (size_t)full_length, out, sizeof out, &length, &at) == SKRAPNEFJA_DONE,
          "opening the long name");
    check(length == sizeof name && memcmp(out, name, sizeof name) == 0, "the long name");
    printf("opened it: %" PRIu64 " bytes\n", length);
}

int main(void)
{
    make_the_vault(&own);
    make_the_vault(&older);
    refuse_other_vaults();
    use_the_vault(&own, &older);
    use_the_vault(&older, &own);
    write_and_open_a_name();
    show_a_mangled_name();
    shorten_by_the_threshold();
    write_and_open_a_long_name();
    refuse_a_stray_byte();
    return 0;
}
