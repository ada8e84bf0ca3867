/*
 * Corrects a time in a log in place, in a vault of each combo: of the three chunks of the file only the two that have some of the
 * time are sealed again. Then it has mends refused, and mends beside a damaged chunk. Ends with status 0 if all is as expected.
 * The keys and the nonces are fixed here so that each run prints the same; a real program gets the master keys as unlock.c does,
 * draws the content key and the nonces from a random generator, and wipes keys and vaults when done.
 */
#include <inttypes.h>
#include <stdint.h>
#include <stdio.h>
#include <stdlib.h>
#include <string.h>

#include "skrapnefja.h"

#define LINES 2500   /* one for each minute */
#define LINE_SIZE 30
#define TIME_PLACE 6 /* where the time is in a line */
#define TIME_SIZE 5
#define LOG_SIZE (LINES * LINE_SIZE) /* two whole chunks, and a third of 9,464 bytes */
#define CHUNKS 3
#define FILE_MAX (SKRAPNEFJA_SIV_CTRMAC_HEADER_SIZE + LOG_SIZE + CHUNKS * SKRAPNEFJA_SIV_CTRMAC_CHUNK_OVERHEAD)

/* The line whose time stands across the border of the first two chunks, and the place of that time. */
#define WRONG_LINE 1092
#define WRONG_PLACE (WRONG_LINE * LINE_SIZE + TIME_PLACE)

/* A vault with the sizes of its combo, and the file of the log in it. */
struct club_vault {
    const char *combo_name;
    uint32_t combo;
    size_t nonce_size;
    size_t header_size;
    size_t chunk_overhead;
    skrapnefja_vault vault;
    size_t file_size;
    uint8_t file[FILE_MAX];
};

static struct club_vault own = {
    .combo_name = "SIV_GCM",
    .combo = SKRAPNEFJA_SIV_GCM,
    .nonce_size = SKRAPNEFJA_SIV_GCM_NONCE_SIZE,
    .header_size = SKRAPNEFJA_SIV_GCM_HEADER_SIZE,
    .chunk_overhead = SKRAPNEFJA_SIV_GCM_CHUNK_OVERHEAD,
};
static struct club_vault older = {
    .combo_name = "SIV_CTRMAC",
    .combo = SKRAPNEFJA_SIV_CTRMAC,
    .nonce_size = SKRAPNEFJA_SIV_CTRMAC_NONCE_SIZE,
    .header_size = SKRAPNEFJA_SIV_CTRMAC_HEADER_SIZE,
    .chunk_overhead = SKRAPNEFJA_SIV_CTRMAC_CHUNK_OVERHEAD,
};

/* The halt's clock had stopped. */
static const uint8_t wrong_time[TIME_SIZE] = {'0', '9', ':', '4', '7'};
static const uint8_t right_time[TIME_SIZE] = {'1', '8', ':', '1', '2'};

static uint8_t cleartext[LOG_SIZE];
static uint8_t opened[LOG_SIZE];
static uint8_t old_file[FILE_MAX];

static void check(int holds, const char *what)
{
    if (!holds) {
        printf("failed: %s\n", what);
        exit(1);
    }
}

/* Writes nonces one after the other, each of a byte all over: the first of them `first`, the next one more, and so on. */
static void make_nonces(const struct club_vault *club, uint8_t first, size_t count, uint8_t *nonces)
{
    size_t i;
    for (i = 0; i < count; i++) {
        memset(nonces + i * club->nonce_size, first + (int)i, club->nonce_size);
    }
}

/* Where chunk `number` starts in the file, and where the file ends if there is none. */
static size_t chunk_start(const struct club_vault *club, size_t number)
{
    size_t start = club->header_size + (SKRAPNEFJA_CHUNK_SIZE + club->chunk_overhead) * number;
    return start < club->file_size ? start : club->file_size;
}

/* The file before a mend. */
static void keep_the_file(const struct club_vault *club)
{
    memcpy(old_file, club->file, club->file_size);
}

static int same_bytes(const struct club_vault *club, size_t start, size_t end)
{
    return memcmp(club->file + start, old_file + start, end - start) == 0;
}

static void write_the_line(unsigned number)
{
    char line[64];

    snprintf(line, sizeof line, "day %u %02u:%02u train %u at halt %u\n", number / 1440 + 1, number / 60 % 24, number % 60,
             number % 7 + 1, number % 4 + 1);
    check(strlen(line) == LINE_SIZE, "size of a line");
    memcpy(cleartext + number * LINE_SIZE, line, LINE_SIZE);
}

static void write_the_log(void)
{
    unsigned number;

    for (number = 0; number < LINES; number++) {
        write_the_line(number);
    }
    memcpy(cleartext + WRONG_PLACE, wrong_time, TIME_SIZE);
}

static void make_the_vault(struct club_vault *club)
{
    static const uint8_t enc[SKRAPNEFJA_KEY_SIZE] = {1};
    static const uint8_t mac[SKRAPNEFJA_KEY_SIZE] = {2};
    uint64_t length = 0;

    check(skrapnefja_make_vault(enc, sizeof enc, mac, sizeof mac, club->combo, SKRAPNEFJA_THRESHOLD_MAX,
                                SKRAPNEFJA_VAULT(club->vault), &length) == SKRAPNEFJA_DONE,
          "making the vault");
}

static void write_the_file(struct club_vault *club)
{
    static const uint8_t content_key[SKRAPNEFJA_KEY_SIZE] = {3};
    uint8_t header_nonce[SKRAPNEFJA_SIV_CTRMAC_NONCE_SIZE];
    uint8_t chunk_nonces[CHUNKS * SKRAPNEFJA_SIV_CTRMAC_NONCE_SIZE];
    uint64_t length = 0;

    make_nonces(club, 4, 1, header_nonce);
    make_nonces(club, 5, CHUNKS, chunk_nonces);
    check(skrapnefja_write_file(SKRAPNEFJA_VAULT(club->vault), header_nonce, club->nonce_size, content_key, sizeof content_key,
                                chunk_nonces, CHUNKS * club->nonce_size, cleartext, sizeof cleartext, club->file,
                                sizeof club->file, &length) == SKRAPNEFJA_DONE,
          "writing the file");
    club->file_size = (size_t)length;
    printf("wrote a log of %d bytes in %s: a file of %" PRIu64 "\n", LOG_SIZE, club->combo_name, length);
}

static void show_the_line(const struct club_vault *club)
{
    uint8_t line[LINE_SIZE];
    uint64_t length = 0;
    uint64_t at = 77;

    check(skrapnefja_read_range(SKRAPNEFJA_VAULT(club->vault), club->file, club->file_size, WRONG_LINE * LINE_SIZE, LINE_SIZE, line,
                                sizeof line, &length, &at) == SKRAPNEFJA_DONE,
          "reading the line");
    printf("    %.*s", LINE_SIZE, (const char *)line);
}

/* How many nonces a mend takes: one for each chunk that has some of the bytes, whatever their place. */
static void count_the_nonces(void)
{
    check(SKRAPNEFJA_COVERING_CHUNKS(WRONG_PLACE, TIME_SIZE) == 2, "two chunks have some of the time");
    check(SKRAPNEFJA_COVERING_CHUNKS(WRONG_PLACE + TIME_SIZE, TIME_SIZE) == 1, "one chunk has what follows");
    check(SKRAPNEFJA_COVERING_CHUNKS(UINT64_MAX, 2) == 2, "the place does not wrap");
    check(SKRAPNEFJA_COVERING_CHUNKS(WRONG_PLACE, 0) == 0, "no chunk has no bytes");
}

/* A mend in the first two chunks, with a new nonce for each. */
static void mend_the_time(struct club_vault *club)
{
    uint8_t nonces[2 * SKRAPNEFJA_SIV_CTRMAC_NONCE_SIZE];
    uint64_t length = 0;
    uint64_t at = 77;

    keep_the_file(club);
    make_nonces(club, 8, 2, nonces);
    check(skrapnefja_mend(SKRAPNEFJA_VAULT(club->vault), club->file, club->file_size, WRONG_PLACE, right_time, TIME_SIZE, nonces,
                          2 * club->nonce_size, &length, &at) == SKRAPNEFJA_DONE,
          "mending the time");
    check(length == TIME_SIZE && at == 77, "length of the mend");
    memcpy(cleartext + WRONG_PLACE, right_time, TIME_SIZE);
}

static void open_the_file(const struct club_vault *club)
{
    uint64_t length = 0;
    uint64_t at = 77;

    check(skrapnefja_open_file(SKRAPNEFJA_VAULT(club->vault), club->file, club->file_size, opened, sizeof opened, &length, &at)
              == SKRAPNEFJA_DONE,
          "opening the mended file");
    check(length == LOG_SIZE && memcmp(opened, cleartext, LOG_SIZE) == 0, "the log with the right time");
}

/* Only the first two chunks differ from what they were: they are what has to be stored again. */
static void compare_the_files(const struct club_vault *club)
{
    check(same_bytes(club, 0, chunk_start(club, 0)), "the same header");
    check(!same_bytes(club, chunk_start(club, 0), chunk_start(club, 1)), "another first chunk");
    check(!same_bytes(club, chunk_start(club, 1), chunk_start(club, 2)), "another second chunk");
    check(same_bytes(club, chunk_start(club, 2), club->file_size), "the same third chunk");
    printf("mended it: bytes %zu to %zu of the file are stored again\n", chunk_start(club, 0), chunk_start(club, 2) - 1);
}

/* Makes a mend that is refused and leaves the file as it was. Returns the row. */
static uint32_t refused_mend(struct club_vault *club, uint64_t from, uint8_t first_nonce, size_t nonce_count, uint64_t *at)
{
    uint8_t nonces[2 * SKRAPNEFJA_SIV_CTRMAC_NONCE_SIZE];
    uint64_t length = 99;
    uint32_t row;

    keep_the_file(club);
    make_nonces(club, first_nonce, nonce_count, nonces);
    row = skrapnefja_mend(SKRAPNEFJA_VAULT(club->vault), club->file, club->file_size, from, right_time, TIME_SIZE, nonces,
                          nonce_count * club->nonce_size, &length, at);
    check(length == 99 && same_bytes(club, 0, club->file_size), "a refusal changes nothing");
    return row;
}

/* The third chunk has the nonce already, and the mend is one of the first. */
static void refuse_a_used_nonce(struct club_vault *club)
{
    uint64_t at = 77;
    uint32_t row = refused_mend(club, 0, 7, 1, &at);

    check(row == SKRAPNEFJA_REPEATED_NONCE && at == 77, "a used nonce");
    printf("mended it with a used nonce: refused %" PRIu32 "\n", row);
}

/* By one byte, and by far. The nonces are counted by the range alone: that of 5 bytes from 2^64 - 1 on covers two chunks. */
static void refuse_to_pass_the_end(struct club_vault *club)
{
    uint64_t at = 77;
    uint32_t row = refused_mend(club, LOG_SIZE - TIME_SIZE + 1, 10, 1, &at);

    check(row == SKRAPNEFJA_RANGE && at == 77, "a range one byte past the end");
    row = refused_mend(club, UINT64_MAX, 10, 2, &at);
    check(row == SKRAPNEFJA_RANGE && at == 77, "a range far outside");
    printf("mended it from %" PRIu64 " on: refused %" PRIu32 "\n", UINT64_MAX, row);
}

/* With the third chunk damaged, the time in the first line can be mended. */
static void mend_the_first_chunk(struct club_vault *club)
{
    static const uint8_t first_time[TIME_SIZE] = {'0', '0', ':', '0', '1'};
    uint8_t nonce[SKRAPNEFJA_SIV_CTRMAC_NONCE_SIZE];
    uint8_t out[TIME_SIZE];
    uint64_t length = 0;
    uint64_t at = 77;

    make_nonces(club, 10, 1, nonce);
    check(skrapnefja_mend(SKRAPNEFJA_VAULT(club->vault), club->file, club->file_size, TIME_PLACE, first_time, TIME_SIZE, nonce,
                          club->nonce_size, &length, &at) == SKRAPNEFJA_DONE,
          "mending beside a damaged chunk");
    check(length == TIME_SIZE && at == 77, "length of that mend");
    check(skrapnefja_read_range(SKRAPNEFJA_VAULT(club->vault), club->file, club->file_size, TIME_PLACE, TIME_SIZE, out, sizeof out,
                                &length, &at) == SKRAPNEFJA_DONE,
          "reading it back");
    check(memcmp(out, first_time, TIME_SIZE) == 0, "the time in the first line");
    printf("mended it with the third chunk damaged: the first line has %.*s\n", TIME_SIZE, (const char *)out);
}

static void refuse_the_third_chunk(struct club_vault *club)
{
    uint64_t at = 77;
    uint32_t row = refused_mend(club, 2 * SKRAPNEFJA_CHUNK_SIZE, 11, 1, &at);

    check(row == SKRAPNEFJA_CHUNK && at == 2, "a damaged chunk");
    printf("mended its third chunk: refused %" PRIu32 " at %" PRIu64 "\n", row, at);
}

static void use_the_vault(struct club_vault *club)
{
    write_the_log();
    make_the_vault(club);
    write_the_file(club);
    show_the_line(club);
    mend_the_time(club);
    show_the_line(club);
    open_the_file(club);
    compare_the_files(club);
    refuse_a_used_nonce(club);
    refuse_to_pass_the_end(club);
    club->file[club->file_size - 1] ^= 1;
    mend_the_first_chunk(club);
    refuse_the_third_chunk(club);
}

int main(void)
{
    count_the_nonces();
    use_the_vault(&own);
    use_the_vault(&older);
    return 0;
}
