/*
 * Keeps a log of three chunks open, in a vault of each combo, and pages through it for handsets, 200 bytes a page: the header is
 * opened once, and not for each page. Then it has reads past the end refused, and a file with a damaged header. Ends with status 0 if
 * all is as expected.
 * The keys and the nonces are fixed here so that each run prints the same; a real program gets the master keys as unlock.c does,
 * draws the content key and the nonces from a random generator, and wipes keys, vaults and readers when done.
 */
#include <inttypes.h>
#include <stdint.h>
#include <stdio.h>
#include <stdlib.h>
#include <string.h>

#include "skrapnefja.h"

#define LINES 1877 /* one for each minute */
#define LINE_SIZE 40
#define LOG_SIZE (LINES * LINE_SIZE) /* two whole chunks, and a third of 9,544 bytes */
#define CHUNKS 3
#define FILE_MAX (SKRAPNEFJA_SIV_CTRMAC_HEADER_SIZE + LOG_SIZE + CHUNKS * SKRAPNEFJA_SIV_CTRMAC_CHUNK_OVERHEAD)

#define PAGE_SIZE 200 /* five lines */
#define BORDER_PAGE (SKRAPNEFJA_CHUNK_SIZE / PAGE_SIZE) /* the page across the border of the first two chunks */
#define LAST_PAGE (LOG_SIZE / PAGE_SIZE)                /* the last page, of two lines */
#define UNTOUCHED 0xA5

/* A vault of a combo, and the file of the log in it. */
struct club_vault {
    const char *combo_name;
    uint32_t combo;
    size_t nonce_size;
    skrapnefja_vault vault;
    size_t file_size;
    uint8_t file[FILE_MAX];
};

static struct club_vault own = {
    .combo_name = "SIV_GCM",
    .combo = SKRAPNEFJA_SIV_GCM,
    .nonce_size = SKRAPNEFJA_SIV_GCM_NONCE_SIZE,
};
static struct club_vault older = {
    .combo_name = "SIV_CTRMAC",
    .combo = SKRAPNEFJA_SIV_CTRMAC,
    .nonce_size = SKRAPNEFJA_SIV_CTRMAC_NONCE_SIZE,
};

static uint8_t cleartext[LOG_SIZE];

static void check(int holds, const char *what)
{
    if (!holds) {
        printf("failed: %s\n", what);
        exit(1);
    }
}

static void write_the_line(unsigned number)
{
    char line[64];

    snprintf(line, sizeof line, "day %u %02u:%02u train %u leaves halt %u for %u\n", number / 1440 + 1, number / 60 % 24, number % 60,
             number % 7 + 1, number % 4 + 1, (number + 1) % 4 + 1);
    check(strlen(line) == LINE_SIZE, "size of a line");
    memcpy(cleartext + number * LINE_SIZE, line, LINE_SIZE);
}

static void write_the_log(void)
{
    unsigned number;

    for (number = 0; number < LINES; number++) {
        write_the_line(number);
    }
}

static void make_the_vault(struct club_vault *club)
{
    static const uint8_t enc[SKRAPNEFJA_KEY_SIZE] = {1};
    static const uint8_t mac[SKRAPNEFJA_KEY_SIZE] = {2};
    uint64_t length = 0;

    check(skrapnefja_make_vault(enc, sizeof enc, mac, sizeof mac, club->combo, SKRAPNEFJA_THRESHOLD_MAX,
                                SKRAPNEFJA_VAULT(club->vault), &length) == SKRAPNEFJA_DONE,
          "making the vault");
}

static void write_the_file(struct club_vault *club)
{
    static const uint8_t content_key[SKRAPNEFJA_KEY_SIZE] = {3};
    uint8_t header_nonce[SKRAPNEFJA_SIV_CTRMAC_NONCE_SIZE];
    uint8_t chunk_nonces[CHUNKS * SKRAPNEFJA_SIV_CTRMAC_NONCE_SIZE];
    uint64_t length = 0;
    size_t i;

    memset(header_nonce, 4, club->nonce_size);
    for (i = 0; i < CHUNKS; i++) {
        memset(chunk_nonces + i * club->nonce_size, 5 + (int)i, club->nonce_size);
    }
    check(skrapnefja_write_file(SKRAPNEFJA_VAULT(club->vault), header_nonce, club->nonce_size, content_key, sizeof content_key,
                                chunk_nonces, CHUNKS * club->nonce_size, cleartext, sizeof cleartext, club->file,
                                sizeof club->file, &length) == SKRAPNEFJA_DONE,
          "writing the file");
    club->file_size = (size_t)length;
    printf("wrote a log of %d bytes in %s: a file of %" PRIu64 "\n", LOG_SIZE, club->combo_name, length);
}

/* The reader points into the file, which has to stay where it is. */
static skrapnefja_reader open_the_log(const struct club_vault *club)
{
    skrapnefja_reader log = {club->file, club->file_size, {0}};
    uint64_t length = 0;

    check(skrapnefja_open_reader(SKRAPNEFJA_VAULT(club->vault), SKRAPNEFJA_READER(log), &length) == SKRAPNEFJA_DONE,
          "opening the log");
    check(length == LOG_SIZE, "length of the log");
    return log;
}

/* Reads a page: writes it, and returns its size. All pages but the last are whole. */
static size_t read_page(const skrapnefja_reader *log, unsigned number, uint8_t *page)
{
    uint64_t from = number * PAGE_SIZE;
    uint64_t count = number < LAST_PAGE ? PAGE_SIZE : LOG_SIZE - from;
    uint64_t length = 0;
    uint64_t at = 77;

    check(skrapnefja_reader_read(SKRAPNEFJA_READER(*log), from, count, page, PAGE_SIZE, &length, &at) == SKRAPNEFJA_DONE,
          "reading a page");
    check(length == count && at == 77, "size of a page");
    check(memcmp(page, cleartext + from, (size_t)count) == 0, "a page of the log");
    return (size_t)length;
}

static void show_page(const skrapnefja_reader *log, unsigned number)
{
    uint8_t page[PAGE_SIZE];
    size_t size = read_page(log, number, page);

    printf("page %u, %zu bytes:\n%.*s", number, size, (int)size, (const char *)page);
}

/* One handset pages forwards, another backwards, through the same reader. */
static void page_through(const skrapnefja_reader *log)
{
    uint8_t page[PAGE_SIZE];
    unsigned number;

    for (number = 0; number <= LAST_PAGE; number++) {
        read_page(log, number, page);
        read_page(log, LAST_PAGE - number, page);
    }
    printf("read %d pages forwards, and backwards\n", LAST_PAGE + 1);
}

/* Makes a read that is refused and writes nothing. Returns the row. */
static uint32_t refused_read(const skrapnefja_reader *log, uint64_t from, uint64_t count)
{
    uint8_t page[PAGE_SIZE];
    uint8_t old_page[PAGE_SIZE];
    uint64_t length = 99;
    uint64_t at = 77;
    uint32_t row;

    memset(page, UNTOUCHED, sizeof page);
    memset(old_page, UNTOUCHED, sizeof old_page);
    row = skrapnefja_reader_read(SKRAPNEFJA_READER(*log), from, count, page, sizeof page, &length, &at);
    check(length == 99 && at == 77 && memcmp(page, old_page, sizeof page) == 0, "a refusal writes nothing");
    return row;
}

/* By far, where start and count add up to more than 64 bits hold, and by the bytes that the last page lacks. */
static void refuse_to_pass_the_end(const skrapnefja_reader *log)
{
    uint64_t from = UINT64_MAX - PAGE_SIZE / 2;
    uint32_t row = refused_read(log, from, PAGE_SIZE);

    check(row == SKRAPNEFJA_RANGE, "a range far outside");
    printf("read a page from %" PRIu64 " on: refused %" PRIu32 "\n", from, row);
    check(refused_read(log, LAST_PAGE * PAGE_SIZE, PAGE_SIZE) == SKRAPNEFJA_RANGE, "a range that ends outside");
}

/* Opened again with its header damaged, the file has the reader of no bytes, through which nothing is read. */
static void refuse_the_damaged_file(struct club_vault *club, skrapnefja_reader *log)
{
    uint64_t length = 99;
    uint32_t row;

    club->file[0] ^= 1;
    row = skrapnefja_open_reader(SKRAPNEFJA_VAULT(club->vault), SKRAPNEFJA_READER(*log), &length);
    check(row == SKRAPNEFJA_HEADER && length == 99, "a damaged header");
    printf("opened it with a damaged header: refused %" PRIu32 "\n", row);

    check(refused_read(log, 0, 0) == SKRAPNEFJA_LENGTH, "no bytes of no bytes");
    check(refused_read(log, UINT64_MAX, PAGE_SIZE) == SKRAPNEFJA_LENGTH, "a page outside of no bytes");
    row = refused_read(log, 0, PAGE_SIZE);
    check(row == SKRAPNEFJA_LENGTH, "a page of no bytes");
    printf("read a page of that: refused %" PRIu32 "\n", row);
}

static void use_the_vault(struct club_vault *club)
{
    skrapnefja_reader log;

    make_the_vault(club);
    write_the_file(club);
    log = open_the_log(club);
    show_page(&log, BORDER_PAGE);
    show_page(&log, LAST_PAGE);
    page_through(&log);
    refuse_to_pass_the_end(&log);
    refuse_the_damaged_file(club, &log);
}

int main(void)
{
    write_the_log();
    use_the_vault(&own);
    use_the_vault(&older);
    return 0;
}
