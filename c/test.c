/* Runs each call from C: the small cases of paper 01, each refusal, and what each leaves behind.
 * Prints each difference, and ends with status 1 where there is one. */
#include "nalfipode.h"

#include <stdio.h>
#include <string.h>

enum { GUARD = 0xA5 };

static int checks = 0;
static int failures = 0;

static void same(const char *what, uint32_t got, uint32_t wanted)
{
    checks++;
    if (got != wanted) {
        failures++;
        fprintf(stderr, "%s: %u, and not %u\n", what, got, wanted);
    }
}

static void same_words(const char *what, const uint32_t *got, const uint32_t *wanted, size_t n)
{
    for (size_t i = 0; i < n; i++) {
        char place[128];
        snprintf(place, sizeof place, "%s, word %zu", what, i);
        same(place, got[i], wanted[i]);
    }
}

static void same_bytes(const char *what, const uint8_t *got, const uint8_t *wanted, size_t n)
{
    for (size_t i = 0; i < n; i++) {
        char place[128];
        snprintf(place, sizeof place, "%s, byte %zu", what, i);
        same(place, got[i], wanted[i]);
    }
}

/* ---- keys as text, "0110" */

struct key {
    uint32_t width;
    uint32_t words[4];
};

static struct key key_of(const char *bits)
{
    struct key k = {0, {0, 0, 0, 0}};
    for (; bits[k.width] != 0; k.width++)
        if (bits[k.width] == '1')
            k.words[k.width / 32] |= UINT32_C(0x80000000) >> (k.width % 32);
    return k;
}

/* ---- a table with room for `records`, and the last call's trail and values */

static uint32_t table[NALFIPODE_TABLE_WORDS(NALFIPODE_MOST_RECORDS) + 8];
static size_t words;
static uint8_t trail[NALFIPODE_TRAIL_BYTES];
static uint32_t values[5];

static void lent(void)
{
    memset(trail, GUARD, sizeof trail);
    memset(values, 0xFF, sizeof values);
}

static void fresh(uint32_t records)
{
    words = NALFIPODE_TABLE_WORDS(records);
    same("fresh", nalfipode_fresh(table, words), NALFIPODE_OK);
    same("audit of a fresh table", nalfipode_audit(table, words, values), NALFIPODE_OK);
    same("audit of a fresh table, yes", values[0], 1);
}

static void trail_is(const char *what, const char *widths)
{
    uint8_t wanted[NALFIPODE_TRAIL_BYTES];
    size_t n = strlen(widths);
    memset(wanted, GUARD, sizeof wanted);
    for (size_t i = 0; i < n; i++)
        wanted[i] = (uint8_t)(widths[i] - '0');
    same(what, values[0], (uint32_t)n);
    same_bytes(what, trail, wanted, sizeof wanted);
}

static void store(const char *bits, uint32_t zone, uint32_t number, const char *widths, uint32_t replaced,
                  uint32_t old)
{
    struct key k = key_of(bits);
    lent();
    same(bits, nalfipode_store(table, words, k.width, k.words, zone, trail, sizeof trail, values), number);
    trail_is(bits, widths);
    same("replaced", values[1], replaced);
    same("old number", values[2], old);
    same("audit after a store", nalfipode_audit(table, words, values), NALFIPODE_OK);
    same("audit after a store, yes", values[0], 1);
}

static void take(const char *bits, uint32_t number, const char *widths, uint32_t zone)
{
    struct key k = key_of(bits);
    lent();
    same(bits, nalfipode_remove(table, words, k.width, k.words, trail, sizeof trail, values), number);
    trail_is(bits, widths);
    same("number taken out", values[1], zone);
    same("audit after a remove", nalfipode_audit(table, words, values), NALFIPODE_OK);
    same("audit after a remove, yes", values[0], 1);
}

static void fetch(const char *bits, uint32_t number, const char *widths, uint32_t zone)
{
    struct key k = key_of(bits);
    lent();
    same(bits, nalfipode_fetch(table, words, k.width, k.words, trail, sizeof trail, values), number);
    trail_is(bits, widths);
    same("stored number", values[1], zone);
}

static void match(const char *bits, const char *widths, uint32_t found, uint32_t width, uint32_t zone)
{
    struct key k = key_of(bits);
    lent();
    same(bits, nalfipode_longest_match(table, words, k.width, k.words, trail, sizeof trail, values), NALFIPODE_OK);
    trail_is(bits, widths);
    same("found", values[1], found);
    same("width of the match", values[2], width);
    same("number of the match", values[3], zone);
}

/* ---- the small cases */

static void set_a(void)
{
    fresh(8);
    store("00", 10, NALFIPODE_OK, "", 0, 0);
    store("01", 20, NALFIPODE_OK, "2", 0, 0);
    store("0110", 30, NALFIPODE_OK, "12", 0, 0);
}

static void m2_to_m6(void)
{
    set_a();
    match("0111", "124", 1, 2, 20);
    match("0101", "12", 1, 2, 20);
    match("1", "1", 0, 0, 0);
    match("", "1", 0, 0, 0);
    match("0110", "124", 1, 4, 30);
    fetch("01", NALFIPODE_OK, "12", 20);
    fetch("0", NALFIPODE_ABSENT, "1", 0);
    fetch("1", NALFIPODE_ABSENT, "1", 0);
    store("01", 21, NALFIPODE_OK, "12", 1, 20);
    store("01", 20, NALFIPODE_OK, "12", 1, 21);
    take("1", NALFIPODE_ABSENT, "1", 0);
    take("00", NALFIPODE_OK, "12", 10);
    match("0111", "24", 1, 2, 20);
    take("00", NALFIPODE_ABSENT, "2", 0);
}

static void m7_and_m8(void)
{
    fresh(2);
    store("0", 1, NALFIPODE_OK, "", 0, 0);
    store("10", 2, NALFIPODE_FULL, "1", 0, 0);
    store("00", 3, NALFIPODE_OK, "1", 0, 0);
    store("0", 4, NALFIPODE_OK, "1", 1, 1);
    fresh(3);
    store("0", 1, NALFIPODE_OK, "", 0, 0);
    store("10", 2, NALFIPODE_OK, "1", 0, 0);
    store("", 3, NALFIPODE_OK, "0", 0, 0);
    store("11", 4, NALFIPODE_FULL, "02", 0, 0);
}

static void m9(void)
{
    uint32_t out[14];
    uint32_t first[14] = {0, 0, 0, 0, 2, 10, 0x40000000, 0, 0, 0, 2, 20, 77, 77};
    uint32_t second[14] = {0x60000000, 0, 0, 0, 4, 30, 77, 77, 77, 77, 77, 77, 77, 77};
    uint32_t counts[2][3] = {{2, 1, 3}, {1, 0, 3}};
    struct key none = key_of("");
    struct key k = key_of("01");
    set_a();
    for (size_t i = 0; i < 14; i++)
        out[i] = 77;
    same("first slice", nalfipode_slice(table, words, 0, none.width, none.words, 2, out, 12, values), NALFIPODE_OK);
    same_words("first slice", out, first, 14);
    same_words("first slice's values", values, counts[0], 3);
    for (size_t i = 0; i < 14; i++)
        out[i] = 77;
    same("second slice", nalfipode_slice(table, words, 1, k.width, k.words, 2, out, 12, values), NALFIPODE_OK);
    same_words("second slice", out, second, 14);
    same_words("second slice's values", values, counts[1], 3);
}

static uint32_t every_other(const uint32_t cell[5], uint32_t first)
{
    uint32_t number = 0;
    for (uint32_t i = 0; i < 32; i++) {
        uint32_t at = 2 * i + first;
        number = number * 2 + (cell[at / 32] >> (31 - at % 32) & 1);
    }
    return number;
}

static void cell(int32_t longitude, int32_t latitude, uint32_t column, uint32_t row)
{
    same("cell", nalfipode_cell(longitude, latitude, values), NALFIPODE_OK);
    same("column", every_other(values, 0), column);
    same("row", every_other(values, 1), row);
    same("cell, word 2", values[2], 0);
    same("cell, word 3", values[3], 0);
    same("cell, width", values[4], 64);
}

static void outside(int32_t longitude, int32_t latitude)
{
    uint32_t zeros[5] = {0, 0, 0, 0, 0};
    lent();
    same("outside", nalfipode_cell(longitude, latitude, values), NALFIPODE_BAD_POSITION);
    same_words("outside", values, zeros, 5);
}

static void m10_to_m12(void)
{
    cell(-1, 0, 2147483646, 2147483648);
    cell(1, 0, 2147483649, 2147483648);
    cell(0, -1, 2147483648, 2147483645);
    cell(0, 1, 2147483648, 2147483650);
    cell(0, 0, 2147483648, 2147483648);
    same("cell of 0, 0", values[0], 0xC0000000);
    cell(1800000000, 900000000, 4294967295, 4294967295);
    cell(-1800000000, -900000000, 0, 0);
    outside(1800000001, 0);
    outside(-1800000001, 0);
    outside(0, 900000001);
    outside(0, -900000001);
    outside(INT32_MIN, INT32_MAX);
}

/* ---- images */

/* "Whole example: one prefix, bit 0, zone 5, epoch 0." */
enum { WHOLE = 179, ROOM = 256 };

static const uint8_t whole_image[WHOLE + 1] =
    "\x00\x00\x11\x00\x00\x01"
    "\x00\x00\x00\x00\x00\x00\x00\x00\x00\x00\x00\x00\x00\x00\x00\x00"
    "\xC1\x05"
    "\xAB\xCD\xEF" "MaxMind.com"
    "\xE7"
    "\x4A" "node_count" "\xC1\x01"
    "\x4B" "record_size" "\xA1\x18"
    "\x4A" "ip_version" "\xA1\x06"
    "\x4D" "database_type" "\x4C" "Ground-Cells"
    "\x5B" "binary_format_major_version" "\xA1\x02"
    "\x5B" "binary_format_minor_version" "\xA0"
    "\x4B" "build_epoch" "\x00\x02";

static uint8_t written[ROOM];

/* Writes the table's image of an epoch into the first `room` bytes. */
static void image(size_t n, uint64_t epoch, size_t room, uint32_t number, uint64_t length)
{
    uint64_t size[1] = {UINT64_MAX};
    memset(written, GUARD, sizeof written);
    same("image", nalfipode_image_write(table, n, epoch, written, room, size), number);
    same("image's length", (uint32_t)size[0], (uint32_t)length);
    same("image's length, upper half", (uint32_t)(size[0] >> 32), 0);
    for (size_t i = number == NALFIPODE_OK ? length : 0; i < sizeof written; i++)
        same("output left", written[i], GUARD);
}

static void look(const uint8_t *bytes, size_t n, uint32_t first, uint32_t number, uint32_t found, uint32_t zone)
{
    uint32_t key[4] = {first, 0, 0, 0};
    lent();
    same("look", nalfipode_image_look(bytes, n, key, values), number);
    same("data found", values[0], found);
    same("zone found", values[1], zone);
}

static void describe(const uint8_t *bytes, size_t n, uint32_t number, uint64_t nodes, uint64_t entries, uint64_t epoch)
{
    uint64_t facts[3] = {GUARD, GUARD, GUARD};
    same("describe", nalfipode_image_describe(bytes, n, facts), number);
    same("nodes told", facts[0] == nodes, 1);
    same("entries told", facts[1] == entries, 1);
    same("epoch told", facts[2] == epoch, 1);
}

static void images(void)
{
    fresh(8);
    store("0", 5, NALFIPODE_OK, "", 0, 0);
    image(words, 0, WHOLE, NALFIPODE_OK, WHOLE);
    same_bytes("whole example", written, whole_image, WHOLE);
    same("whole example accepted", nalfipode_image_verify(written, WHOLE), NALFIPODE_OK);
    look(written, WHOLE, 0, NALFIPODE_OK, 1, 5);
    look(written, WHOLE, 0x7FFFFFFF, NALFIPODE_OK, 1, 5);
    look(written, WHOLE, 0x80000000, NALFIPODE_OK, 0, 0);
    describe(written, WHOLE, NALFIPODE_OK, 1, 1, 0);
    image(words, 0, ROOM, NALFIPODE_OK, WHOLE);
    same_bytes("whole example in more room", written, whole_image, WHOLE);
    image(words, 0, WHOLE - 1, NALFIPODE_SHORT_OUT, WHOLE);
    image(words, 0, 0, NALFIPODE_SHORT_OUT, WHOLE);
    image(words, UINT64_MAX, WHOLE, NALFIPODE_SHORT_OUT, WHOLE + 8);
    image(words, UINT64_MAX, WHOLE + 8, NALFIPODE_OK, WHOLE + 8);
    same("another epoch accepted", nalfipode_image_verify(written, WHOLE + 8), NALFIPODE_OK);
    describe(written, WHOLE + 8, NALFIPODE_OK, 1, 1, UINT64_MAX);
    image(words - 1, 0, ROOM, NALFIPODE_BAD_LENGTH, 0);
}

/* Set A, and the empty set: "N = 1, both records 1, no data section". */
static void other_images(void)
{
    uint8_t empty[6] = {0, 0, 1, 0, 0, 1};
    uint64_t size[1];
    set_a();
    same("image of set A", nalfipode_image_write(table, words, 1, written, ROOM, size), NALFIPODE_OK);
    same("image of set A accepted", nalfipode_image_verify(written, size[0]), NALFIPODE_OK);
    describe(written, size[0], NALFIPODE_OK, 4, 3, 1);
    look(written, size[0], 0x00000000, NALFIPODE_OK, 1, 10);
    look(written, size[0], 0x70000000, NALFIPODE_OK, 1, 20);
    look(written, size[0], 0x6FFFFFFF, NALFIPODE_OK, 1, 30);
    look(written, size[0], 0x80000000, NALFIPODE_OK, 0, 0);
    fresh(1);
    image(words, 0, ROOM, NALFIPODE_OK, WHOLE - 2);
    same_bytes("image of the empty set", written, empty, 6);
    same("image of the empty set accepted", nalfipode_image_verify(written, WHOLE - 2), NALFIPODE_OK);
    describe(written, WHOLE - 2, NALFIPODE_OK, 1, 0, 0);
    look(written, WHOLE - 2, 0, NALFIPODE_OK, 0, 0);
}

/* Each byte changed: no other image of this length has 178 of these bytes, but for another zone number. */
static void no_images(void)
{
    uint8_t bytes[WHOLE];
    for (size_t i = 0; i < WHOLE; i++) {
        memcpy(bytes, whole_image, WHOLE);
        bytes[i] ^= 0x40;
        same("one byte changed", nalfipode_image_verify(bytes, WHOLE), i == 23 ? NALFIPODE_OK : NALFIPODE_BAD_IMAGE);
    }
    same("one byte less", nalfipode_image_verify(whole_image, WHOLE - 1), NALFIPODE_BAD_IMAGE);
    same("no bytes", nalfipode_image_verify(whole_image, 0), NALFIPODE_BAD_IMAGE);
    look(whole_image, WHOLE - 1, 0, NALFIPODE_BAD_IMAGE, 0, 0);
    look(whole_image, 0, 0, NALFIPODE_BAD_IMAGE, 0, 0);
    describe(whole_image, WHOLE - 1, NALFIPODE_BAD_IMAGE, 0, 0, 0);
    describe(whole_image, 0, NALFIPODE_BAD_IMAGE, 0, 0, 0);
}

/* ---- the refusals */

static uint32_t before[NALFIPODE_TABLE_WORDS(8)];

/* A call on the first n words of set A, with room bytes of trail, is refused, and leaves all. */
static void all_refuse(size_t n, uint32_t width, const uint32_t key[4], size_t room, uint32_t number)
{
    uint32_t zeros[4] = {0, 0, 0, 0};
    set_a();
    memcpy(before, table, sizeof before);
    lent();
    same("store refused", nalfipode_store(table, n, width, key, 5, trail, room, values), number);
    same_words("store's values", values, zeros, 3);
    lent();
    same("remove refused", nalfipode_remove(table, n, width, key, trail, room, values), number);
    same_words("remove's values", values, zeros, 2);
    lent();
    same("fetch refused", nalfipode_fetch(table, n, width, key, trail, room, values), number);
    same_words("fetch's values", values, zeros, 2);
    lent();
    same("longest match refused", nalfipode_longest_match(table, n, width, key, trail, room, values), number);
    same_words("longest match's values", values, zeros, 4);
    for (size_t i = 0; i < sizeof trail; i++)
        same("trail left", trail[i], GUARD);
    same_words("table left", table, before, NALFIPODE_TABLE_WORDS(8));
}

static void slice_refuses(size_t n, uint32_t width, uint32_t size, size_t room, uint32_t number)
{
    uint32_t out[12];
    uint32_t zeros[3] = {0, 0, 0};
    uint32_t key[4] = {0, 0, 0, 0};
    memset(out, GUARD, sizeof out);
    lent();
    same("slice refused", nalfipode_slice(table, n, 1, width, key, size, out, room, values), number);
    same_words("slice's values", values, zeros, 3);
    for (size_t i = 0; i < 12; i++)
        same("output left", out[i], 0xA5A5A5A5);
}

static void lengths(void)
{
    same("15 words", nalfipode_fresh(table, 15), NALFIPODE_BAD_LENGTH);
    same("16 words", nalfipode_fresh(table, 16), NALFIPODE_OK);
    same("20 words", nalfipode_fresh(table, 20), NALFIPODE_BAD_LENGTH);
    same("524288 words", nalfipode_fresh(table, 524288), NALFIPODE_OK);
    same("524296 words", nalfipode_fresh(table, 524296), NALFIPODE_BAD_LENGTH);
    lent();
    same("audit of 15 words", nalfipode_audit(table, 15, values), NALFIPODE_BAD_LENGTH);
    same("audit of 15 words, value", values[0], 0);
}

static void refusals(void)
{
    uint32_t one[4] = {0x80000000, 0, 0, 0};
    uint32_t wide[4] = {0, 0, 0, 1};
    all_refuse(71, 129, one, 128, NALFIPODE_BAD_LENGTH);
    all_refuse(72, 129, one, 128, NALFIPODE_BAD_PREFIX);
    all_refuse(72, 0, one, 129, NALFIPODE_BAD_PREFIX);
    all_refuse(72, 127, wide, 129, NALFIPODE_BAD_PREFIX);
    all_refuse(72, 128, wide, 128, NALFIPODE_SHORT_OUT);
    set_a();
    slice_refuses(71, 129, 0, 0, NALFIPODE_BAD_LENGTH);
    slice_refuses(72, 129, 0, 0, NALFIPODE_BAD_PREFIX);
    slice_refuses(72, 128, 0, 0, NALFIPODE_BAD_SIZE);
    slice_refuses(72, 128, 4097, 0, NALFIPODE_BAD_SIZE);
    slice_refuses(72, 128, 4096, 12, NALFIPODE_SHORT_OUT);
    slice_refuses(72, 128, 2, 11, NALFIPODE_SHORT_OUT);
}

static void damaged(void)
{
    uint32_t key[4] = {0, 0, 0, 0};
    set_a();
    table[0] = 9;
    same("audit of a damaged table", nalfipode_audit(table, words, values), NALFIPODE_OK);
    same("audit of a damaged table, no", values[0], 0);
    memcpy(before, table, sizeof before);
    lent();
    same("damaged store", nalfipode_store(table, words, 2, key, 5, trail, 129, values), NALFIPODE_DAMAGED);
    same("damaged remove", nalfipode_remove(table, words, 2, key, trail, 129, values), NALFIPODE_DAMAGED);
    same("damaged fetch", nalfipode_fetch(table, words, 2, key, trail, 129, values), NALFIPODE_DAMAGED);
    same("damaged match", nalfipode_longest_match(table, words, 2, key, trail, 129, values), NALFIPODE_DAMAGED);
    for (size_t i = 0; i < sizeof trail; i++)
        same("trail left", trail[i], GUARD);
    same_words("damaged table left", table, before, NALFIPODE_TABLE_WORDS(8));
    slice_refuses(72, 0, 2, 12, NALFIPODE_DAMAGED);
    image(words, 0, 0, NALFIPODE_DAMAGED, 0);
    same_words("damaged table left by the image", table, before, NALFIPODE_TABLE_WORDS(8));
}

int main(void)
{
    m2_to_m6();
    m7_and_m8();
    m9();
    m10_to_m12();
    lengths();
    refusals();
    images();
    other_images();
    no_images();
    damaged();
    printf("c/test.c: %d checks, %d failed\n", checks, failures);
    return failures == 0 ? 0 : 1;
}
