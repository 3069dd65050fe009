/* Nalfipode: the zone table of a golf rangefinder, for C on x86-64 Linux.
 *
 * Link target/staticlib/libnalfipode.a (.ci/archive makes it). No call allocates, keeps a pointer,
 * or has state of its own; calls on different memory may run at the same time. As the kit compiles it, the
 * image writer takes at most 56 KB of stack, the image checker 32 KB, the check of a table 24 KB, each on the
 * deepest tree, and every other call less than 1 KB.
 *
 * Every call returns a number of enum nalfipode_number, NALFIPODE_OK (0) where it is accepted, and writes its
 * values, in a fixed order, into an array that the caller lends; a refusal sets every value to 0, but that
 * ABSENT and FULL give the number of nodes, and an image's SHORT_OUT the length needed. The first refusal that
 * applies, in the order of their numbers, is given, but an image's SHORT_OUT comes after DAMAGED. Every refusal
 * leaves the table's words alone. ABSENT and FULL write the trail; every other refusal leaves it, and the output
 * of a slice or an image too, but that a DAMAGED slice may have written some of it.
 *
 * A slice of memory is passed as two arguments, a pointer and a number of elements (not bytes), in this order,
 * as the compiler of the library passes a reference to a slice. An array of fixed size is passed as a pointer
 * alone. No pointer may be null, each is aligned as its type is, and what is lent to one call does not overlap:
 * table, trail, values, output and key are distinct memory. Where the number of elements is 0 the pointer may be
 * any that is aligned and not null. Nothing else is asked: any words and any numbers are safe.
 *
 * A prefix is a width of 0 to 128 and four words. Bit 1 is the highest bit of word 0, and every bit after the
 * width is zero. */
#ifndef NALFIPODE_H
#define NALFIPODE_H

#include <stddef.h>
#include <stdint.h>

#ifdef __cplusplus
extern "C" {
#endif

/* The words of a table of c records, c from 1 to 65,535. */
#define NALFIPODE_RECORD_WORDS 8
#define NALFIPODE_TABLE_WORDS(c) (8 + 8 * (size_t)(c))
#define NALFIPODE_MOST_RECORDS 65535
/* The bytes of a trail, at least. */
#define NALFIPODE_TRAIL_BYTES 129
/* The most prefixes of a slice, and the words of each: four key words, width, zone number. */
#define NALFIPODE_MOST_SLICE 4096
#define NALFIPODE_ENTRY_WORDS 6
#define NALFIPODE_OUT_WORDS(b) (6 * (size_t)(b))
/* The words of a key, and its widest width. */
#define NALFIPODE_KEY_WORDS 4
#define NALFIPODE_MOST_WIDTH 128

enum nalfipode_number {
    NALFIPODE_OK = 0,
    NALFIPODE_BAD_LENGTH = 1,   /* the table has another number of words than 8 + 8c, c from 1 to 65,535 */
    NALFIPODE_BAD_PREFIX = 2,   /* a width above 128, or a bit set after the width */
    NALFIPODE_BAD_POSITION = 3, /* a longitude or a latitude outside its range */
    NALFIPODE_BAD_SIZE = 4,     /* a slice of 0 or of more than 4,096 prefixes */
    NALFIPODE_SHORT_OUT = 5,    /* a trail of fewer than 129 bytes, or an output that is too short */
    NALFIPODE_DAMAGED = 6,      /* the call met words that no table has; never where nalfipode_audit says 1 */
    NALFIPODE_ABSENT = 7,       /* fetch or remove of a prefix that is not stored */
    NALFIPODE_FULL = 8,         /* a store whose tree would have more nodes than the table has records */
    NALFIPODE_BAD_IMAGE = 9     /* the bytes are no image */
};

/* How many values each call gives. */
enum {
    NALFIPODE_CELL_VALUES = 5,
    NALFIPODE_STORE_VALUES = 3,
    NALFIPODE_REMOVE_VALUES = 2,
    NALFIPODE_FETCH_VALUES = 2,
    NALFIPODE_LONGEST_MATCH_VALUES = 4,
    NALFIPODE_SLICE_VALUES = 3,
    NALFIPODE_AUDIT_VALUES = 1,
    NALFIPODE_IMAGE_WRITE_VALUES = 1,
    NALFIPODE_IMAGE_DESCRIBE_VALUES = 3,
    NALFIPODE_IMAGE_LOOK_VALUES = 2
};

/* The cell of a position, in ten-millionths of a degree: longitude -1,800,000,000 to 1,800,000,000, latitude
 * -900,000,000 to 900,000,000.
 * Values: the four key words of a prefix, and its width, 64.
 * Refuses: BAD_POSITION. */
uint32_t nalfipode_cell(int32_t longitude, int32_t latitude, uint32_t values[5]);

/* Makes the memory an empty table, whatever it held.
 * Refuses: BAD_LENGTH. */
uint32_t nalfipode_fresh(uint32_t *table, size_t table_words);

/* Stores the zone number for the key, in place of the old one if there is one. The trail takes the widths of
 * the nodes on the key's path, from the set as it stood before; the bytes after them stay.
 * Values: how many nodes the path has; 1 where a number was replaced, else 0; the old number, else 0.
 * Refuses: BAD_LENGTH, BAD_PREFIX, SHORT_OUT, DAMAGED, FULL. */
uint32_t nalfipode_store(uint32_t *table, size_t table_words, uint32_t width, const uint32_t key[4],
                         uint32_t zone, uint8_t *trail, size_t trail_bytes, uint32_t values[3]);

/* Takes the key out. The trail is as for a store.
 * Values: how many nodes the path has; the zone number taken out.
 * Refuses: BAD_LENGTH, BAD_PREFIX, SHORT_OUT, DAMAGED, ABSENT. */
uint32_t nalfipode_remove(uint32_t *table, size_t table_words, uint32_t width, const uint32_t key[4],
                          uint8_t *trail, size_t trail_bytes, uint32_t values[2]);

/* The zone number stored for exactly this key. The trail is as for a store.
 * Values: how many nodes the path has; the stored number.
 * Refuses: BAD_LENGTH, BAD_PREFIX, SHORT_OUT, DAMAGED, ABSENT. */
uint32_t nalfipode_fetch(const uint32_t *table, size_t table_words, uint32_t width, const uint32_t key[4],
                         uint8_t *trail, size_t trail_bytes, uint32_t values[2]);

/* The longest stored prefix of the key. The trail is as for a store. No match is an answer, and no refusal.
 * Values: how many nodes the path has; 1 for a match, else 0; its width; its zone number.
 * Refuses: BAD_LENGTH, BAD_PREFIX, SHORT_OUT, DAMAGED. */
uint32_t nalfipode_longest_match(const uint32_t *table, size_t table_words, uint32_t width,
                                 const uint32_t key[4], uint8_t *trail, size_t trail_bytes,
                                 uint32_t values[4]);

/* Lists the first `size` stored prefixes, in order: from the first one where resume is 0, else those strictly
 * after the key, which need not be stored. Each takes six words of the output: four key words, width, zone
 * number; the words after them stay. Where resume is 0, width and key are not looked at.
 * Values: how many were given; 1 if more remain, else 0; the nodes counted.
 * Refuses: BAD_LENGTH, BAD_PREFIX, BAD_SIZE, SHORT_OUT, DAMAGED. */
uint32_t nalfipode_slice(const uint32_t *table, size_t table_words, uint32_t resume, uint32_t width,
                         const uint32_t key[4], uint32_t size, uint32_t *out, size_t out_words,
                         uint32_t values[3]);

/* Whether the words are a table of some set, every record in its place.
 * Value: 1 for yes, 0 for no.
 * Refuses: BAD_LENGTH. */
uint32_t nalfipode_audit(const uint32_t *table, size_t table_words, uint32_t values[1]);

/* The image of what the table stores, with a build epoch. The output's bytes past it stay.
 * Value: the image's length; for SHORT_OUT the length needed, and the output is left as it was.
 * Refuses: BAD_LENGTH, DAMAGED, SHORT_OUT. */
uint32_t nalfipode_image_write(const uint32_t *table, size_t table_words, uint64_t epoch, uint8_t *out,
                               size_t out_bytes, uint64_t values[1]);

/* Whether some list of prefixes and some epoch give these bytes. No values.
 * Refuses: BAD_IMAGE where none do. */
uint32_t nalfipode_image_verify(const uint8_t *image, size_t image_bytes);

/* What an image that nalfipode_image_verify accepts says of itself; of other bytes the numbers are of no use.
 * Values: how many nodes, how many data entries, the epoch.
 * Refuses: BAD_IMAGE where the bytes do not end as an image does, or have no room for the nodes. */
uint32_t nalfipode_image_describe(const uint8_t *image, size_t image_bytes, uint64_t values[3]);

/* The zone of a 128-bit address: the longest match of the list, in an image that nalfipode_image_verify accepts,
 * and there it refuses no address. Any other bytes are safe.
 * Values: 1 for a zone number and 0 for no data, the number.
 * Refuses: BAD_IMAGE where it met bytes that no image has. */
uint32_t nalfipode_image_look(const uint8_t *image, size_t image_bytes, const uint32_t key[4],
                              uint32_t values[2]);

#ifdef __cplusplus
}
#endif

#endif
