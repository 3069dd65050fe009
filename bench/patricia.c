/* Times the table beside nDPI's patricia tree, on the same keys, in one run.
 *   patricia FOLDER               nanoseconds per call, the least of some rounds, and the ratio
 *   patricia FOLDER PEER CALL N   N calls of PEER (ours or theirs), for an instruction counter
 * FOLDER has what `nalfipode-bench keys` wrote: stored, others and questions, 24 bytes a key. A key is an IPv6
 * prefix to nDPI; a cell has its 64 bits at the top. nDPI's tree writes no trail, the table does. */
#include "../c/nalfipode.h"
#include "files.h"

#include <arpa/inet.h>
#include <ndpi/ndpi_api.h>
#include <string.h>

enum { ROUNDS = 25, NONE = -1 };
enum { MATCH, FETCH, STORE, REMOVE, CALLS };

/* A key as it lies in a file: what a store stores, the first bit highest in the first byte. */
struct key {
    uint32_t width, zone;
    struct in6_addr bits;
};

struct keys {
    struct key *at;
    size_t count;
};

/* Answers NONE, or the zone number found, replaced or taken out; a match has its width above the number. */
typedef int64_t answer(const struct key *);

static struct keys stored, others, questions;
static uint32_t *table;
static size_t table_words;
static uint8_t trail[NALFIPODE_TRAIL_BYTES];
static ndpi_patricia_tree_t *tree;

static void must(int holds, const char *what)
{
    if (holds)
        return;
    fprintf(stderr, "patricia: %s\n", what);
    exit(1);
}

/* The four words of a key. */
static void our_key(uint32_t words[4], const struct key *k)
{
    memcpy(words, &k->bits, 16);
    for (int i = 0; i < 4; i++)
        words[i] = ntohl(words[i]);
}

static int64_t our_match(const struct key *k)
{
    uint32_t words[4], values[4];
    our_key(words, k);
    must(nalfipode_longest_match(table, table_words, k->width, words, trail, sizeof trail, values) == NALFIPODE_OK,
         "our match");
    return values[1] == 1 ? ((int64_t)values[2] << 32 | values[3]) : NONE;
}

static int64_t our_fetch(const struct key *k)
{
    uint32_t words[4], values[2];
    our_key(words, k);
    uint32_t number = nalfipode_fetch(table, table_words, k->width, words, trail, sizeof trail, values);
    return number == NALFIPODE_OK ? (int64_t)values[1] : NONE;
}

static int64_t our_store(const struct key *k)
{
    uint32_t words[4], values[3];
    our_key(words, k);
    must(nalfipode_store(table, table_words, k->width, words, k->zone, trail, sizeof trail, values) == NALFIPODE_OK,
         "our store");
    return values[1] == 1 ? (int64_t)values[2] : NONE;
}

static int64_t our_remove(const struct key *k)
{
    uint32_t words[4], values[2];
    our_key(words, k);
    uint32_t number = nalfipode_remove(table, table_words, k->width, words, trail, sizeof trail, values);
    return number == NALFIPODE_OK ? (int64_t)values[1] : NONE;
}

static ndpi_prefix_t their_key(const struct key *k)
{
    ndpi_prefix_t prefix;
    must(ndpi_fill_prefix_v6(&prefix, &k->bits, (int)k->width, 128) == 0, "their key");
    return prefix;
}

/* A node's data is its zone number and 1, since a node that the library has just made has 0 there. */
static int64_t their_zone(ndpi_patricia_node_t *node)
{
    return node == NULL ? NONE : (int64_t)(uintptr_t)ndpi_patricia_get_node_data(node) - 1;
}

static int64_t their_match(const struct key *k)
{
    ndpi_prefix_t prefix = their_key(k);
    ndpi_patricia_node_t *node = ndpi_patricia_search_best(tree, &prefix);
    return node == NULL ? NONE : ((int64_t)ndpi_patricia_get_node_bits(node) << 32 | their_zone(node));
}

static int64_t their_fetch(const struct key *k)
{
    ndpi_prefix_t prefix = their_key(k);
    return their_zone(ndpi_patricia_search_exact(tree, &prefix));
}

static int64_t their_store(const struct key *k)
{
    ndpi_prefix_t prefix = their_key(k);
    ndpi_patricia_node_t *node = ndpi_patricia_lookup(tree, &prefix);
    int64_t old = their_zone(node);
    must(node != NULL, "their store");
    ndpi_patricia_set_node_data(node, (void *)((uintptr_t)k->zone + 1));
    return old;
}

static int64_t their_remove(const struct key *k)
{
    ndpi_prefix_t prefix = their_key(k);
    ndpi_patricia_node_t *node = ndpi_patricia_search_exact(tree, &prefix);
    int64_t old = their_zone(node);
    if (node != NULL)
        ndpi_patricia_remove(tree, node);
    return old;
}

static const char *const names[CALLS] = {"match", "fetch", "store", "remove"};
static answer *const ours[CALLS] = {our_match, our_fetch, our_store, our_remove};
static answer *const theirs[CALLS] = {their_match, their_fetch, their_store, their_remove};

static struct keys keys_of(const char *folder, const char *name)
{
    size_t bytes;
    struct key *at = loaded(folder, name, &bytes);
    return (struct keys){at, bytes / sizeof *at};
}

/* Both empty; the table has twice as many records as there are prefixes, if a table may. */
static void make_both(void)
{
    size_t records = 2 * (stored.count + others.count);
    table_words = NALFIPODE_TABLE_WORDS(records < NALFIPODE_MOST_RECORDS ? records : NALFIPODE_MOST_RECORDS);
    table = calloc(table_words, sizeof *table);
    must(table != NULL && nalfipode_fresh(table, table_words) == NALFIPODE_OK, "our table");
    tree = ndpi_patricia_new(128);
    must(tree != NULL, "their tree");
}

static void fill(answer *store)
{
    for (size_t i = 0; i < stored.count; i++)
        must(store(&stored.at[i]) == NONE, "a stored key is there twice");
}

static void alike(int call, const struct keys *keys)
{
    for (size_t i = 0; i < keys->count; i++) {
        int64_t our = ours[call](&keys->at[i]), other = theirs[call](&keys->at[i]);
        if (our != other)
            fprintf(stderr, "%s %zu: %lld and %lld\n", names[call], i, (long long)our, (long long)other);
        must(our == other, "the two differ");
    }
}

/* Both must answer alike: with the set, with the other keys stored too, and with these taken out again. */
static void agree(void)
{
    alike(MATCH, &questions);
    alike(FETCH, &stored);
    alike(STORE, &others);
    alike(MATCH, &questions);
    alike(FETCH, &others);
    alike(REMOVE, &others);
    alike(MATCH, &questions);
    alike(FETCH, &stored);
}

/* Nanoseconds per call, over all these keys once. */
static double timed(answer *call, const struct keys *keys)
{
    volatile int64_t kept = 0;
    double start = now();
    for (size_t i = 0; i < keys->count; i++)
        kept = call(&keys->at[i]);
    (void)kept;
    return (now() - start) / (double)keys->count;
}

/* One round of each kind of call. What is stored is taken out again, so the set is as it was. */
static void turn(answer *const calls[CALLS], double least[CALLS])
{
    const struct keys *over[CALLS] = {&questions, &stored, &others, &others};
    for (int call = 0; call < CALLS; call++) {
        double ns = timed(calls[call], over[call]);
        least[call] = ns < least[call] ? ns : least[call];
    }
}

static void compare(void)
{
    double our[CALLS] = {1e30, 1e30, 1e30, 1e30}, other[CALLS] = {1e30, 1e30, 1e30, 1e30};
    fill(our_store);
    fill(their_store);
    agree();
    for (int round = 0; round < ROUNDS; round++) {
        turn(ours, our);
        turn(theirs, other);
    }
    printf("| | match | fetch | store | remove |\n|---|---|---|---|---|\n| nalfipode |");
    for (int call = 0; call < CALLS; call++)
        printf(" %.0f |", our[call]);
    printf("\n| nDPI's patricia |");
    for (int call = 0; call < CALLS; call++)
        printf(" %.0f (%.2f) |", other[call], other[call] / our[call]);
    printf("\n");
}

/* N calls and nothing else after the set is made. A store is of other keys, a remove of stored ones. */
static void count(const char *peer, const char *name, size_t n)
{
    answer *const *calls = strcmp(peer, "ours") == 0 ? ours : theirs;
    const struct keys *over[CALLS] = {&questions, &stored, &others, &stored};
    int call = 0;
    while (call < CALLS && strcmp(names[call], name) != 0)
        call++;
    must(call < CALLS, "match, fetch, store or remove");
    fill(calls[STORE]);
    for (size_t i = 0; i < n; i++)
        (void)calls[call](&over[call]->at[i % over[call]->count]);
}

int main(int argc, char **argv)
{
    must(argc == 2 || argc == 5, "FOLDER, or FOLDER PEER CALL N");
    stored = keys_of(argv[1], "stored");
    others = keys_of(argv[1], "others");
    questions = keys_of(argv[1], "questions");
    make_both();
    if (argc == 5)
        count(argv[2], argv[3], strtoul(argv[4], NULL, 10));
    else
        compare();
    return 0;
}
