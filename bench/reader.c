/* Times the lookup in an image beside libmaxminddb's, on the same addresses, in one run.
 *   reader FOLDER          nanoseconds per call, the least of some rounds, and the ratio
 *   reader FOLDER PEER N   N calls of PEER (ours or theirs), for an instruction counter
 * FOLDER has what `nalfipode-bench image` wrote: image, wider (the same with two more pairs of metadata, which
 * libmaxminddb asks for) and questions, 16 bytes each. */
#include "../c/nalfipode.h"
#include "files.h"

#include <arpa/inet.h>
#include <maxminddb.h>
#include <netinet/in.h>
#include <string.h>

enum { ROUNDS = 25, NONE = -1 };

static uint8_t *image, *questions;
static size_t image_bytes, asked;
static MMDB_s theirs;

/* The zone of question i, or NONE. */
static int64_t our_zone(size_t i)
{
    uint32_t key[4], values[2];
    memcpy(key, questions + 16 * i, 16);
    for (int j = 0; j < 4; j++)
        key[j] = ntohl(key[j]);
    if (nalfipode_image_look(image, image_bytes, key, values) != NALFIPODE_OK)
        exit(3);
    return values[0] == 1 ? (int64_t)values[1] : NONE;
}

static int64_t their_zone(size_t i)
{
    struct sockaddr_in6 address = {.sin6_family = AF_INET6};
    int error;
    memcpy(&address.sin6_addr, questions + 16 * i, 16);
    MMDB_lookup_result_s found = MMDB_lookup_sockaddr(&theirs, (struct sockaddr *)&address, &error);
    if (error != MMDB_SUCCESS)
        exit(3);
    if (!found.found_entry)
        return NONE;
    MMDB_entry_data_s value;
    if (MMDB_get_value(&found.entry, &value, NULL) != MMDB_SUCCESS || value.type != MMDB_DATA_TYPE_UINT32)
        exit(3);
    return value.uint32;
}

static double timed(int64_t (*zone)(size_t))
{
    double least = 1e30;
    for (int round = 0; round < ROUNDS; round++) {
        volatile int64_t kept = 0;
        double start = now();
        for (size_t i = 0; i < asked; i++)
            kept = zone(i);
        double ns = (now() - start) / (double)asked;
        (void)kept;
        least = ns < least ? ns : least;
    }
    return least;
}

int main(int argc, char **argv)
{
    char path[4096];
    size_t bytes;
    if (argc != 2 && argc != 4)
        return 2;
    image = loaded(argv[1], "image", &image_bytes);
    questions = loaded(argv[1], "questions", &bytes);
    asked = bytes / 16;
    snprintf(path, sizeof path, "%s/wider", argv[1]);
    if (MMDB_open(path, MMDB_MODE_MMAP, &theirs) != MMDB_SUCCESS)
        return 2;
    if (argc == 4) {
        size_t n = strtoul(argv[3], NULL, 10);
        for (size_t i = 0; i < n; i++)
            (void)(strcmp(argv[2], "ours") == 0 ? our_zone(i % asked) : their_zone(i % asked));
        return 0;
    }
    for (size_t i = 0; i < asked; i++)
        if (our_zone(i) != their_zone(i)) {
            fprintf(stderr, "question %zu: %lld and %lld\n", i, (long long)our_zone(i), (long long)their_zone(i));
            return 1;
        }
    double ours = timed(our_zone), other = timed(their_zone);
    printf("nalfipode %.0f ns, libmaxminddb %.0f ns (%.2f)\n", ours, other, other / ours);
    return 0;
}
