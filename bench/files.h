/* What the C programs here share: a file that the bench tool wrote, and the clock. */
#ifndef BENCH_FILES_H
#define BENCH_FILES_H

#include <stdint.h>
#include <stdio.h>
#include <stdlib.h>
#include <time.h>

static inline void *loaded(const char *folder, const char *name, size_t *bytes)
{
    char path[4096];
    snprintf(path, sizeof path, "%s/%s", folder, name);
    FILE *file = fopen(path, "rb");
    if (file == NULL || fseek(file, 0, SEEK_END) != 0)
        exit(2);
    *bytes = (size_t)ftell(file);
    void *content = malloc(*bytes);
    rewind(file);
    if (content == NULL || fread(content, 1, *bytes, file) != *bytes)
        exit(2);
    fclose(file);
    return content;
}

/* Nanoseconds since some start. */
static inline double now(void)
{
    struct timespec t;
    clock_gettime(CLOCK_MONOTONIC, &t);
    return 1e9 * (double)t.tv_sec + (double)t.tv_nsec;
}

#endif
