/* Parses the fields of CSV books in memory: numbers to nine decimal places, and all others to a hash of their bytes. Prints
   a line a book: its name, the nanoseconds, how many fields aren't empty, and a checksum. */
#define _POSIX_C_SOURCE 199309L
#include <stdint.h>
#include <stdio.h>
#include <stdlib.h>
#include <time.h>

typedef __int128 i128;

static uint64_t nanos(void) {
    struct timespec now;
    clock_gettime(CLOCK_MONOTONIC, &now);
    return (uint64_t)now.tv_sec * 1000000000u + (uint64_t)now.tv_nsec;
}

/* The number of a field, where it is one without an exponent. */
static int number(const unsigned char *at, const unsigned char *end, i128 *out) {
    int minus = at < end && *at == '-';
    if (at < end && (*at == '-' || *at == '+')) at++;
    i128 whole = 0;
    int digits = 0, places = 9;
    for (; at < end && *at >= '0' && *at <= '9'; at++, digits++) whole = whole * 10 + (*at - '0');
    if (at < end && *at == '.') {
        for (at++; at < end && *at >= '0' && *at <= '9' && places > 0; at++, digits++, places--)
            whole = whole * 10 + (*at - '0');
    }
    if (at < end || digits == 0 || digits > 27) return 0;
    while (places-- > 0) whole *= 10;
    *out = minus ? -whole : whole;
    return 1;
}

static uint64_t value(const unsigned char *at, const unsigned char *end) {
    i128 n;
    if (number(at, end, &n)) return (uint64_t)n;
    uint64_t hash = 1469598103934665603u;
    for (; at < end; at++) hash = (hash ^ *at) * 1099511628211u;
    return hash;
}

int main(int count, char **names) {
    for (int k = 1; k < count; k++) {
        FILE *file = fopen(names[k], "rb");
        if (!file) return 1;
        fseek(file, 0, SEEK_END);
        size_t size = (size_t)ftell(file);
        rewind(file);
        unsigned char *bytes = malloc(size + 1), *field = malloc(size + 1);
        if (!bytes || !field || fread(bytes, 1, size, file) != size) return 1;
        fclose(file);
        uint64_t start = nanos(), fields = 0, sum = 0;
        for (size_t at = 0; at < size; at++) {
            size_t length = 0;
            if (bytes[at] == '"') {
                for (at++; at < size && !(bytes[at] == '"' && bytes[at + 1] != '"'); at++) {
                    if (bytes[at] == '"') at++;
                    field[length++] = bytes[at];
                }
                at++;
            } else {
                while (at < size && bytes[at] != ',' && bytes[at] != '\n') field[length++] = bytes[at++];
            }
            if (length) {
                fields++;
                sum = sum * 31 + value(field, field + length);
            }
        }
        printf("%s %llu %llu %llu\n", names[k], (unsigned long long)(nanos() - start), (unsigned long long)fields,
               (unsigned long long)sum);
        free(bytes);
        free(field);
    }
    return 0;
}
