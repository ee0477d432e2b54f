/* benchmark open|[WAY:]SETUP ROUNDS SET SERIAL CONFIGURATION: one call of the library, over and over, for tests/benchmark.
 *
 * SETUP is 8 bytes in hexadecimal; behind table: it goes the second way, behind pair: and pair-table: the set is lent for both
 * speeds, and high speed is in use. The record is Configured with that configuration, all else fresh. Prints the nanoseconds of
 * a call, its number and the two bytes. tests/speed/benchmark.rs does the same, in its one way. */
#define _POSIX_C_SOURCE 199309L

#include <stdio.h>
#include <stdlib.h>
#include <string.h>
#include <time.h>

#include "heideklonk.h"

static uint8_t set[20000], serial[20000], image[HK_IMAGE_LENGTH], opened[HK_IMAGE_LENGTH];
static uint8_t setup[HK_SETUP_LENGTH], bytes[2], count;
static size_t set_length, serial_length;
static hk_part part = HK_NO_PART;

enum way { OPENING, BY_SETUP, BY_TABLE, BY_PAIR, BY_PAIR_TABLE };
static const char *const prefixes[] = {"open", "", "table:", "pair:", "pair-table:"};

static uint8_t call(enum way way) {
    switch (way) {
    case OPENING:
        return hk_open(set, set_length, serial, serial_length, opened, sizeof opened);
    case BY_TABLE:
        return hk_table_event(set, set_length, serial, serial_length, image, sizeof image, HK_EVENT_SETUP, 0, setup, sizeof setup, bytes, &count,
                              &part);
    case BY_PAIR:
        return hk_two_event(set, set_length, set, set_length, serial, serial_length, image, sizeof image, HK_EVENT_SETUP, 0, setup, sizeof setup,
                            bytes, &count, &part);
    case BY_PAIR_TABLE:
        return hk_two_table_event(set, set_length, set, set_length, serial, serial_length, image, sizeof image, HK_EVENT_SETUP, 0, setup,
                                  sizeof setup, bytes, &count, &part);
    default:
        return hk_setup(set, set_length, serial, serial_length, image, sizeof image, setup, sizeof setup, bytes, &count, &part);
    }
}

static int begins_with(const char *word, const char *prefix) {
    for (; *prefix != 0; word++, prefix++)
        if (*word != *prefix)
            return 0;
    return 1;
}

static enum way way_of(const char *word) {
    for (enum way way = BY_PAIR_TABLE; way > OPENING; way--)
        if (way != BY_SETUP && begins_with(word, prefixes[way]))
            return way;
    return strcmp(word, prefixes[OPENING]) == 0 ? OPENING : BY_SETUP;
}

/* What the instruction counter looks at. */
__attribute__((noinline)) uint8_t measured(enum way way);
__attribute__((noinline)) uint8_t measured(enum way way) {
    return call(way);
}

static size_t read_file(const char *path, uint8_t *to, size_t room) {
    FILE *file = fopen(path, "rb");
    size_t length;
    if (file == NULL) {
        perror(path);
        exit(2);
    }
    length = fread(to, 1, room, file);
    fclose(file);
    return length;
}

static void read_setup(const char *digits) {
    for (size_t at = 0; at < sizeof setup && strlen(digits) == 2 * sizeof setup; at++) {
        const char pair[] = {digits[2 * at], digits[2 * at + 1], 0};
        setup[at] = (uint8_t)strtol(pair, NULL, 16);
    }
}

static double nanoseconds_between(const struct timespec *start, const struct timespec *end) {
    return (double)(end->tv_sec - start->tv_sec) * 1e9 + (double)(end->tv_nsec - start->tv_nsec);
}

int main(int argument_count, char **arguments) {
    struct timespec start, end;
    long rounds;
    enum way way;
    uint8_t number;
    if (argument_count != 6)
        return 2;
    way = way_of(arguments[1]);
    read_setup(arguments[1] + strlen(prefixes[way]));
    rounds = strtol(arguments[2], NULL, 10);
    set_length = read_file(arguments[3], set, sizeof set);
    serial_length = read_file(arguments[4], serial, sizeof serial);
    image[0] = 2;
    image[1] = 5;
    image[2] = 255;
    image[3] = (uint8_t)strtol(arguments[5], NULL, 10);
    image[7] = way == BY_PAIR || way == BY_PAIR_TABLE;
    number = call(way); /* the first call may run the linker too */
    clock_gettime(CLOCK_MONOTONIC, &start);
    for (long round = 0; round < rounds; round++)
        number = measured(way);
    clock_gettime(CLOCK_MONOTONIC, &end);
    printf("%.0f %d %d %d\n", nanoseconds_between(&start, &end) / (double)rounds, number, bytes[0], bytes[1]);
    return 0;
}
