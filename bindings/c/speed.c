/* Times calls of the library: lookups and Adds of single keys that a cache of one page has, of 65,536 keys or as many as the first word says.
 *
 * Prints a line for each with the nanoseconds of one call, in that turn over 1,024 places in which they took least, of 225. The keys and the order of
 * the places are those of `bench bytes`, so that its figures can stand beside these. */
#include "tscache.h"

#include <stdio.h>
#include <stdlib.h>
#include <time.h>

enum { PLACES = 1024, TURNS = 225, STRIDE = 1696631 };

static double now(void)
{
    struct timespec t;
    clock_gettime(CLOCK_MONOTONIC, &t);
    return (double)t.tv_sec * 1e9 + (double)t.tv_nsec;
}

static void key_of(uint64_t place, uint8_t key[8])
{
    uint64_t number = place * 64;
    for (int i = 0; i < 8; i++)
        key[i] = (uint8_t)(number >> (56 - 8 * i));
}

static void must(uint32_t answer)
{
    if (answer != TSC_OK) {
        fprintf(stderr, "%s\n", tsc_text(answer));
        exit(1);
    }
}

int main(int words, char **word)
{
    uint32_t nodes = words > 1 ? (uint32_t)atoi(word[1]) : 65536;
    static tsc_store store;
    static uint8_t keys[PLACES][8];
    uint64_t cache;
    tsc_time low = {0, 0}, moment = {1, 0};
    tsc_value value = {10, 0, {0x11}}, found;
    tsc_added added;
    must(tsc_open(&store, nodes * 40, nodes * 40, 2, 1000000, &low, &cache));
    for (uint32_t i = 0; i < nodes; i++) {
        uint8_t key[8];
        key_of(i, key);
        must(tsc_add(&store, cache, key, 8, key, 0, TSC_POINT, &value, &moment, &added));
    }
    for (uint64_t i = 0; i < PLACES; i++)
        key_of(i * STRIDE % nodes, keys[i]);
    uint64_t latest = 0;
    double least[2] = {1e18, 1e18};
    for (int turn = 0; turn < TURNS; turn++) {
        double start = now();
        for (int i = 0; i < PLACES; i++) {
            must(tsc_get_max(&store, cache, keys[i], 8, keys[i], 0, TSC_POINT, &found));
            latest = found.wall > latest ? found.wall : latest;
        }
        double middle = now();
        if (latest != value.wall) {
            fprintf(stderr, "a lookup answered another time than that of the last Add\n");
            return 1;
        }
        value.wall++;
        for (int i = 0; i < PLACES; i++)
            must(tsc_add(&store, cache, keys[i], 8, keys[i], 0, TSC_POINT, &value, &moment, &added));
        double end = now();
        least[0] = middle - start < least[0] ? middle - start : least[0];
        least[1] = end - middle < least[1] ? end - middle : least[1];
    }
    printf("C, %u nodes, lookup of a key: %.0f ns\n", nodes, least[0] / PLACES);
    printf("C, %u nodes, add of a key: %.0f ns\n", nodes, least[1] / PLACES);
    tsc_free(&store);
    return 0;
}
