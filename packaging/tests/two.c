/* Two libraries in one program, the second of which has names that begin with other_, over an allocator of the
 * program's own: it is asked by both, and gets back all that they took. */
#include <stdint.h>
#include <stdio.h>
#include <stdlib.h>
#include <string.h>
#include <tscache.h>

uint32_t other_tsc_version(void);
uint32_t other_tsc_open(tsc_store *, uint32_t, uint32_t, uint32_t, uint64_t, const tsc_time *, uint64_t *);
void other_tsc_free(tsc_store *);

static _Alignas(16) unsigned char room[1 << 20];
static size_t used;
static long asked, held;

void *malloc(size_t size) {
    asked++;
    size_t whole = (size + 31) / 16 * 16;
    if (whole > sizeof room - used) return NULL;
    unsigned char *at = room + used;
    memcpy(at, &size, sizeof size);
    used += whole;
    held++;
    return at + 16;
}

void free(void *at) {
    if (at) held--;
}

void *realloc(void *at, size_t size) {
    void *now = malloc(size);
    if (at && now) {
        size_t was;
        memcpy(&was, (unsigned char *)at - 16, sizeof was);
        memcpy(now, at, was < size ? was : size);
        free(at);
    }
    return now;
}

int main(void) {
    static tsc_store mine, others;
    uint64_t n;
    tsc_time low = {5, 0};
    long before = held, first, second;
    if (tsc_open(&mine, 4096, 65536, 2, 1000, &low, &n)) return 1;
    first = asked;
    if (other_tsc_open(&others, 4096, 65536, 2, 1000, &low, &n)) return 1;
    second = asked - first;
    tsc_free(&mine);
    other_tsc_free(&others);
    if (!first || !second || held != before || tsc_version() != other_tsc_version()) return 1;
    return 0;
}
