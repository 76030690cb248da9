/* A program that is linked with the library: it says which versions the header and the library are of, and
 * whether a cache answers. It compiles as C and as C++. */
#include <inttypes.h>
#include <stdio.h>
#include <tscache.h>

int main(void) {
    static tsc_store store;
    uint64_t n;
    tsc_time low = {5, 0}, now = {20, 0};
    tsc_value read = {20, 0, {0x11}}, latest;
    tsc_added added;
    if (tsc_open(&store, 4096, 65536, 2, 1000, &low, &n) != TSC_OK) return 1;
    if (tsc_checked_add(&store, n, "a", 1, "c", 1, TSC_EXCLUDE_TO, &read, &now, &added) != TSC_OK) return 1;
    if (tsc_checked_get_max(&store, n, "b", 1, NULL, 0, TSC_POINT, &latest) != TSC_OK) return 1;
    tsc_free(&store);
    printf("%d %" PRIu32 " %" PRIu64 "\n", TSC_VERSION, tsc_version(), latest.wall);
    return 0;
}
