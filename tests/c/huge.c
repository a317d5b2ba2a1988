/* The index of a run in more than 2^32 bytes: blank records, and three others, two of them alike, one of which stands behind 2^32. The bytes are
   a mapping that takes no memory but for the pages that are written. */
#define _DEFAULT_SOURCE
#include "res_table_config.h"
#include <stdio.h>
#include <string.h>
#include <sys/mman.h>

enum { RECORD = 16, ENTRY = RES_TABLE_CONFIG_ENTRY_BYTES, ENTRIES = 3 };

/* What each entry is to say: the two bytes of its language, last byte first as a key has them, its offset and its count. */
static const struct { const char *language; uint64_t offset, count; } wanted[ENTRIES] = {
    {"\0\0", 0, ((uint64_t)1 << 28) + 64 - 3}, {"rf", ((uint64_t)1 << 32) + 2 * RECORD, 1}, {"rs", 2 * RECORD, 2}};

static int wrong(const uint8_t *run, size_t len) {
    uint8_t out[ENTRIES * ENTRY + 1], before[sizeof out];
    memset(before, 7, sizeof before);
    memcpy(out, before, sizeof out);
    if (res_table_config_number(res_table_config_index(run, len, out, ENTRIES * ENTRY - 1)) != RES_TABLE_CONFIG_SHORT_BUFFER) return 1;
    if (memcmp(out, before, sizeof out) != 0) return 2;
    if (res_table_config_index(run, len, out, sizeof out) != ENTRIES || out[ENTRIES * ENTRY] != 7) return 3;
    for (int i = 0; i < ENTRIES; i++) {
        const uint8_t *entry = out + i * ENTRY;
        if (memcmp(entry + 6, wanted[i].language, 2) != 0) return 4;
        if (res_table_config_entry_offset(entry) != wanted[i].offset) return 5;
        if (res_table_config_entry_occurrences(entry) != wanted[i].count) return 6;
    }
    return 0;
}

int main(void) {
    const size_t edge = (size_t)1 << 32, len = edge + 64 * RECORD;
    uint8_t *run = mmap(NULL, len, PROT_READ | PROT_WRITE, MAP_PRIVATE | MAP_ANONYMOUS | MAP_NORESERVE, -1, 0);
    if (run == MAP_FAILED) {
        puts("huge: no room for a run of 4 GiB");
        return 1;
    }
    memcpy(run + 2 * RECORD + 8, "sr", 2);
    memcpy(run + edge + 8, "sr", 2);
    memcpy(run + edge + 2 * RECORD + 8, "fr", 2);
    int at = wrong(run, len);
    printf("huge: the index of %zu bytes: %s %d\n", len, at == 0 ? "as expected" : "wrong at", at);
    return at;
}
