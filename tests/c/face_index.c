/* The checks of the index of a run. Keys, offsets and counts are worked out by hand from K9: in a key the bytes of a word are turned round, those of
   an array stay, and the computed byte is 1 or 0. */
#include "face.h"

enum { KEY = RES_TABLE_CONFIG_KEY_BYTES, ENTRY = RES_TABLE_CONFIG_ENTRY_BYTES, MOST = RES_TABLE_CONFIG_INDEX_MOST };

/* Nine records end to end, five of them distinct. */
#define RUN_LENGTH 337
static const uint8_t RUN[RUN_LENGTH] = {
    /* 0: mcc310-en-rUS-port-hdpi */
    [0] = 16, [4] = 54, 1, [8] = 'e', 'n', 'U', 'S', [12] = 1, [14] = 240,
    /* 16: blank, with a size of 0 */
    /* 32: each byte is its offset in the record, but for the computed one */
    [32] = 64, [36] = 4, 5, 6, 7, 8, 9, 10, 11, 12, 13, 14, 15, 16, 17, 18, 19, 20, 21, 22, 23, 24, 25, 26, 27, 28, 29, 30, 31, 32, 33, 34, 35,
    36, 37, 38, 39, 40, 41, 42, 43, 44, 45, 46, 47, 48, 49, 50, 51, 255, 53, 54, 55, 56, 57, 58, 59, 60, 61, 62, 63,
    /* 96: the same with another computed byte, and with eight bytes more, which no field holds */
    [96] = 72, [100] = 4, 5, 6, 7, 8, 9, 10, 11, 12, 13, 14, 15, 16, 17, 18, 19, 20, 21, 22, 23, 24, 25, 26, 27, 28, 29, 30, 31, 32, 33, 34, 35,
    36, 37, 38, 39, 40, 41, 42, 43, 44, 45, 46, 47, 48, 49, 50, 51, 1, 53, 54, 55, 56, 57, 58, 59, 60, 61, 62, 63, 64, 65, 66, 67, 68, 69, 70, 71,
    /* 168: the first again, with a size of 44 and half a variant, which that size doesn't hold */
    [168] = 44, [172] = 54, 1, [176] = 'e', 'n', 'U', 'S', [180] = 1, [182] = 240, [208] = 'h', 'a', 'l', 'f',
    /* 212: blank again, with a byte more */
    [212] = 17, [228] = 9,
    /* 229: mnc1: its stored bytes are below those of mcc310, its number is above */
    [229] = 28, [235] = 1,
    /* 257: the first again, just so */
    [257] = 16, [261] = 54, 1, [265] = 'e', 'n', 'U', 'S', [269] = 1, [271] = 240,
    /* 273: blank but for its very last byte, which is end_padding's */
    [273] = 64, [336] = 1};

/* Its index: blank, blank but for the last byte, mcc310, mnc1, and the one that is filled. */
#define ENTRIES 5
static const uint8_t INDEX[ENTRIES * 76] = {
    [60] = 16, [68] = 2,
    [76 + 59] = 1, [76 + 60] = 17, 1, [76 + 68] = 1,
    [152 + 2] = 1, 54, [152 + 4] = 'S', 'U', 'n', 'e', [152 + 9] = 240, [152 + 11] = 1, [152 + 68] = 3,
    [228 + 1] = 1, [228 + 60] = 229, [228 + 68] = 1,
    [304] = 7, 6, 5, 4, 11, 10, 9, 8, 15, 14, 13, 12, 19, 18, 17, 16, 23, 22, 21, 20, 27, 26, 25, 24, 31, 30, 29, 28, 35, 34, 33, 32,
    36, 37, 38, 39, 40, 41, 42, 43, 44, 45, 46, 47, 51, 50, 49, 48, 1, 53, 54, 55, 56, 57, 58, 59, 60, 61, 62, 63, 32, [304 + 68] = 2};

/* Where each record begins, and the place of its entry. */
static const struct {
    size_t at, place;
} RECORDS[] = {{0, 2}, {16, 0}, {32, 4}, {96, 4}, {168, 2}, {212, 0}, {229, 3}, {257, 2}, {273, 1}};
#define COUNT (sizeof RECORDS / sizeof *RECORDS)

/* How often each of the five occurs among so many of the nine. */
static const uint8_t OCCUR[COUNT + 1][ENTRIES] = {{0, 0, 0, 0, 0}, {0, 0, 1, 0, 0}, {1, 0, 1, 0, 0}, {1, 0, 1, 0, 1}, {1, 0, 1, 0, 2},
                                                  {1, 0, 2, 0, 2}, {2, 0, 2, 0, 2}, {2, 0, 2, 1, 2}, {2, 0, 3, 1, 2}, {2, 1, 3, 1, 2}};

/* A run of many records of 16 bytes, and what is lent for its index and more. */
#define LONG 5001
static uint8_t many[16 * LONG], lent[MOST * 76 + 100], wanted[MOST * 76 + 100];

/* Whether an answer is a success that wrote so many entries, and no byte behind them. */
static int indexed(uint64_t answer, const uint8_t *entries, size_t count) {
    int holds = wrote_bytes(ENTRY * count, entries, ENTRY * count);
    return holds && answer == count;
}

/* Puts the entries of the first records of the run to bytes; gives how many there are. */
static size_t entries_of(size_t records, uint8_t *bytes) {
    size_t count = 0;
    for (size_t i = 0; i < ENTRIES; i++) {
        if (OCCUR[records][i] == 0) continue;
        for (size_t j = 0; j < ENTRY; j++) bytes[ENTRY * count + j] = INDEX[ENTRY * i + j];
        bytes[ENTRY * count++ + 68] = OCCUR[records][i];
    }
    return count;
}

/* The index of the run and of all of its fronts, which stop inside a record or behind one; each lent room. */
static void whole(void) {
    uint8_t entries[ENTRIES * 76];
    for (size_t room = 0; room <= ROOM; room++) {
        uint64_t answer = res_table_config_index(RUN, RUN_LENGTH, out, room);
        CHECK(room < sizeof INDEX ? refused(answer, RES_TABLE_CONFIG_SHORT_BUFFER) : indexed(answer, INDEX, ENTRIES));
    }
    for (size_t length = 0, records = 0; length <= RUN_LENGTH; length++) {
        size_t end = records + 1 < COUNT ? RECORDS[records + 1].at : RUN_LENGTH;
        if (length == end) records++;
        size_t count = entries_of(records, entries);
        CHECK(indexed(res_table_config_index(RUN, length, out, ROOM), entries, count));
        CHECK(indexed(res_table_config_index(RUN, length, out, ENTRY * count), entries, count));
        if (count > 0) CHECK(refused(res_table_config_index(RUN, length, out, ENTRY * count - 1), RES_TABLE_CONFIG_SHORT_BUFFER));
    }
    CHECK(res_table_config_entry_offset(INDEX + 76) == 273 && res_table_config_entry_occurrences(INDEX + 152) == 3);
    ended("index: a run and its fronts");
}

/* Bytes that are no run: the index has no entry, whatever is lent. */
static void none(void) {
    uint8_t bytes[80];
    record(bytes, 65, 64, 1);
    for (size_t length = 0; length < 65; length++) {
        CHECK(indexed(res_table_config_index(bytes, length, out, 0), INDEX, 0));
        CHECK(indexed(res_table_config_index(bytes, length, out, ROOM), INDEX, 0));
    }
    bytes[3] = 255;
    CHECK(indexed(res_table_config_index(bytes, 80, out, ROOM), INDEX, 0));
    ended("index: no run");
}

/* A record of 16 bytes, by its size of 0, with this imsi. */
static void put(uint8_t *bytes, uint32_t imsi) {
    for (size_t i = 0; i < 16; i++) bytes[i] = 0;
    for (size_t i = 0; i < 4; i++) bytes[4 + i] = (uint8_t)(imsi >> 8 * i);
}

/* An entry of a record with this imsi, an offset and a count. */
static void put_entry(uint8_t *bytes, uint32_t imsi, uint32_t offset, uint32_t count) {
    for (size_t i = 0; i < ENTRY; i++) bytes[i] = 0;
    for (size_t i = 0; i < 4; i++) {
        bytes[i] = (uint8_t)(imsi >> (24 - 8 * i));
        bytes[KEY + i] = (uint8_t)(offset >> 8 * i);
        bytes[KEY + 8 + i] = (uint8_t)(count >> 8 * i);
    }
}

/* Fills what is lent, and what it is to hold, with a pattern of its own. */
static void paint(void) {
    for (size_t i = 0; i < sizeof lent; i++) lent[i] = wanted[i] = (uint8_t)(i * 7 + 3);
}

/* Whether all that is lent holds what is wanted. */
static int as_wanted(void) {
    int same = 1;
    for (size_t i = 0; i < sizeof lent; i++) same = same && lent[i] == wanted[i];
    return same;
}

/* Whether the index of so many of the records is refused with 5 by a room, and nothing lent is changed. */
static int unchanged(size_t records, size_t room) {
    paint();
    return res_table_config_index(many, 16 * records, lent, room) == (uint64_t)RES_TABLE_CONFIG_SHORT_BUFFER << 32 && as_wanted();
}

/* 1,024 distinct records, each twice and in no order, then one more: it is one too many, wherever it stands and whatever is lent. */
static void most(void) {
    for (uint32_t i = 0; i < 2 * MOST; i++) put(many + 16 * i, i * 389 % MOST + 1);
    paint();
    for (uint32_t i = 0; i < MOST; i++) put_entry(wanted + ENTRY * (i * 389 % MOST), i * 389 % MOST + 1, 16 * i, 2);
    CHECK(res_table_config_index(many, 16 * 2 * MOST, lent, MOST * ENTRY) == MOST && as_wanted());
    for (size_t i = 0; i < sizeof lent; i++) lent[i] = i < MOST * ENTRY ? 255 : wanted[i];
    CHECK(res_table_config_index(many, 16 * 2 * MOST, lent, sizeof lent) == MOST && as_wanted());
    for (uint32_t i = 0; i < 2 * MOST; i++)
        CHECK(res_table_config_find(lent, MOST * ENTRY, many + 16 * i, 16) == i * 389 % MOST + 1);
    CHECK(unchanged(2 * MOST, MOST * ENTRY - 1) && unchanged(2 * MOST, 0) && unchanged(MOST, MOST * ENTRY - 1));
    static const uint32_t MORE[] = {0, MOST + 1, 0xffffffffu};
    for (size_t i = 0; i < sizeof MORE / sizeof *MORE; i++) {
        put(many + 16 * 2 * MOST, MORE[i]);
        CHECK(unchanged(2 * MOST + 1, MOST * ENTRY) && unchanged(2 * MOST + 1, sizeof lent) && unchanged(2 * MOST + 1, 0));
    }
    put(many + 16 * MOST / 2, MOST + 2);
    CHECK(unchanged(2 * MOST, sizeof lent));
    /* without what was overwritten there are 1,024 again, and with one record less 1,023 */
    CHECK(res_table_config_index(many, 16 * MOST, lent, MOST * ENTRY) == MOST);
    CHECK(res_table_config_index(many, 16 * (MOST - 1), lent, MOST * ENTRY) == MOST - 1);
    ended("index: 1,024 records and one more");
}

/* Records that are all alike need the room of one; counts and offsets may take more than two bytes. */
static void alike(void) {
    for (size_t i = 0; i + 1 < LONG; i++) put(many + 16 * i, 1);
    put(many + 16 * (LONG - 1), 0);
    paint();
    put_entry(wanted, 1, 0, 5000);
    CHECK(res_table_config_index(many, 16 * 5000, lent, ENTRY) == 1 && as_wanted());
    paint();
    put_entry(wanted, 0, 80000, 1);
    put_entry(wanted + ENTRY, 1, 0, 5000);
    CHECK(res_table_config_index(many, 16 * LONG, lent, 2 * ENTRY) == 2 && as_wanted());
    CHECK(res_table_config_entry_offset(lent) == 80000 && res_table_config_entry_occurrences(lent + ENTRY) == 5000);
    CHECK(unchanged(LONG, 2 * ENTRY - 1));
    ended("index: records alike");
}

/* Each record is found at its place, as far as the entries reach; what the bytes hold behind the record doesn't count. */
static void found(void) {
    for (size_t i = 0; i < COUNT; i++) {
        const uint8_t *bytes = RUN + RECORDS[i].at;
        size_t end = i + 1 < COUNT ? RECORDS[i + 1].at : RUN_LENGTH, place = RECORDS[i].place;
        CHECK(res_table_config_find(INDEX, sizeof INDEX, bytes, end - RECORDS[i].at) == place + 1);
        CHECK(res_table_config_find(INDEX, sizeof INDEX, bytes, RUN_LENGTH - RECORDS[i].at) == place + 1);
        for (size_t length = 0; length <= sizeof INDEX; length++)
            CHECK(res_table_config_find(INDEX, length, bytes, end - RECORDS[i].at) == (length < ENTRY * (place + 1) ? 0 : place + 1));
    }
    ended("index: found");
}

/* A record of 64 bytes with the filled one's fields, but for one byte: it is found where that byte is none of a key, or says the same. */
static void not_found(void) {
    uint8_t bytes[64];
    for (size_t at = 0; at < 64; at++) {
        for (size_t i = 0; i < 64; i++) bytes[i] = RUN[32 + i];
        if (at > 3) bytes[at] ^= 0x80;
        CHECK(res_table_config_find(INDEX, sizeof INDEX, bytes, 64) == (at < 4 || at == 52 ? 5 : 0));
    }
    bytes[63] = 63, bytes[52] = 0;
    CHECK(res_table_config_find(INDEX, sizeof INDEX, bytes, 64) == 0);
    ended("index: not found");
}

/* Entries that no run gives: three of each, the greatest first, with other offsets and counts, and then shifted by a byte; of several the first is
   found. */
static void any_bytes(void) {
    uint8_t entries[3 * ENTRIES * 76 + 1];
    for (size_t i = 0; i < 3 * ENTRIES; i++)
        for (size_t j = 0; j < ENTRY; j++) entries[ENTRY * i + j] = j < KEY ? INDEX[ENTRY * (ENTRIES - 1 - i / 3) + j] : 0xff;
    for (size_t i = 0; i < COUNT; i++)
        CHECK(res_table_config_find(entries, 3 * ENTRIES * ENTRY, RUN + RECORDS[i].at, RUN_LENGTH - RECORDS[i].at) == 13 - 3 * RECORDS[i].place);
    entries[3 * ENTRY + KEY - 1] ^= 1;
    CHECK(res_table_config_find(entries, 3 * ENTRIES * ENTRY, RUN + 229, 28) == 5);
    /* a byte further on no key stands where an entry begins, but that zeros stand where the second does, which are the blank one's key */
    entries[0] = 255;
    for (size_t i = 0; i < 3 * ENTRIES * ENTRY; i++) entries[i + 1] = i < sizeof INDEX ? INDEX[i] : 255;
    for (size_t i = 0; i < COUNT; i++)
        CHECK(res_table_config_find(entries, sizeof entries, RUN + RECORDS[i].at, RUN_LENGTH - RECORDS[i].at) == (RECORDS[i].place == 0 ? 2 : 0));
    /* more entries than an index has */
    for (uint32_t i = 0; i <= MOST; i++) put_entry(lent + ENTRY * i, i, 0, 0);
    put(many, MOST);
    CHECK(res_table_config_find(lent, sizeof lent, many, 16) == MOST + 1 && res_table_config_find(lent, ENTRY * MOST, many, 16) == 0);
    /* entries and record may be the same bytes */
    for (size_t i = 0; i < sizeof entries; i++) entries[i] = 0;
    CHECK(res_table_config_find(entries, sizeof entries, entries, sizeof entries) == 1 && res_table_config_find(entries, 75, entries, 75) == 0);
    ended("index: any bytes as entries");
}

/* A record that isn't whole is refused, also where there are no entries. */
static void refusals(void) {
    static const struct {
        size_t at, length;
        uint32_t number, row;
    } REFUSED[] = {{0, 0, 1, 0},     {0, 15, 1, 0},    {32, 15, 1, 0},   {32, 16, 2, 4},    {32, 40, 2, 10},
                   {32, 52, 2, 12},  {32, 63, 2, 14},  {96, 63, 2, 14},  {96, 64, 8, 0},    {96, 71, 8, 0},
                   {168, 39, 2, 9},  {168, 40, 8, 0},  {168, 43, 8, 0},  {212, 16, 8, 0},   {229, 27, 2, 6}};
    for (size_t i = 0; i < sizeof REFUSED / sizeof *REFUSED; i++)
        for (size_t length = 0; length <= sizeof INDEX; length += ENTRY)
            CHECK(carries(res_table_config_find(INDEX, length, RUN + REFUSED[i].at, REFUSED[i].length), REFUSED[i].number, REFUSED[i].row));
    ended("index: refused records");
}

void indexes(void) {
    whole();
    none();
    most();
    alike();
    found();
    not_found();
    any_bytes();
    refusals();
}
