/* The checks of the calls on type chunks. What is expected is worked out by hand from the rules of K3. */
#include "face.h"

#define LENGTH 120

/* The ten bytes that every chunk here shows: id 7, flags 1, 0x01020304 entries, which start at 0xf0e0d0c0. */
static const uint8_t HEAD[RES_TABLE_TYPE_HEAD] = {7, 1, 4, 3, 2, 1, 0xc0, 0xd0, 0xe0, 0xf0};

/* A chunk with these sizes at the front of LENGTH bytes, and a record of so many bytes in it. No other byte is zero. */
static void chunk(uint8_t *bytes, uint16_t header, uint32_t size, const uint8_t *config, size_t count) {
    for (size_t i = 0; i < LENGTH; i++) bytes[i] = 0xee;
    bytes[0] = 1, bytes[1] = 2;
    bytes[2] = (uint8_t)header, bytes[3] = (uint8_t)(header >> 8);
    for (size_t i = 0; i < 4; i++) bytes[4 + i] = (uint8_t)(size >> 8 * i);
    bytes[8] = HEAD[0], bytes[9] = HEAD[1];
    for (size_t i = 2; i < RES_TABLE_TYPE_HEAD; i++) bytes[10 + i] = HEAD[i];
    for (size_t i = 0; i < count; i++) bytes[20 + i] = config[i];
}

/* Whether all four calls refuse a chunk with this number, at every age and with no byte lent: nothing that comes later is told instead.
   An age that is none comes before. */
static int refuse(const uint8_t *bytes, size_t length, uint32_t number, uint32_t carried) {
    int holds = carries(res_table_type_take(bytes, length), number, carried);
    holds = holds && carries(res_table_type_head(bytes, length, out, 0), number, carried);
    holds = holds && carries(res_table_type_head(bytes, length, out, ROOM), number, carried);
    for (size_t i = 0; i < 12; i++) {
        holds = holds && carries(res_table_type_aged_text(bytes, length, AGES[i], out, 0), number, carried);
        holds = holds && carries(res_table_type_aged_text(bytes, length, AGES[i], out, ROOM), number, carried);
        holds = holds && carries(res_table_type_marks(bytes, length, AGES[i], out, 0), number, carried);
        holds = holds && carries(res_table_type_marks(bytes, length, AGES[i], out, ROOM), number, carried);
    }
    holds = holds && refused(res_table_type_aged_text(bytes, length, 33, out, 0), RES_TABLE_CONFIG_NOT_AN_AGE);
    return holds && refused(res_table_type_marks(bytes, length, 0, out, ROOM), RES_TABLE_CONFIG_NOT_AN_AGE);
}

/* Whether all four calls take a chunk of this size, and show the ten bytes, the phone's text and its marks. */
static int show(const uint8_t *bytes, size_t length, uint32_t size) {
    int holds = res_table_type_take(bytes, length) == size;
    holds = holds && wrote_bytes(res_table_type_head(bytes, length, out, ROOM), HEAD, sizeof HEAD);
    holds = holds && wrote(res_table_type_marks(bytes, length, 64, out, ROOM), "FFFAAAAAAAAAAA");
    for (size_t i = 0; i < 12; i++) holds = holds && wrote(res_table_type_aged_text(bytes, length, AGES[i], out, ROOM), PHONE_TEXT);
    return holds;
}

/* Whole chunks: the header as long as the record or longer, the chunk as long as the header or longer, bytes behind the chunk. */
static void whole(void) {
    uint8_t bytes[LENGTH];
    chunk(bytes, 36, 36, PHONE, 16);
    CHECK(show(bytes, 36, 36) && show(bytes, 37, 36) && show(bytes, LENGTH, 36));
    chunk(bytes, 36, 100, PHONE, 16);
    CHECK(show(bytes, 100, 100) && show(bytes, LENGTH, 100));
    chunk(bytes, 99, 100, PHONE, 16);
    CHECK(show(bytes, 100, 100) && show(bytes, LENGTH, 100));
    chunk(bytes, LENGTH, LENGTH, PHONE, 16);
    CHECK(show(bytes, LENGTH, LENGTH));
    ended("types: whole");
}

/* What each call is lent, and what an age shows. */
static void lent(void) {
    uint8_t bytes[LENGTH], wide[80];
    chunk(bytes, 36, 36, PHONE, 16);
    CHECK(wrote_bytes(res_table_type_head(bytes, 36, out, 10), HEAD, 10));
    CHECK(refused(res_table_type_head(bytes, 36, out, 9), RES_TABLE_CONFIG_SHORT_BUFFER));
    CHECK(refused(res_table_type_head(bytes, 36, out, 0), RES_TABLE_CONFIG_SHORT_BUFFER));
    CHECK(wrote(res_table_type_aged_text(bytes, 36, 16, out, 23), PHONE_TEXT));
    CHECK(refused(res_table_type_aged_text(bytes, 36, 16, out, 22), RES_TABLE_CONFIG_SHORT_BUFFER));
    CHECK(wrote(res_table_type_marks(bytes, 36, 20, out, 14), "FFFAUUUUUUUUUU"));
    CHECK(refused(res_table_type_marks(bytes, 36, 20, out, 13), RES_TABLE_CONFIG_SHORT_BUFFER));
    CHECK(refused(res_table_type_aged_text(bytes, 36, 33, out, 0), RES_TABLE_CONFIG_NOT_AN_AGE));
    CHECK(refused(res_table_type_marks(bytes, 36, 65, out, ROOM), RES_TABLE_CONFIG_NOT_AN_AGE));
    record(wide, 36, 32, 100);
    chunk(bytes, 60, 80, wide, 36);
    CHECK(refused(res_table_type_aged_text(bytes, 80, 32, out, 0), RES_TABLE_CONFIG_HELD_BACK));
    CHECK(refused(res_table_type_aged_text(bytes, 80, 32, out, ROOM), RES_TABLE_CONFIG_HELD_BACK));
    CHECK(wrote(res_table_type_aged_text(bytes, 80, 36, out, 6), "w100dp"));
    CHECK(refused(res_table_type_aged_text(bytes, 80, 36, out, 5), RES_TABLE_CONFIG_SHORT_BUFFER));
    CHECK(wrote(res_table_type_marks(bytes, 80, 32, out, 14), "BBBBBBBUUUUUUU"));
    CHECK(res_table_type_take(bytes, 80) == 80);
    ended("types: lent");
}

/* Types that aren't 0x0201: next to it, turned about, none, all bits. */
static const uint8_t TYPES[][2] = {{0, 2}, {2, 2}, {2, 1}, {1, 0}, {0, 0}, {1, 3}, {0x81, 2}, {1, 0x82}, {255, 255}};

/* Heads that are refused: 1 before 9, 9 before 10, 10 before anything of the record. */
static void heads(void) {
    uint8_t bytes[LENGTH], none[16] = {17};
    chunk(bytes, 36, 36, PHONE, 16);
    for (size_t length = 0; length < 20; length++) CHECK(refuse(bytes, length, RES_TABLE_CONFIG_TOO_FEW_BYTES, 0));
    CHECK(refuse(bytes, 20, RES_TABLE_CONFIG_WRONG_SIZES, 0) && refuse(bytes, 35, RES_TABLE_CONFIG_WRONG_SIZES, 0));
    for (size_t i = 0; i < sizeof TYPES / sizeof *TYPES; i++) {
        for (uint16_t header = 19; header < 22; header++) {
            chunk(bytes, header, 19, none, 16);
            bytes[0] = TYPES[i][0], bytes[1] = TYPES[i][1];
            CHECK(refuse(bytes, 19, RES_TABLE_CONFIG_TOO_FEW_BYTES, 0));
            CHECK(refuse(bytes, 20, RES_TABLE_CONFIG_WRONG_TYPE, 0) && refuse(bytes, LENGTH, RES_TABLE_CONFIG_WRONG_TYPE, 0));
        }
    }
    static const struct {
        uint16_t header;
        uint32_t size;
    } WRONG[] = {{0, 36}, {19, 36}, {19, 19}, {0, 0}, {37, 36}, {256, 36}, {65535, 100}, {36, 35}, {36, 0}, {20, 19},
                 {36, LENGTH + 1}, {36, 65572}, {36, 0x80000024}, {36, 0xffffffff}, {LENGTH + 1, LENGTH + 1}, {65535, 65535}};
    for (size_t i = 0; i < sizeof WRONG / sizeof *WRONG; i++) {
        chunk(bytes, WRONG[i].header, WRONG[i].size, PHONE, 16);
        CHECK(refuse(bytes, LENGTH, RES_TABLE_CONFIG_WRONG_SIZES, 0));
        chunk(bytes, WRONG[i].header, WRONG[i].size, none, 16);
        CHECK(refuse(bytes, LENGTH, RES_TABLE_CONFIG_WRONG_SIZES, 0));
    }
    ended("types: heads");
}

/* Records that the header cuts: what stands behind the header doesn't make them whole. */
static void cuts(void) {
    static const struct {
        uint8_t size, header;
        uint32_t number, row;
    } CUTS[] = {{16, 20, 1, 0},  {64, 20, 1, 0},  {16, 35, 1, 0},  {64, 35, 1, 0},  {17, 36, 8, 0},  {64, 36, 2, 4},
                {20, 39, 2, 4},  {24, 40, 2, 5},  {28, 44, 2, 6},  {32, 51, 2, 7},  {36, 52, 2, 8},  {40, 59, 2, 9},
                {64, 60, 2, 10}, {47, 60, 8, 0},  {52, 68, 2, 11}, {53, 72, 2, 12}, {61, 73, 2, 13}, {64, 81, 2, 14},
                {64, 83, 2, 14}, {65, 83, 2, 14}, {65, 84, 8, 0},  {255, 84, 8, 0}, {90, 109, 8, 0}};
    uint8_t bytes[LENGTH], config[80];
    for (size_t i = 0; i < sizeof CUTS / sizeof *CUTS; i++) {
        record(config, CUTS[i].size, 4, 1);
        chunk(bytes, CUTS[i].header, LENGTH, config, 80);
        CHECK(refuse(bytes, LENGTH, CUTS[i].number, CUTS[i].row));
        chunk(bytes, CUTS[i].header, CUTS[i].header, config, 80);
        CHECK(refuse(bytes, LENGTH, CUTS[i].number, CUTS[i].row) && refuse(bytes, CUTS[i].header, CUTS[i].number, CUTS[i].row));
    }
    ended("types: cut");
}

/* The numbers of the ten bytes, and the next chunk behind the first. */
static void helpers(void) {
    uint8_t bytes[2 * LENGTH];
    chunk(bytes, 36, 70, PHONE, 16);
    chunk(bytes + 70, 36, 40, PHONE, 16);
    CHECK(res_table_type_entry_count(HEAD) == 0x01020304 && res_table_type_entries_start(HEAD) == 0xf0e0d0c0u);
    uint32_t first = res_table_config_amount(res_table_type_take(bytes, 110));
    CHECK(first == 70 && res_table_type_take(bytes + first, 110 - first) == 40);
    ended("types: helpers");
}

void types(void) {
    whole();
    lent();
    heads();
    cuts();
    helpers();
}
