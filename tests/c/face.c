/* Calls the C face as a C program does. Prints a line for each class of checks; the status is 1 where a check fails. */
#include "face.h"

/* The one function of C's library that is called: a compiler for another machine may have no <stdio.h>. */
int printf(const char *format, ...);

/* The checks of tests/c/face.cpp: how many there are, and in failed how many fail. */
int face_from_cpp(int *failed);

#define GUARD 0xa5

static int checks, failures, all_failures;
uint8_t out[ROOM];

const uint8_t PHONE[16] = {16, 0, 0, 0, 54, 1, 0, 0, 'e', 'n', 'U', 'S', 1, 0, 240, 0};
const char PHONE_TEXT[] = "mcc310-en-rUS-port-hdpi";

/* The record whose text has 344 bytes. */
static const uint8_t LONGEST[64] = {
    64,  0,   0,   0,   255, 255, 255, 255, 255, 255, 1,   128, 255, 255, 253, 255, 255, 255, 13,  3,   255, 255,
    255, 255, 255, 255, 255, 255, 82,  63,  255, 255, 255, 255, 255, 255, 255, 255, 255, 255, 255, 255, 255, 255,
    255, 255, 255, 255, 1,   9,   0,   0,   0,   255, 255, 255, 255, 255, 255, 255, 255, 0,   0,   0};

static const uint8_t ZEROS[64] = {0};

void check(int holds, const char *file, int line) {
    checks++;
    if (!holds) {
        failures++;
        printf("face: FAILED: %s:%d\n", file, line);
    }
}

void ended(const char *name) {
    printf("face: %s: %d checks, %d failed\n", name, checks, failures);
    all_failures += failures;
    checks = failures = 0;
}

static void fill(void) {
    for (size_t i = 0; i < ROOM; i++) out[i] = GUARD;
}

/* Whether out holds guard bytes from an offset on. */
static int untouched(size_t from) {
    for (size_t i = from; i < ROOM; i++)
        if (out[i] != GUARD) return 0;
    return 1;
}

int carries(uint64_t answer, uint32_t number, uint32_t carried) {
    int holds = res_table_config_number(answer) == number && res_table_config_carried(answer) == carried;
    holds = holds && res_table_config_amount(answer) == 0 && untouched(0);
    fill();
    return holds;
}

int refused(uint64_t answer, uint32_t number) {
    return carries(answer, number, 0);
}

int wrote_bytes(uint64_t answer, const uint8_t *bytes, size_t count) {
    int same = 1;
    for (size_t i = 0; i < count; i++) same = same && out[i] == bytes[i];
    int holds = answer == count && same && untouched(count);
    fill();
    return holds;
}

/* How many bytes a word has. */
static size_t count(const char *word) {
    size_t n = 0;
    while (word[n]) n++;
    return n;
}

int wrote(uint64_t answer, const char *word) {
    return wrote_bytes(answer, (const uint8_t *)word, count(word));
}

void record(uint8_t *bytes, uint8_t size, size_t at, uint8_t byte) {
    for (size_t i = 0; i < 80; i++) bytes[i] = 0;
    bytes[0] = size;
    bytes[at] = byte;
}

static void take(void) {
    uint8_t bytes[80];
    record(bytes, 17, 4, 0);
    CHECK(refused(res_table_config_take(ZEROS, 0), RES_TABLE_CONFIG_TOO_FEW_BYTES));
    CHECK(refused(res_table_config_take(ZEROS, 15), RES_TABLE_CONFIG_TOO_FEW_BYTES));
    CHECK(res_table_config_take(ZEROS, 16) == 16);
    CHECK(res_table_config_take(ZEROS, 40) == 16);
    CHECK(refused(res_table_config_take(bytes, 16), RES_TABLE_CONFIG_UNDECODED_CUT));
    CHECK(res_table_config_take(bytes, 17) == 17);
    CHECK(res_table_config_take(bytes, 80) == 17);
    bytes[3] = 255;
    CHECK(refused(res_table_config_take(bytes, 80), RES_TABLE_CONFIG_UNDECODED_CUT));
    CHECK(carries(res_table_config_take(bytes, 40), RES_TABLE_CONFIG_FIELD_CUT, 10));
    ended("take");
}

static void text(void) {
    uint8_t bytes[80];
    CHECK(wrote(res_table_config_text(PHONE, 16, out, ROOM), PHONE_TEXT));
    CHECK(wrote(res_table_config_text(PHONE, 16, out, 23), PHONE_TEXT));
    CHECK(refused(res_table_config_text(PHONE, 16, out, 22), RES_TABLE_CONFIG_SHORT_BUFFER));
    CHECK(refused(res_table_config_text(PHONE, 16, out, 0), RES_TABLE_CONFIG_SHORT_BUFFER));
    CHECK(refused(res_table_config_text(PHONE, 15, out, ROOM), RES_TABLE_CONFIG_TOO_FEW_BYTES));
    CHECK(carries(res_table_config_text(LONGEST, 63, out, 0), RES_TABLE_CONFIG_FIELD_CUT, 14));
    CHECK(wrote(res_table_config_text(ZEROS, 16, out, 0), ""));
    CHECK(res_table_config_text(LONGEST, 64, out, RES_TABLE_CONFIG_TEXT_MOST) == 344 && out[343] != GUARD && untouched(344));
    fill();
    CHECK(refused(res_table_config_text(LONGEST, 64, out, 343), RES_TABLE_CONFIG_SHORT_BUFFER));
    record(bytes, 65, 64, 1);
    CHECK(wrote(res_table_config_text(bytes, 65, out, ROOM), ""));
    ended("text");
}

static void aged_text(void) {
    uint8_t bytes[80];
    record(bytes, 36, 32, 100);
    CHECK(refused(res_table_config_aged_text(ZEROS, 0, 33, out, 0), RES_TABLE_CONFIG_NOT_AN_AGE));
    CHECK(refused(res_table_config_aged_text(ZEROS, 16, 0, out, ROOM), RES_TABLE_CONFIG_NOT_AN_AGE));
    CHECK(refused(res_table_config_aged_text(ZEROS, 15, 64, out, ROOM), RES_TABLE_CONFIG_TOO_FEW_BYTES));
    CHECK(carries(res_table_config_aged_text(bytes, 35, 32, out, ROOM), RES_TABLE_CONFIG_FIELD_CUT, 8));
    CHECK(refused(res_table_config_aged_text(bytes, 36, 32, out, 0), RES_TABLE_CONFIG_HELD_BACK));
    CHECK(refused(res_table_config_aged_text(bytes, 36, 36, out, 5), RES_TABLE_CONFIG_SHORT_BUFFER));
    CHECK(wrote(res_table_config_aged_text(bytes, 36, 36, out, 6), "w100dp"));
    CHECK(wrote(res_table_config_aged_text(PHONE, 16, 16, out, ROOM), PHONE_TEXT));
    record(bytes, 65, 64, 1);
    CHECK(refused(res_table_config_aged_text(bytes, 65, 64, out, ROOM), RES_TABLE_CONFIG_HELD_BACK));
    ended("aged text");
}

/* The locale of a record of 64 bytes: its language, and what stands in its variant. */
static void locale(uint8_t *bytes, uint8_t a, uint8_t b, const char *variant) {
    record(bytes, 64, 8, a);
    bytes[9] = b;
    for (size_t i = 0; i < 8 && variant[i]; i++) bytes[40 + i] = (uint8_t)variant[i];
}

static void replaced(void) {
    uint8_t bytes[80];
    locale(bytes, 255, 255, "");
    CHECK(res_table_config_replaced(bytes, 64, 64) == 3);
    CHECK(res_table_config_replaced(bytes, 64, 16) == 3);
    locale(bytes, 'e', 'n', "\xef\xbf\xbd");
    CHECK(res_table_config_replaced(bytes, 64, 64) == 0);
    locale(bytes, 'e', 'n', "\xe2\x82");
    bytes[43] = 'A';
    CHECK(res_table_config_replaced(bytes, 64, 64) == 1);
    locale(bytes, 'e', 'n', "\xef\xbf\xbd\xff\xef\xbf\xbd\xef");
    CHECK(res_table_config_replaced(bytes, 80, 64) == 2);
    CHECK(res_table_config_replaced(LONGEST, 64, 64) == 24);
    for (size_t i = 0; i < 64; i++) bytes[i] = LONGEST[i];
    bytes[52] = 1;
    CHECK(res_table_config_replaced(bytes, 64, 64) == 20);
    bytes[8] = 0;
    CHECK(res_table_config_replaced(bytes, 64, 64) == 0);
    CHECK(res_table_config_replaced(PHONE, 16, 16) == 0);
    CHECK(refused(res_table_config_replaced(LONGEST, 15, 33), RES_TABLE_CONFIG_NOT_AN_AGE));
    CHECK(refused(res_table_config_replaced(LONGEST, 63, 33), RES_TABLE_CONFIG_NOT_AN_AGE));
    CHECK(refused(res_table_config_replaced(LONGEST, 64, 33), RES_TABLE_CONFIG_NOT_AN_AGE));
    CHECK(refused(res_table_config_replaced(LONGEST, 15, 61), RES_TABLE_CONFIG_TOO_FEW_BYTES));
    CHECK(carries(res_table_config_replaced(LONGEST, 63, 53), RES_TABLE_CONFIG_FIELD_CUT, 14));
    CHECK(refused(res_table_config_replaced(LONGEST, 64, 53), RES_TABLE_CONFIG_HELD_BACK));
    CHECK(res_table_config_replaced(LONGEST, 64, 61) == 24);
    ended("replaced");
}

static void marks(void) {
    uint8_t bytes[80];
    record(bytes, 36, 32, 100);
    CHECK(wrote(res_table_config_marks(PHONE, 16, 64, out, ROOM), "FFFAAAAAAAAAAA"));
    CHECK(wrote(res_table_config_marks(ZEROS, 16, 16, out, 14), "BBBUUUUUUUUUUU"));
    CHECK(wrote(res_table_config_marks(bytes, 36, 64, out, 14), "BBBBBBBFAAAAAA"));
    CHECK(wrote(res_table_config_marks(bytes, 36, 32, out, 14), "BBBBBBBUUUUUUU"));
    CHECK(refused(res_table_config_marks(PHONE, 16, 64, out, 13), RES_TABLE_CONFIG_SHORT_BUFFER));
    CHECK(refused(res_table_config_marks(ZEROS, 0, 65, out, 0), RES_TABLE_CONFIG_NOT_AN_AGE));
    CHECK(refused(res_table_config_marks(ZEROS, 15, 64, out, 0), RES_TABLE_CONFIG_TOO_FEW_BYTES));
    CHECK(carries(res_table_config_marks(bytes, 35, 64, out, 0), RES_TABLE_CONFIG_FIELD_CUT, 8));
    ended("marks");
}

static void order(void) {
    uint8_t mcc[80], mnc[80], cut[80];
    record(mcc, 16, 4, 255);
    record(mnc, 20, 6, 1);
    record(cut, 17, 4, 0);
    CHECK(res_table_config_order(ZEROS, 16, PHONE, 16) == RES_TABLE_CONFIG_LESS);
    CHECK(res_table_config_order(PHONE, 16, PHONE, 16) == RES_TABLE_CONFIG_EQUAL);
    CHECK(res_table_config_order(PHONE, 16, ZEROS, 16) == RES_TABLE_CONFIG_GREATER);
    CHECK(res_table_config_order(mcc, 16, mnc, 20) == RES_TABLE_CONFIG_LESS);
    CHECK(res_table_config_order(ZEROS, 16, cut, 17) == RES_TABLE_CONFIG_EQUAL);
    CHECK(refused(res_table_config_order(cut, 16, ZEROS, 15), RES_TABLE_CONFIG_UNDECODED_CUT));
    CHECK(refused(res_table_config_order(ZEROS, 15, cut, 16), RES_TABLE_CONFIG_TOO_FEW_BYTES));
    CHECK(refused(res_table_config_order(PHONE, 16, cut, 16), RES_TABLE_CONFIG_UNDECODED_CUT));
    CHECK(refused(res_table_config_order(PHONE, 16, ZEROS, 0), RES_TABLE_CONFIG_TOO_FEW_BYTES));
    ended("order");
}

/* What the call on a name answers that is lent so many bytes. */
static uint64_t name(const char *word, size_t lent) {
    return res_table_config_named((const uint8_t *)word, count(word), out, lent);
}

/* Whether a name is taken, and the text of its record is the name again. */
static int back(const char *word) {
    uint8_t bytes[64];
    int holds = name(word, 64) == 64 && untouched(64);
    for (size_t i = 0; i < 64; i++) bytes[i] = out[i];
    fill();
    return holds && res_table_config_take(bytes, 64) == 64 && wrote(res_table_config_text(bytes, 64, out, ROOM), word);
}

/* Names that are taken: each place alone, the corners of the numbers, and one of every place. */
static const char *const NAMES[] = {
    "mcc1", "mnc65535", "en", "fil", "en-rUS", "es-r419", "neuter", "ldrtl", "sw1dp", "w65535dp", "h720dp", "xlarge", "notlong", "round",
    "widecg", "highdr", "land", "car", "vrheadset", "night", "hdpi", "nodpi", "161dpi", "65533dpi", "stylus", "keyssoft", "12key",
    "navhidden", "wheel", "0x1", "65535x65535", "v33", "v0.1", "v65535.65535",
    ("mcc310-mnc4-en-rUS-masculine-ldltr-sw320dp-w320dp-h480dp-normal-long-notround-nowidecg-lowdr-port-watch-notnight-xxhdpi-notouch-"
     "keysexposed-nokeys-navexposed-nonav-480x320-v33.1")};

/* Names that are refused, and the offset of the first part that ends none. */
static const struct {
    const char *name;
    uint32_t at;
} NO_NAMES[] = {
    /* no part */
    {"-", 1}, {"-en", 1}, {"--", 1}, {"en-", 3}, {"en--port", 3}, {"land-", 5}, {"en-port-hdpi-", 13},
    /* none that stands there */
    {"rUS", 0}, {"port-rUS", 5}, {"en-port-rUS", 8}, {"hdpi-port", 5}, {"port-land", 5}, {"en-en", 3}, {"en-mcc310", 3},
    /* none that stands anywhere */
    {"x", 0}, {"EN", 0}, {"en-rus", 3}, {"b+en", 0}, {"mcc0", 0}, {"mcc01", 0}, {"mcc65536", 0}, {"240dpi", 0}, {"0dpi", 0}, {"0x0", 0},
    {"480x", 0}, {"port-v0", 5}, {"v33.0", 0}, {"uiMode=9", 0}};

static void named(void) {
    uint8_t phone[64] = {0}, blank[64] = {64}, car[64] = {64}, long_name[1000];
    for (size_t i = 0; i < 16; i++) phone[i] = PHONE[i];
    phone[0] = 64, car[29] = 3;
    CHECK(wrote_bytes(name(PHONE_TEXT, ROOM), phone, 64) && wrote_bytes(name(PHONE_TEXT, 64), phone, 64));
    CHECK(wrote_bytes(name("", ROOM), blank, 64) && wrote_bytes(name("", RES_TABLE_CONFIG_NAMED_SIZE), blank, 64));
    CHECK(wrote_bytes(name("car", 65), car, 64));
    CHECK(refused(name(PHONE_TEXT, 63), RES_TABLE_CONFIG_SHORT_BUFFER) && refused(name(PHONE_TEXT, 0), RES_TABLE_CONFIG_SHORT_BUFFER));
    CHECK(refused(name("", 63), RES_TABLE_CONFIG_SHORT_BUFFER) && refused(name("", 0), RES_TABLE_CONFIG_SHORT_BUFFER));
    for (size_t i = 0; i < sizeof NAMES / sizeof *NAMES; i++) CHECK(back(NAMES[i]));
    for (size_t i = 0; i < sizeof NO_NAMES / sizeof *NO_NAMES; i++) {
        CHECK(carries(name(NO_NAMES[i].name, ROOM), RES_TABLE_CONFIG_NOT_A_NAME, NO_NAMES[i].at));
        CHECK(carries(name(NO_NAMES[i].name, 0), RES_TABLE_CONFIG_NOT_A_NAME, NO_NAMES[i].at));
    }
    for (size_t i = 0; i < sizeof long_name; i++) long_name[i] = i % 3 == 2 ? '-' : 'e';
    CHECK(carries(res_table_config_named(long_name, sizeof long_name, out, ROOM), RES_TABLE_CONFIG_NOT_A_NAME, 3));
    ended("named");
}

/* Records that aren't whole, worked out by hand from 01's table: a size, how many bytes there are, the number and the row. */
static const struct {
    uint8_t size, length;
    uint32_t number, row;
} CUTS[] = {
    /* no field is held behind the first sixteen bytes, or none that isn't there */
    {17, 16, 8, 0}, {19, 16, 8, 0}, {23, 20, 8, 0}, {39, 36, 8, 0}, {47, 40, 8, 0}, {60, 53, 8, 0}, {63, 61, 8, 0}, {65, 64, 8, 0},
    {255, 64, 8, 0}, {255, 79, 8, 0},
    /* each field, with none of its bytes or all but one; of several the first */
    {20, 16, 2, 4}, {20, 19, 2, 4}, {64, 16, 2, 4}, {24, 20, 2, 5}, {24, 23, 2, 5}, {255, 20, 2, 5}, {28, 24, 2, 6}, {32, 31, 2, 7},
    {36, 32, 2, 8}, {40, 39, 2, 9}, {48, 40, 2, 10}, {64, 40, 2, 10}, {64, 47, 2, 10}, {52, 48, 2, 11}, {53, 52, 2, 12}, {61, 53, 2, 13},
    {64, 60, 2, 13}, {64, 61, 2, 14}, {64, 63, 2, 14}, {65, 63, 2, 14}};

const uint32_t AGES[12] = {16, 20, 24, 28, 32, 36, 40, 48, 52, 53, 61, 64};

/* Every call on each of these, at every age: nothing that comes later in the order, a buffer of no bytes among it, is told instead. An index takes
   them for a run that stops at once. */
static void cut(void) {
    uint8_t bytes[80];
    for (size_t i = 0; i < sizeof CUTS / sizeof *CUTS; i++) {
        uint32_t number = CUTS[i].number, row = CUTS[i].row;
        size_t length = CUTS[i].length;
        record(bytes, CUTS[i].size, length - 1, 1);
        CHECK(carries(res_table_config_take(bytes, length), number, row));
        CHECK(carries(res_table_config_text(bytes, length, out, 0), number, row));
        CHECK(carries(res_table_config_order(bytes, length, ZEROS, 15), number, row));
        CHECK(carries(res_table_config_order(bytes, length, LONGEST, 63), number, row));
        CHECK(carries(res_table_config_order(ZEROS, 16, bytes, length), number, row));
        CHECK(refused(res_table_config_order(ZEROS, 15, bytes, length), RES_TABLE_CONFIG_TOO_FEW_BYTES));
        CHECK(carries(res_table_config_find(ZEROS, 0, bytes, length), number, row));
        CHECK(wrote(res_table_config_index(bytes, length, out, ROOM), ""));
        for (size_t j = 0; j < 12; j++) {
            CHECK(carries(res_table_config_aged_text(bytes, length, AGES[j], out, 0), number, row));
            CHECK(carries(res_table_config_replaced(bytes, length, AGES[j]), number, row));
            CHECK(carries(res_table_config_marks(bytes, length, AGES[j], out, 0), number, row));
            CHECK(carries(res_table_config_marks_word(bytes, length, AGES[j]), number, row));
        }
        CHECK(refused(res_table_config_aged_text(bytes, length, 63, out, 0), RES_TABLE_CONFIG_NOT_AN_AGE));
        CHECK(refused(res_table_config_marks_word(bytes, length, 63), RES_TABLE_CONFIG_NOT_AN_AGE));
    }
    ended("cut");
}

/* Whether two words are the same. */
static int same(const char *a, const char *b) {
    while (*a && *a == *b) a++, b++;
    return *a == *b;
}

static void header(void) {
    uint64_t answer = ((uint64_t)7 << 32) + 0xfffffff9u;
    CHECK(res_table_config_number(answer) == RES_TABLE_CONFIG_TOO_MUCH_INPUT);
    CHECK(res_table_config_carried(answer) == 0xfffffff9u && res_table_config_amount(answer) == 0);
    CHECK(res_table_config_amount(0xfffffff9u) == 0xfffffff9u && res_table_config_carried(0xfffffff9u) == 0);
    CHECK(RES_TABLE_CONFIG_UNREAD_FIELD == 6 && RES_TABLE_CONFIG_NOT_A_NAME == 11 && RES_TABLE_CONFIG_TOP_BITS == 12);
    CHECK(RES_TABLE_CONFIG_DEFAULT_AGE == 52);
    CHECK(RES_TABLE_CONFIG_MARKS == 14 && RES_TABLE_CONFIG_NAMED_SIZE == 64 && RES_TABLE_TYPE_HEAD == 10);
    CHECK(RES_TABLE_CONFIG_KEY_BYTES == 60 && RES_TABLE_CONFIG_ENTRY_BYTES == 76 && RES_TABLE_CONFIG_INDEX_MOST == 1024);
    CHECK(same(res_table_config_field(0), "size") && same(res_table_config_field(8), "screen_size_dp"));
    CHECK(same(res_table_config_field(10), "locale_variant") && same(res_table_config_field(14), "end_padding"));
    CHECK(same(res_table_config_field(15), "") && same(res_table_config_field(0xffffffffu), ""));
    ended("header");
}

int main(void) {
    fill();
    take();
    text();
    aged_text();
    replaced();
    marks();
    words();
    order();
    indexes();
    named();
    cut();
    header();
    types();
    checks = face_from_cpp(&failures);
    ended("C++");
    return all_failures != 0;
}
