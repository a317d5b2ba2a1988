/* The checks of the marks in one word. Every word and every letter is worked out by hand from K8: A 0, B 1, F 2, U 3, imsi in the two
   lowest bits. So a digit of a word has two marks: 5 is B B, 6 is F B, 9 is B F, a is F F, d is B U; the last digit's marks come first. */
#include "face.h"

/* Records of docs/example.run, some of them with other bytes where only zero or not zero matters. */
static const uint8_t BLANK[80] = {0};
static const uint8_t SERBIAN[64] = {[0] = 64, [8] = 's', 'r', [36] = 'L', 'a', 't', 'n'};
static const uint8_t WIDE[36] = {[0] = 36, [8] = 's', 'r', [32] = 88, 2};
static const uint8_t LATER[72] = {[0] = 72, [8] = 's', 'r', [36] = 'L', 'a', 't', 'n', [70] = 1};
static const uint8_t ARABIC[64] = {[0] = 64, [8] = 'a', 'r', [53] = 'l', 'a', 't', 'n'};

/* The variant, which ends at byte 48, isn't held by a size of 44, though four of its bytes are there. */
static const uint8_t HALF[44] = {[0] = 44, [39] = 1, [43] = 1};

/* Records, the age of a reader, the word and its letters. */
static const struct {
    const uint8_t *bytes;
    size_t length;
    uint32_t age, word;
    const char *letters;
} MARKED[] = {
    {BLANK, 16, 16, 0x0fffffd5, "BBBUUUUUUUUUUU"},
    {BLANK, 16, 64, 0x00000015, "BBBAAAAAAAAAAA"},
    {PHONE, 16, 52, 0x0fc0002a, "FFFAAAAAAAAUUU"},
    {PHONE, 16, 64, 0x0000002a, "FFFAAAAAAAAAAA"},
    {SERBIAN, 64, 52, 0x0fd65559, "BFBBBBBBFBBUUU"},
    {SERBIAN, 64, 64, 0x05565559, "BFBBBBBBFBBBBB"},
    {SERBIAN, 64, 36, 0x0fff5559, "BFBBBBBBUUUUUU"},
    {WIDE, 36, 52, 0x0fc09559, "BFBBBBBFAAAUUU"},
    {WIDE, 36, 64, 0x00009559, "BFBBBBBFAAAAAA"},
    {WIDE, 36, 32, 0x0fffd559, "BFBBBBBUUUUUUU"},
    /* marks are given of records that are held back */
    {LATER, 72, 52, 0x0fd65559, "BFBBBBBBFBBUUU"},
    {LATER, 72, 64, 0x05565559, "BFBBBBBBFBBBBB"},
    {ARABIC, 64, 52, 0x0fd55559, "BFBBBBBBBBBUUU"},
    {ARABIC, 64, 61, 0x0e555559, "BFBBBBBBBBBBFU"},
    {ARABIC, 64, 64, 0x06555559, "BFBBBBBBBBBBFB"},
    {HALF, 44, 40, 0x0ffe5555, "BBBBBBBBFUUUUU"},
    {HALF, 44, 48, 0x0ff25555, "BBBBBBBBFAUUUU"},
    {HALF, 44, 64, 0x00025555, "BBBBBBBBFAAAAA"},
};

/* Words that need no record, and their letters. */
static const struct {
    uint32_t word;
    const char *letters;
} LETTERS[] = {
    {0, "AAAAAAAAAAAAAA"},          {0x05555555, "BBBBBBBBBBBBBB"}, {0x0aaaaaaa, "FFFFFFFFFFFFFF"}, {0x0fffffff, "UUUUUUUUUUUUUU"},
    {1, "BAAAAAAAAAAAAA"},          {2, "FAAAAAAAAAAAAA"},          {3, "UAAAAAAAAAAAAA"},          {4, "ABAAAAAAAAAAAA"},
    {0x04000000, "AAAAAAAAAAAAAB"}, {0x08000000, "AAAAAAAAAAAAAF"}, {0x0c000000, "AAAAAAAAAAAAAU"}, {0x00010000, "AAAAAAAABAAAAA"},
    {0x04e4e4e4, "ABFUABFUABFUAB"}, {0x0b1b1b1b, "UFBAUFBAUFBAUF"}, {0x0139c936, "FBUABFAUBFUABA"}, {0x0c6936c9, "BFAUFBUABFFBAU"},
};

/* At each of the twelve ages, the words of a blank record of 64 bytes and of one of 16. */
static const uint32_t BLANKS[12][2] = {
    {0x0fffffd5, 0x0fffffd5}, {0x0fffff55, 0x0fffff15}, {0x0ffffd55, 0x0ffffc15}, {0x0ffff555, 0x0ffff015},
    {0x0fffd555, 0x0fffc015}, {0x0fff5555, 0x0fff0015}, {0x0ffd5555, 0x0ffc0015}, {0x0ff55555, 0x0ff00015},
    {0x0fd55555, 0x0fc00015}, {0x0f555555, 0x0f000015}, {0x0d555555, 0x0c000015}, {0x05555555, 0x00000015},
};

/* The first and the last byte of each field after size, and the word of a record of 64 bytes in which only one of the two isn't zero. */
static const struct {
    uint8_t first, last;
    uint32_t word;
} FILLED[RES_TABLE_CONFIG_MARKS] = {
    {4, 7, 0x05555556},   {8, 11, 0x05555559},  {12, 15, 0x05555565}, {16, 19, 0x05555595}, {20, 23, 0x05555655},
    {24, 27, 0x05555955}, {28, 31, 0x05556555}, {32, 35, 0x05559555}, {36, 39, 0x05565555}, {40, 47, 0x05595555},
    {48, 51, 0x05655555}, {52, 52, 0x05955555}, {53, 60, 0x06555555}, {61, 63, 0x09555555},
};

/* Whether a call on a word writes these letters, into just enough bytes and into more, and refuses fewer. */
static int writes(uint32_t word, const char *letters) {
    int holds = wrote(res_table_config_marks_letters(word, out, RES_TABLE_CONFIG_MARKS), letters);
    holds = holds && wrote(res_table_config_marks_letters(word, out, 15), letters);
    holds = holds && wrote(res_table_config_marks_letters(word, out, ROOM), letters);
    for (size_t lent = 0; lent < RES_TABLE_CONFIG_MARKS; lent++)
        holds = holds && refused(res_table_config_marks_letters(word, out, lent), RES_TABLE_CONFIG_SHORT_BUFFER);
    return holds;
}

/* Whether one filled field has its word at each age: the first age knows three fields, each later one a field more, and the others are U. */
static int filled(size_t field) {
    uint8_t bytes[80];
    int holds = 1;
    for (size_t i = 0; i < 12; i++) {
        uint32_t unknown = 0x0fffffffu << 2 * (3 + i) & 0x0fffffffu;
        record(bytes, 64, FILLED[field].first, 1);
        holds = holds && res_table_config_marks_word(bytes, 64, AGES[i]) == (FILLED[field].word | unknown);
        record(bytes, 64, FILLED[field].last, 128);
        holds = holds && res_table_config_marks_word(bytes, 64, AGES[i]) == (FILLED[field].word | unknown);
    }
    return holds;
}

/* The words of records, beside the letters of the older call and those of the word. */
static void marked(void) {
    uint8_t bytes[80];
    for (size_t i = 0; i < sizeof MARKED / sizeof *MARKED; i++) {
        CHECK(res_table_config_marks_word(MARKED[i].bytes, MARKED[i].length, MARKED[i].age) == MARKED[i].word);
        CHECK(wrote(res_table_config_marks(MARKED[i].bytes, MARKED[i].length, MARKED[i].age, out, ROOM), MARKED[i].letters));
        CHECK(writes(MARKED[i].word, MARKED[i].letters));
    }
    record(bytes, 64, 0, 64);
    for (size_t i = 0; i < 12; i++) {
        CHECK(res_table_config_marks_word(bytes, 64, AGES[i]) == BLANKS[i][0]);
        CHECK(res_table_config_marks_word(bytes, 80, AGES[i]) == BLANKS[i][0]);
        CHECK(res_table_config_marks_word(BLANK, 16, AGES[i]) == BLANKS[i][1]);
        CHECK(res_table_config_marks_word(BLANK, 80, AGES[i]) == BLANKS[i][1]);
    }
    for (size_t i = 0; i < RES_TABLE_CONFIG_MARKS; i++) CHECK(filled(i));
    /* no byte behind the record counts, a field's or none */
    record(bytes, 16, 16, 255);
    CHECK(res_table_config_marks_word(bytes, 80, 64) == 0x00000015);
    record(bytes, 65, 64, 255);
    CHECK(res_table_config_marks_word(bytes, 65, 64) == 0x05555555);
    ended("words: of records");
}

/* Bytes that have no marks at an age, and why: both calls refuse them alike. An age that is none comes first, then too few bytes. */
static void refusals(void) {
    static const struct {
        const uint8_t *bytes;
        size_t length;
        uint32_t age, number, row;
    } REFUSED[] = {
        {BLANK, 0, 65, 3, 0},    {BLANK, 15, 0, 3, 0},    {BLANK, 16, 33, 3, 0},   {WIDE, 35, 63, 3, 0},    {LATER, 64, 0xffffffff, 3, 0},
        {BLANK, 16, 320, 3, 0},  {BLANK, 0, 64, 1, 0},    {BLANK, 15, 16, 1, 0},   {LATER, 15, 64, 1, 0},   {WIDE, 16, 16, 2, 4},
        {WIDE, 35, 16, 2, 8},    {WIDE, 35, 64, 2, 8},    {ARABIC, 40, 36, 2, 10}, {ARABIC, 63, 64, 2, 14}, {LATER, 63, 16, 2, 14},
        {LATER, 64, 16, 8, 0},   {LATER, 71, 64, 8, 0},   {HALF, 40, 64, 8, 0},    {HALF, 43, 40, 8, 0},    {HALF, 39, 40, 2, 9},
    };
    for (size_t i = 0; i < sizeof REFUSED / sizeof *REFUSED; i++) {
        uint32_t age = REFUSED[i].age, number = REFUSED[i].number, row = REFUSED[i].row;
        CHECK(carries(res_table_config_marks_word(REFUSED[i].bytes, REFUSED[i].length, age), number, row));
        CHECK(carries(res_table_config_marks(REFUSED[i].bytes, REFUSED[i].length, age, out, 0), number, row));
        CHECK(carries(res_table_config_marks(REFUSED[i].bytes, REFUSED[i].length, age, out, ROOM), number, row));
    }
    ended("words: refused records");
}

/* Letters of words: those of each, and 12 for every four top bits but zero, each bit from 28 to 31 alone among them, with and without bits
   below, whatever is lent. */
static void letters(void) {
    static const uint32_t BELOW[] = {0, 1, 0x15, 0x0fc0002a, 0x08000000, 0x0fffffff};
    static const size_t LENT[] = {0, 1, 13, 14, 15, ROOM};
    for (size_t i = 0; i < sizeof LETTERS / sizeof *LETTERS; i++) CHECK(writes(LETTERS[i].word, LETTERS[i].letters));
    for (uint32_t top = 1; top < 16; top++)
        for (size_t i = 0; i < sizeof BELOW / sizeof *BELOW; i++)
            for (size_t j = 0; j < sizeof LENT / sizeof *LENT; j++)
                CHECK(refused(res_table_config_marks_letters(top << 28 | BELOW[i], out, LENT[j]), RES_TABLE_CONFIG_TOP_BITS));
    ended("words: letters");
}

void words(void) {
    marked();
    refusals();
    letters();
}
