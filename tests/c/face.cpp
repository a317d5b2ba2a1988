// Calls the C face from C++: the same header, the same names.
#include "res_table_config.h"
#include "res_table_config.h"

static const uint8_t SWEDISH[16] = {16, 0, 0, 0, 0, 0, 0, 0, 's', 'v'};

// The same with a byte for its second letter that is none.
static const uint8_t DAMAGED[16] = {16, 0, 0, 0, 0, 0, 0, 0, 's', 0xff};

// A record of 64 bytes, of which there are 16: its field 4 is the first that is cut.
static const uint8_t CUT[16] = {64, 0, 0, 0, 0, 0, 0, 0, 's', 'v'};

// A name whose first three bytes are none.
static const uint8_t NAME[] = {'s', 'v', '-', 'l', 'a', 'n', 'd'};

// A chunk that holds the Swedish record: id 7, flags 1, three entries, which start at 36.
static const uint8_t CHUNK[36] = {1, 2, 36, 0, 36, 0, 0, 0, 7, 1, 0, 0, 3, 0, 0, 0, 36, 0, 0, 0, 16, 0, 0, 0, 0, 0, 0, 0, 's', 'v'};

// How many checks there are, and in failed how many more fail.
template <int count> static int counted(const bool (&holds)[count], int *failed) {
    for (bool one : holds)
        if (!one) ++*failed;
    return count;
}

// The calls on an index: whether the answers are the right ones.
static int of_index(int *failed) {
    uint8_t entry[RES_TABLE_CONFIG_ENTRY_BYTES] = {};
    const bool holds[] = {
        // the locale is the key's second word, whose bytes are turned round
        res_table_config_index(SWEDISH, sizeof SWEDISH, entry, sizeof entry) == 1 && entry[6] == 'v' && entry[7] == 's',
        res_table_config_entry_offset(entry) == 0 && res_table_config_entry_occurrences(entry) == 1,
        res_table_config_find(entry, sizeof entry, SWEDISH, sizeof SWEDISH) == 1,
        res_table_config_find(entry, sizeof entry, DAMAGED, sizeof DAMAGED) == 0,
        res_table_config_find(entry, sizeof entry - 1, SWEDISH, sizeof SWEDISH) == 0,
        res_table_config_number(res_table_config_index(SWEDISH, sizeof SWEDISH, entry, 75)) == RES_TABLE_CONFIG_SHORT_BUFFER,
        res_table_config_number(res_table_config_find(entry, 0, CUT, sizeof CUT)) == RES_TABLE_CONFIG_FIELD_CUT,
    };
    return counted(holds, failed);
}

// Each other call once, then those on an index.
extern "C" int face_from_cpp(int *failed) {
    uint8_t text[RES_TABLE_CONFIG_TEXT_MOST] = {};
    uint8_t aged[2] = {};
    uint8_t marks[RES_TABLE_CONFIG_MARKS] = {};
    uint8_t letters[RES_TABLE_CONFIG_MARKS] = {};
    uint8_t named[RES_TABLE_CONFIG_NAMED_SIZE] = {};
    uint8_t head[RES_TABLE_TYPE_HEAD] = {};
    const bool holds[] = {
        res_table_config_take(SWEDISH, sizeof SWEDISH) == 16,
        res_table_config_text(SWEDISH, sizeof SWEDISH, text, sizeof text) == 2 && text[0] == 's' && text[1] == 'v',
        res_table_config_aged_text(SWEDISH, sizeof SWEDISH, 16, aged, sizeof aged) == 2 && aged[1] == 'v',
        res_table_config_replaced(DAMAGED, sizeof DAMAGED, 16) == 1,
        res_table_config_marks(SWEDISH, sizeof SWEDISH, 16, marks, sizeof marks) == 14 && marks[1] == 'F',
        // B F B and eleven U: 1, 2 and 1 in the lowest six bits, and 22 ones above them
        res_table_config_marks_word(SWEDISH, sizeof SWEDISH, 16) == 0x0fffffd9,
        res_table_config_marks_letters(0x0fffffd9, letters, sizeof letters) == 14 && letters[1] == 'F' && letters[13] == 'U',
        res_table_config_number(res_table_config_marks_letters(0x1fffffd9, letters, 0)) == RES_TABLE_CONFIG_TOP_BITS,
        res_table_config_number(res_table_config_marks_letters(0x0fffffd9, letters, 13)) == RES_TABLE_CONFIG_SHORT_BUFFER,
        res_table_config_order(SWEDISH, sizeof SWEDISH, SWEDISH, sizeof SWEDISH) == RES_TABLE_CONFIG_EQUAL,
        res_table_config_number(res_table_config_take(SWEDISH, 15)) == RES_TABLE_CONFIG_TOO_FEW_BYTES,
        res_table_config_number(res_table_config_take(CUT, sizeof CUT)) == RES_TABLE_CONFIG_FIELD_CUT,
        res_table_config_field(res_table_config_carried(res_table_config_take(CUT, sizeof CUT)))[0] == 'g',
        res_table_config_named(NAME, sizeof NAME, named, sizeof named) == 64 && named[0] == 64 && named[9] == 'v' && named[12] == 2,
        res_table_config_named(NAME, 0, named, sizeof named) == 64 && named[0] == 64 && named[8] == 0,
        res_table_config_number(res_table_config_named(NAME, 3, named, 0)) == RES_TABLE_CONFIG_NOT_A_NAME,
        res_table_config_carried(res_table_config_named(NAME, 3, named, 0)) == 3,
        res_table_config_number(res_table_config_named(NAME, sizeof NAME, named, 63)) == RES_TABLE_CONFIG_SHORT_BUFFER,
        res_table_type_take(CHUNK, sizeof CHUNK) == 36,
        res_table_type_head(CHUNK, sizeof CHUNK, head, sizeof head) == 10 && head[0] == 7 && head[1] == 1,
        res_table_type_entry_count(head) == 3 && res_table_type_entries_start(head) == 36,
        res_table_type_aged_text(CHUNK, sizeof CHUNK, 16, text, sizeof text) == 2 && text[0] == 's' && text[1] == 'v',
        res_table_type_marks(CHUNK, sizeof CHUNK, 16, marks, sizeof marks) == 14 && marks[1] == 'F',
        res_table_config_number(res_table_type_take(CHUNK, 35)) == RES_TABLE_CONFIG_WRONG_SIZES,
    };
    return counted(holds, failed) + of_index(failed);
}
