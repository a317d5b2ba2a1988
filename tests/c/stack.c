/* Measures how many bytes of stack each call of the C face touches at most. Prints a row of the README's table for each call; the status
   is 1 where an answer is wrong. */
#include "res_table_config.h"

/* The one function of C's library that is called: a compiler for another machine may have no <stdio.h>. */
int printf(const char *format, ...);

/* The stack on which a call runs. It is painted before the call, so that what the call touched stands out. An index takes more than 8 KB. */
#define DEPTH 32768
static uint8_t stack[DEPTH] __attribute__((aligned(16)));

/* More than any call writes, but for an index. */
#define ROOM 400
static uint8_t out[ROOM];

/* Runs of records of 64 bytes, and room for the most entries. */
#define MOST RES_TABLE_CONFIG_INDEX_MOST
static uint8_t run[64 * 2 * MOST], entries[RES_TABLE_CONFIG_ENTRY_BYTES * MOST];

/* A record, how many of its bytes are given, the length and the replacements of its text, the words of its marks at ages 64 and 16, and why every
   call refuses it, where one does. */
struct given {
    uint8_t bytes[64];
    size_t length;
    uint32_t text, replaced, word, early_word;
    uint64_t refusal;
};

#define REFUSED(number) ((uint64_t)(number) << 32)

/* Each is less than the next in the order of records, but for the last, which is cut. */
static const struct given GIVEN[] = {
    /* en-rUS, and six numbers of five digits */
    {{64, 0, 0, 0, 0, 0, 0, 0, 'e', 'n', 'U', 'S', 0, 0, 48, 117, 0, 0, 0, 0, 48, 117, 48, 117, 48, 117, 48, 117, 0,
      0, 48, 117, 48, 117, 48, 117},
     64, 68, 0, 0x0555aa69, 0x0fffffe9, 0},
    /* mcc and mnc of five digits, b+sr+Latn+RS, and a variant and numbering system in which bytes are no UTF-8 */
    {{64, 0, 0, 0, 57, 48, 57, 48, 's', 'r', 'R', 'S', 0, 0, 0, 0, 0, 0, 0, 0, 0, 0, 0, 0, 0, 0, 0, 0, 0, 0, 0, 0,
      0, 0, 0, 0, 'L', 'a', 't', 'n', 'v', 0xe2, 0x82, 'x', 0xff, 'y', 0xc3, 0, 0, 0, 0, 0, 0, 'l', 'a', 0xf0, 0x9f,
      0x98, 'n'},
     64, 55, 4, 0x065a555a, 0x0fffffda, 0},
    /* the longest text */
    {{64, 0, 0, 0, 255, 255, 255, 255, 255, 255, 1, 128, 255, 255, 253, 255, 255, 255, 13, 3, 255, 255, 255, 255,
      255, 255, 255, 255, 82, 63, 255, 255, 255, 255, 255, 255, 255, 255, 255, 255, 255, 255, 255, 255, 255, 255,
      255, 255, 1, 9, 0, 0, 0, 255, 255, 255, 255, 255, 255, 255, 255},
     64, 344, 24, 0x066aaaaa, 0x0fffffea, 0},
    /* 64 bytes by its size, and 40 are there: field 10 is cut */
    {{64}, 40, 0, 0, 0, 0, REFUSED(RES_TABLE_CONFIG_FIELD_CUT) + 10},
};
#define GIVENS (sizeof GIVEN / sizeof *GIVEN)

/* The newest age, one whose readers hold each of these records back, and a number that is no age. */
static const uint32_t AGES[] = {64, 16, 33};

/* Names, and why each is refused, where it is: the empty one, one of every place, one whose numbers are as long as they can be, one whose last
   part ends none, and one that is refused in front. */
static const struct {
    const char *name;
    uint64_t refusal;
} NAMES[] = {
    {"", 0},
    {"mcc310-mnc4-en-rUS-masculine-ldltr-sw320dp-w320dp-h480dp-normal-long-notround-nowidecg-lowdr-port-watch-notnight-xxhdpi-notouch-"
     "keysexposed-nokeys-navexposed-nonav-480x320-v33.1",
     0},
    {"mcc65535-mnc65535-fil-r419-sw65535dp-w65535dp-h65535dp-65533dpi-65535x65535-v65535.65535", 0},
    {"en-rUS-port-hdpi-480x320-v33.65536", REFUSED(RES_TABLE_CONFIG_NOT_A_NAME) + 25},
    {"b+en", REFUSED(RES_TABLE_CONFIG_NOT_A_NAME)},
};

/* Words of marks: the lowest, one with marks of all four sorts, the highest, and three with a bit from 28 up, which are refused. */
static const uint32_t MARKS_WORDS[] = {0, 0x04e4e4e4, 0x0fffffff, 0x10000000, 0x84e4e4e4, 0xffffffff};

/* The calls but for order, which takes two records, index and find, which take a run and entries, named, which takes a name, and marks_letters, which
   takes a word. The amount of each, and whether it takes a chunk, an age and a buffer. */
enum amount { TAKEN, TEXT, REPLACED, MARKS, WORD, HEAD };
static const struct call {
    const char *name;
    void (*entry)(void);
    enum amount amount;
    int of_chunk, has_age, has_out;
} CALLS[] = {
    {"res_table_config_take", (void (*)(void))res_table_config_take, TAKEN, 0, 0, 0},
    {"res_table_config_text", (void (*)(void))res_table_config_text, TEXT, 0, 0, 1},
    {"res_table_config_aged_text", (void (*)(void))res_table_config_aged_text, TEXT, 0, 1, 1},
    {"res_table_config_replaced", (void (*)(void))res_table_config_replaced, REPLACED, 0, 1, 0},
    {"res_table_config_marks", (void (*)(void))res_table_config_marks, MARKS, 0, 1, 1},
    {"res_table_config_marks_word", (void (*)(void))res_table_config_marks_word, WORD, 0, 1, 0},
    {"res_table_type_take", (void (*)(void))res_table_type_take, TAKEN, 1, 0, 0},
    {"res_table_type_head", (void (*)(void))res_table_type_head, HEAD, 1, 0, 1},
    {"res_table_type_aged_text", (void (*)(void))res_table_type_aged_text, TEXT, 1, 1, 1},
    {"res_table_type_marks", (void (*)(void))res_table_type_marks, MARKS, 1, 1, 1},
};
#define CALL_COUNT (sizeof CALLS / sizeof *CALLS)

static int failures;

/* What an entry of up to five words answers on the stack. The code at hand keeps its own stack in a register that a callee restores. */
static uint64_t answer(void (*entry)(void), const uintptr_t words[5]) {
    uint64_t number;
    uintptr_t first = words[0], second = words[1], third = words[2], fourth = words[3];
    register uintptr_t fifth __asm__("r8") = words[4];
    __asm__ volatile("mov %%rsp, %%rbx\n\t"
                     "mov %[top], %%rsp\n\t"
                     "call *%[entry]\n\t"
                     "mov %%rbx, %%rsp"
                     : "=a"(number), "+D"(first), "+S"(second), "+d"(third), "+c"(fourth), "+r"(fifth)
                     : [top] "r"(stack + DEPTH), [entry] "r"(entry)
                     : "rbx", "r9", "r10", "r11", "cc", "memory", "xmm0", "xmm1", "xmm2", "xmm3", "xmm4", "xmm5", "xmm6", "xmm7",
                       "xmm8", "xmm9", "xmm10", "xmm11", "xmm12", "xmm13", "xmm14", "xmm15");
    return number;
}

/* Calls an entry, holds its answer to what is expected, and raises the most bytes that were touched. The first call isn't measured: it may
   pass through the dynamic linker, which binds C's memset then. A touched byte may hold the paint, so there are two paints. */
static void measure(const char *name, void (*entry)(void), const uintptr_t words[5], uint64_t expected, size_t *most) {
    static const uint8_t PAINTS[] = {0, 0xa5, 0x5a};
    for (size_t p = 0; p < sizeof PAINTS; p++) {
        volatile uint8_t *painted = stack;
        for (size_t i = 0; i < DEPTH; i++) painted[i] = PAINTS[p];
        if (answer(entry, words) != expected) {
            failures++;
            printf("stack: FAILED: %s answers something else\n", name);
        }
        size_t whole = 0;
        while (whole < DEPTH && painted[whole] == PAINTS[p]) whole++;
        if (whole == 0) {
            failures++;
            printf("stack: FAILED: %s needs more than %d bytes\n", name, DEPTH);
        }
        if (p > 0 && *most < DEPTH - whole) *most = DEPTH - whole;
    }
}

/* The amount of a call's success on a record at an age. */
static uint32_t amount(const struct call *call, const struct given *given, uint32_t age) {
    const uint32_t amounts[] = {call->of_chunk ? 84 : 64, given->text, given->replaced, RES_TABLE_CONFIG_MARKS,
                                age == 16 ? given->early_word : given->word, RES_TABLE_TYPE_HEAD};
    return amounts[call->amount];
}

/* What a call has to answer that is lent so many bytes. */
static uint64_t expected(const struct call *call, const struct given *given, uint32_t age, size_t room) {
    if (call->has_age && age == 33) return REFUSED(RES_TABLE_CONFIG_NOT_AN_AGE);
    if (given->refusal) return given->refusal;
    int marks = call->amount == MARKS || call->amount == WORD;
    if (call->has_age && age == 16 && !marks) return REFUSED(RES_TABLE_CONFIG_HELD_BACK);
    if (call->has_out && room < amount(call, given, age)) return REFUSED(RES_TABLE_CONFIG_SHORT_BUFFER);
    return amount(call, given, age);
}

/* Measures a call on a record at each age with so many bytes lent. */
static void at_ages(const struct call *call, const struct given *given, size_t room, size_t *most) {
    uint8_t chunk[84] = {1, 2, (uint8_t)(20 + given->length), 0, 84};
    for (size_t i = 0; i < 64; i++) chunk[20 + i] = given->bytes[i];
    for (size_t i = 0; i < sizeof AGES / sizeof *AGES; i++) {
        uintptr_t words[5] = {(uintptr_t)(call->of_chunk ? chunk : given->bytes), call->of_chunk ? sizeof chunk : given->length};
        size_t count = 2;
        if (call->has_age) words[count++] = AGES[i];
        if (call->has_out) {
            words[count++] = (uintptr_t)out;
            words[count] = room;
        }
        measure(call->name, call->entry, words, expected(call, given, AGES[i], room), most);
    }
}

/* Measures a call on every record with room for what it writes, as much as that takes and more, with a byte less, and with none. */
static void row(const struct call *call) {
    size_t room = 0, one_short = 0, empty = 0;
    for (size_t i = 0; i < GIVENS; i++) {
        size_t length = amount(call, &GIVEN[i], 64);
        at_ages(call, &GIVEN[i], ROOM, &room);
        at_ages(call, &GIVEN[i], length, &room);
        if (length > 0) at_ages(call, &GIVEN[i], length - 1, &one_short);
        at_ages(call, &GIVEN[i], 0, &empty);
    }
    if (call->has_out)
        printf("| `%s` | %zu | %zu | %zu |\n", call->name, room, one_short, empty);
    else
        printf("| `%s` | %zu | | |\n", call->name, room);
}

/* Measures the call on every word of marks that is lent so many bytes. */
static void letters(size_t room, size_t *most) {
    for (size_t i = 0; i < sizeof MARKS_WORDS / sizeof *MARKS_WORDS; i++) {
        const uintptr_t words[5] = {MARKS_WORDS[i], (uintptr_t)out, room};
        uint64_t lent = room < RES_TABLE_CONFIG_MARKS ? REFUSED(RES_TABLE_CONFIG_SHORT_BUFFER) : RES_TABLE_CONFIG_MARKS;
        uint64_t expected = MARKS_WORDS[i] >> 28 ? REFUSED(RES_TABLE_CONFIG_TOP_BITS) : lent;
        measure("res_table_config_marks_letters", (void (*)(void))res_table_config_marks_letters, words, expected, most);
    }
}

/* Measures it with room for the letters and more, with a byte less, and with none. */
static void marks_letters(void) {
    size_t room = 0, one_short = 0, empty = 0;
    letters(ROOM, &room);
    letters(RES_TABLE_CONFIG_MARKS, &room);
    letters(RES_TABLE_CONFIG_MARKS - 1, &one_short);
    letters(0, &empty);
    printf("| `res_table_config_marks_letters` | %zu | %zu | %zu |\n", room, one_short, empty);
}

/* Measures the order of every two records. */
static void order(void) {
    size_t most = 0;
    for (size_t i = 0; i < GIVENS; i++) {
        for (size_t j = 0; j < GIVENS; j++) {
            const uintptr_t words[5] = {(uintptr_t)GIVEN[i].bytes, GIVEN[i].length, (uintptr_t)GIVEN[j].bytes, GIVEN[j].length};
            uint64_t ordering = i < j ? RES_TABLE_CONFIG_LESS : i == j ? RES_TABLE_CONFIG_EQUAL : RES_TABLE_CONFIG_GREATER;
            uint64_t refusal = GIVEN[i].refusal ? GIVEN[i].refusal : GIVEN[j].refusal;
            measure("res_table_config_order", (void (*)(void))res_table_config_order, words, refusal ? refusal : ordering, &most);
        }
    }
    printf("| `res_table_config_order` | %zu | | |\n", most);
}

/* Puts so many distinct records into the run, rising or falling, and then all of them once more: those that are given, but for the cut one, and the
   last of these with other numbers in its last field. Gives the run's length. */
static size_t made(size_t distinct, int falling) {
    for (size_t i = 0; i < 2 * distinct; i++) {
        size_t nth = i % distinct, place = falling ? distinct - 1 - nth : nth, given = place < GIVENS - 1 ? place : GIVENS - 2;
        uint8_t *record = run + 64 * i;
        for (size_t j = 0; j < 64; j++) record[j] = GIVEN[given].bytes[j];
        record[62] = (uint8_t)((place - given) >> 8);
        record[63] = (uint8_t)(place - given);
    }
    return 64 * 2 * distinct;
}

/* Runs: how many records are distinct, whether they fall, and how many bytes of the last record lack. One is empty, and one stops at a record that
   is cut. */
static const struct {
    size_t distinct, lack;
    int falling;
} RUNS[] = {{0, 0, 0}, {1, 0, 0}, {3, 0, 0}, {3, 1, 0}, {3, 0, 1}, {MOST, 0, 0}, {MOST, 0, 1}};

/* Measures the index of a run with room for as many entries as it has and for the most, with a byte less, and with none. */
static void indexed(size_t length, size_t count, size_t most[3]) {
    const size_t rooms[] = {sizeof entries, RES_TABLE_CONFIG_ENTRY_BYTES * count, RES_TABLE_CONFIG_ENTRY_BYTES * count - 1, 0};
    for (size_t i = 0; i < 4; i++) {
        if (count == 0 && i == 2) continue;
        const uintptr_t words[5] = {(uintptr_t)run, length, (uintptr_t)entries, rooms[i]};
        int fits = count <= MOST && RES_TABLE_CONFIG_ENTRY_BYTES * count <= rooms[i];
        uint64_t expected = fits ? count : REFUSED(RES_TABLE_CONFIG_SHORT_BUFFER);
        measure("res_table_config_index", (void (*)(void))res_table_config_index, words, expected, &most[i > 0 ? i - 1 : 0]);
    }
}

/* Measures the index of every run, and of one that has a record too many. */
static void indexes(void) {
    size_t most[3] = {0, 0, 0};
    for (size_t i = 0; i < sizeof RUNS / sizeof *RUNS; i++)
        indexed(made(RUNS[i].distinct, RUNS[i].falling) - RUNS[i].lack, RUNS[i].distinct, most);
    size_t length = made(MOST, 0);
    run[length - 1]++;
    indexed(length, MOST + 1, most);
    printf("| `res_table_config_index` | %zu | %zu | %zu |\n", most[0], most[1], most[2]);
}

/* Measures finding each record that is given, and the last of the most that an index has, in no entries, in one, in two and a rest, and in all. */
static void found(void) {
    size_t most = 0;
    static const size_t LENGTHS[] = {0, RES_TABLE_CONFIG_ENTRY_BYTES, 3 * RES_TABLE_CONFIG_ENTRY_BYTES - 1, sizeof entries};
    size_t length = made(MOST, 0);
    res_table_config_index(run, length, entries, sizeof entries);
    for (size_t i = 0; i <= GIVENS; i++) {
        const uint8_t *record = i < GIVENS ? GIVEN[i].bytes : run + length - 64;
        size_t place = i < GIVENS ? i : MOST - 1;
        for (size_t j = 0; j < sizeof LENGTHS / sizeof *LENGTHS; j++) {
            const uintptr_t words[5] = {(uintptr_t)entries, LENGTHS[j], (uintptr_t)record, i < GIVENS ? GIVEN[i].length : 64};
            uint64_t amount = LENGTHS[j] < RES_TABLE_CONFIG_ENTRY_BYTES * (place + 1) ? 0 : place + 1;
            uint64_t refusal = i < GIVENS ? GIVEN[i].refusal : 0;
            measure("res_table_config_find", (void (*)(void))res_table_config_find, words, refusal ? refusal : amount, &most);
        }
    }
    printf("| `res_table_config_find` | %zu | | |\n", most);
}

/* Measures the call on every name that is lent so many bytes. */
static void names(size_t room, size_t *most) {
    for (size_t i = 0; i < sizeof NAMES / sizeof *NAMES; i++) {
        size_t length = 0;
        while (NAMES[i].name[length]) length++;
        const uintptr_t words[5] = {(uintptr_t)NAMES[i].name, length, (uintptr_t)out, room};
        uint64_t lent = room < RES_TABLE_CONFIG_NAMED_SIZE ? REFUSED(RES_TABLE_CONFIG_SHORT_BUFFER) : RES_TABLE_CONFIG_NAMED_SIZE;
        uint64_t expected = NAMES[i].refusal ? NAMES[i].refusal : lent;
        measure("res_table_config_named", (void (*)(void))res_table_config_named, words, expected, most);
    }
}

/* Measures it with room for the record and more, with a byte less, and with none. */
static void named(void) {
    size_t room = 0, one_short = 0, empty = 0;
    names(ROOM, &room);
    names(RES_TABLE_CONFIG_NAMED_SIZE, &room);
    names(RES_TABLE_CONFIG_NAMED_SIZE - 1, &one_short);
    names(0, &empty);
    printf("| `res_table_config_named` | %zu | %zu | %zu |\n", room, one_short, empty);
}

int main(void) {
    for (size_t i = 0; i < CALL_COUNT; i++)
        if (!CALLS[i].of_chunk) row(&CALLS[i]);
    marks_letters();
    order();
    indexes();
    found();
    named();
    for (size_t i = 0; i < CALL_COUNT; i++)
        if (CALLS[i].of_chunk) row(&CALLS[i]);
    return failures != 0;
}
