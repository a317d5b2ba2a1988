/*
 * Resource configuration records of Android packages, the directory names that stand for them, and the type chunks that hold them: fifteen
 * calls on numbers and bytes, seven on records, one on words of marks, two on the index of a run, one on names and four on chunks. Link
 * libres_table_config.a, which `rt lib` in crates/res_table_config writes to its folder out/ (x86-64 Linux).
 *
 * Answers. Each call answers one number: a refusal's number in the upper 32 bits, 0 for a success. The lower 32 bits hold a
 * success's amount, or what the refusal carries: 2 carries the row of a field, 11 an offset, the others carry 0. Refusals are tested in
 * the order 3, 1, 2 and 8, 4, 5, as far as each can come; 2 and 8 stand at one place, since at most one of them holds. On a chunk it is
 * 3, 1, 9, 10, then 1, 2 and 8 of the record in its header, 4, 5; on a name 11, 5; on a word of marks 12, 5.
 *
 * Buffers. A pointer and the length behind it name that many bytes, from one object, and the pointer isn't null, also where the
 * length is 0. A success writes from the front of out and leaves the bytes behind what it wrote as they were. A refusal writes
 * nothing. No text is longer than RES_TABLE_CONFIG_TEXT_MOST.
 *
 * Aliasing. out doesn't overlap bytes or name. The two records of res_table_config_order may overlap, or be the same, and so may the
 * entries and the record of res_table_config_find. No call keeps a pointer or anything else, so calls on different buffers may run at
 * the same time.
 */
#ifndef RES_TABLE_CONFIG_H
#define RES_TABLE_CONFIG_H

#include <stddef.h>
#include <stdint.h>

#ifdef __cplusplus
extern "C" {
#endif

/* Why a call is refused. The calls of this header give 1 to 5, and 8; those on chunks also 9 and 10, the one on names 11, the one on
   words of marks 12. */
enum res_table_config_refusal {
    RES_TABLE_CONFIG_TOO_FEW_BYTES = 1,  /* fewer than the 16 bytes that a record has at the least, or than the 20 of a chunk's head */
    RES_TABLE_CONFIG_FIELD_CUT = 2,      /* 16 bytes or more, fewer than the record's size, and a field that the size holds ends past
                                            them: carries the row of the first such field, from 4 to 14 */
    RES_TABLE_CONFIG_NOT_AN_AGE = 3,     /* none of 16 20 24 28 32 36 40 48 52 53 61 64 */
    RES_TABLE_CONFIG_HELD_BACK = 4,      /* a byte of the record at offset age or later isn't zero */
    RES_TABLE_CONFIG_SHORT_BUFFER = 5,   /* out is shorter than what is to be written; index: or more than 1,024 records are distinct */
    RES_TABLE_CONFIG_UNREAD_FIELD = 6,   /* writer: a field that isn't read at the record's size isn't zero */
    RES_TABLE_CONFIG_TOO_MUCH_INPUT = 7, /* listing: more than 65,536 bytes of input */
    RES_TABLE_CONFIG_UNDECODED_CUT = 8,  /* 16 bytes or more, fewer than the record's size, and every field that the size holds is
                                            there: only undecoded bytes are lacking */
    RES_TABLE_CONFIG_WRONG_TYPE = 9,     /* the chunk's type isn't 0x0201 */
    RES_TABLE_CONFIG_WRONG_SIZES = 10,   /* the chunk's header size is below 20 or above its chunk size, or that is above the bytes
                                            given */
    RES_TABLE_CONFIG_NOT_A_NAME = 11,    /* the directory name isn't in the grammar: carries the offset of the first part that ends no
                                            name */
    RES_TABLE_CONFIG_TOP_BITS = 12       /* a bit from 28 up is set in the word of marks */
};

/* The age that a listing takes where none is named; the calls always take one. How many bytes the longest text has, how many marks there
   are, how many fields, whose rows count from 0, how many bytes res_table_config_named writes, how many a key and an entry of an index
   have, how many entries an index has at the most, and how many bytes res_table_type_head writes. */
enum {
    RES_TABLE_CONFIG_DEFAULT_AGE = 52,
    RES_TABLE_CONFIG_TEXT_MOST = 344,
    RES_TABLE_CONFIG_MARKS = 14,
    RES_TABLE_CONFIG_FIELDS = 15,
    RES_TABLE_CONFIG_NAMED_SIZE = 64,
    RES_TABLE_CONFIG_KEY_BYTES = 60,
    RES_TABLE_CONFIG_ENTRY_BYTES = 76,
    RES_TABLE_CONFIG_INDEX_MOST = 1024,
    RES_TABLE_TYPE_HEAD = 10
};

/* The amounts of res_table_config_order. */
enum res_table_config_ordering {
    RES_TABLE_CONFIG_LESS = 0,
    RES_TABLE_CONFIG_EQUAL = 1,
    RES_TABLE_CONFIG_GREATER = 2
};

/* The number of an answer: 0 for a success, else why the call is refused. */
static inline uint32_t res_table_config_number(uint64_t answer) {
    return (uint32_t)(answer >> 32);
}

/* The amount of an answer: 0 for a refusal. */
static inline uint32_t res_table_config_amount(uint64_t answer) {
    return res_table_config_number(answer) == 0 ? (uint32_t)(answer & 0xffffffffu) : 0;
}

/* What a refusal carries beside its number: the row of a cut field for RES_TABLE_CONFIG_FIELD_CUT, the offset of a part for
   RES_TABLE_CONFIG_NOT_A_NAME, and 0 for the other refusals and for a success. */
static inline uint32_t res_table_config_carried(uint64_t answer) {
    return res_table_config_number(answer) == 0 ? 0 : (uint32_t)(answer & 0xffffffffu);
}

/* The name of the field of a row, the rows in the order of the fields' offsets; "" for a number that is no row. So a refusal that
   carries 10 reads "cut inside field 10, locale_variant". */
static inline const char *res_table_config_field(uint32_t row) {
    static const char *const names[RES_TABLE_CONFIG_FIELDS] = {
        "size",                       /* 0: bytes 0 to 3 */
        "imsi",                       /* 1: 4 to 7 */
        "locale",                     /* 2: 8 to 11 */
        "screen_type",                /* 3: 12 to 15 */
        "generic_purpose_field",      /* 4: 16 to 19 */
        "screen_size",                /* 5: 20 to 23 */
        "version",                    /* 6: 24 to 27 */
        "screen_config",              /* 7: 28 to 31 */
        "screen_size_dp",             /* 8: 32 to 35 */
        "locale_script",              /* 9: 36 to 39 */
        "locale_variant",             /* 10: 40 to 47 */
        "screen_config_2",            /* 11: 48 to 51 */
        "locale_script_was_computed", /* 12: 52 */
        "locale_numbering_system",    /* 13: 53 to 60 */
        "end_padding",                /* 14: 61 to 63 */
    };
    return row < RES_TABLE_CONFIG_FIELDS ? names[row] : "";
}

/* How many bytes the record at the front of bytes takes. Refusals 1, 2, 8. */
uint64_t res_table_config_take(const uint8_t *bytes, size_t len);

/* Writes the record's text; the amount is its length. Refusals 1, 2, 8, 5. */
uint64_t res_table_config_text(const uint8_t *bytes, size_t len, uint8_t *out, size_t cap);

/* Writes the record's text for a reader of an age; the amount is its length. Refusals 3, 1, 2, 8, 4, 5. */
uint64_t res_table_config_aged_text(const uint8_t *bytes, size_t len, uint32_t age, uint8_t *out, size_t cap);

/* How many replacements the record's text for a reader of an age has: how often EF BF BD stands in it for bytes that are no UTF-8. One
   that the record itself has isn't counted. Refusals 3, 1, 2, 8, 4. */
uint64_t res_table_config_replaced(const uint8_t *bytes, size_t len, uint32_t age);

/* Writes a letter for each field after size, in field order: U past the age, A absent, B blank, F filled. The amount is 14.
   Refusals 3, 1, 2, 8, 5. */
uint64_t res_table_config_marks(const uint8_t *bytes, size_t len, uint32_t age, uint8_t *out, size_t cap);

/* The same marks in one word, which is the amount: two bits to each field after size, bits 0 and 1 to imsi and so on in field order.
   A is 0, B 1, F 2, U 3. Fourteen fields take bits 0 to 27, and those from 28 up are zero. Refusals 3, 1, 2, 8. */
uint64_t res_table_config_marks_word(const uint8_t *bytes, size_t len, uint32_t age);

/* Writes the fourteen letters of such a word; the amount is 14. Every word below 2^28 has them, also one that is of no record.
   Refusals 12, 5. */
uint64_t res_table_config_marks_letters(uint32_t word, uint8_t *out, size_t cap);

/* How the record at the front of a stands to the one at the front of b. Refusals 1, 2, 8 of a, then 1, 2, 8 of b. */
uint64_t res_table_config_order(const uint8_t *a, size_t a_len, const uint8_t *b, size_t b_len);

/*
 * The index of a run. A run is records end to end; it stops at its exact end, or at the first record that isn't whole. Its index has an
 * entry for each distinct record, in rising order; two records are alike where res_table_config_order says Equal. An entry is 76 bytes:
 * the record's key (60), the offset of its first occurrence (8) and how often it occurs (8), both little-endian.
 *
 * A key is the fourteen fields after size in field order, whatever the age: a word as four bytes, big-endian;
 * locale_script_was_computed as 1 where its byte isn't 0, else 0; every other field as it is stored; a field that the record is too
 * short to have as zeros. So keys compare byte by byte (memcmp) as their records do, and equal keys mean Equal.
 */

/* Writes the index of the run that begins at the front of bytes; the amount is how many entries there are. An empty run has none, nor
   have bytes that begin with no whole record. Refusal 5: out is shorter than the entries, or there are more than
   RES_TABLE_CONFIG_INDEX_MOST. So RES_TABLE_CONFIG_INDEX_MOST * RES_TABLE_CONFIG_ENTRY_BYTES are room enough, unless more records than
   that are distinct. Where the run stops, and why, a caller learns by walking it with res_table_config_take. */
uint64_t res_table_config_index(const uint8_t *bytes, size_t len, uint8_t *out, size_t cap);

/* Finds the entry of the record at the front of bytes: the amount is 0 where none has its key, else 1 + the place of the first that has,
   places counted from 0. In the index of a run there is one exactly where an Equal record is in the run. entries may be any bytes, also
   such as no run gives; what stands behind the last whole entry is none, and no more than 4,294,967,294 are looked at. Refusals 1, 2, 8. */
uint64_t res_table_config_find(const uint8_t *entries, size_t entries_len, const uint8_t *bytes, size_t len);

/* Eight little-endian bytes as a number. */
static inline uint64_t res_table_config_eight(const uint8_t *eight) {
    uint64_t number = 0;
    for (size_t i = 8; i > 0; i--) number = number << 8 | eight[i - 1];
    return number;
}

/* Of an entry, the offset of the record's first occurrence in the run. Its key is the first RES_TABLE_CONFIG_KEY_BYTES. */
static inline uint64_t res_table_config_entry_offset(const uint8_t entry[RES_TABLE_CONFIG_ENTRY_BYTES]) {
    return res_table_config_eight(entry + RES_TABLE_CONFIG_KEY_BYTES);
}

/* Of an entry, how often the record occurs in the run. */
static inline uint64_t res_table_config_entry_occurrences(const uint8_t entry[RES_TABLE_CONFIG_ENTRY_BYTES]) {
    return res_table_config_eight(entry + RES_TABLE_CONFIG_KEY_BYTES + 8);
}

/*
 * Directory names. A name, as en-rUS-port-hdpi, has no resource type in front. It is parts joined by single '-', in the order of a
 * record's text and at most one of each kind; the empty name has none. Parts are the words of texts that carry no '=', and these, in
 * which no number has a leading zero:
 *
 *   mccN mncN swNdp wNdp hNdp   N from 1 to 65535
 *   en fil                      a language: two or three small letters, but not car, which is a UI type
 *   rUS r419                    right behind a language, a region: r and two capitals or three digits
 *   Ndpi                        N from 1 to 65535, where no word stands for that density
 *   NxM                         each from 0 to 65535, not both 0
 *   vN vN.M                     N from 0 to 65535, M from 1 to 65535; v0 only with a minor version
 */

/* Writes the 64 bytes of the record for which a name stands: its size is 64, everything that isn't named is zero, and its text is the
   name again. The amount is 64. Refusals 11, 5. 11 carries the offset of the first part such that the name up to the part's end is
   none: 5 in "hdpi-port", 3 in "en-" and in "en--port", 1 in "-en", since the empty name is one. No such offset is above 325. */
uint64_t res_table_config_named(const uint8_t *name, size_t len, uint8_t *out, size_t cap);

/*
 * Type chunks. A chunk begins with its type, 0x0201 (2 bytes), its header size (2) and its chunk size (4), all little-endian. Then
 * come id (1), flags (1), two reserved bytes, entry count (4) and entries start (4). The record begins at byte 20 and has to lie
 * within the header size. What the header holds behind the record says nothing, and no byte behind the header is looked at.
 */

/* How many bytes the chunk at the front of bytes takes: its chunk size, so that the next one begins there. Refusals 1, 9, 10,
   then 1, 2, 8 of the record. */
uint64_t res_table_type_take(const uint8_t *bytes, size_t len);

/* Writes ten bytes of the chunk's head as they are stored: id, flags, entry count (4) and entries start (4). The amount is 10.
   Refusals 1, 9, 10, then 1, 2, 8 of the record, then 5. */
uint64_t res_table_type_head(const uint8_t *bytes, size_t len, uint8_t *out, size_t cap);

/* Writes the text of the chunk's record for a reader of an age; the amount is its length. Refusals 3, 1, 9, 10, then 1, 2, 8 of the
   record, then 4, 5. */
uint64_t res_table_type_aged_text(const uint8_t *bytes, size_t len, uint32_t age, uint8_t *out, size_t cap);

/* Writes the marks of the chunk's record, as res_table_config_marks does; the amount is 14. Refusals 3, 1, 9, 10, then 1, 2, 8 of the
   record, then 5. */
uint64_t res_table_type_marks(const uint8_t *bytes, size_t len, uint32_t age, uint8_t *out, size_t cap);

/* Four little-endian bytes as a number. */
static inline uint32_t res_table_type_number(const uint8_t *four) {
    return four[0] | (uint32_t)four[1] << 8 | (uint32_t)four[2] << 16 | (uint32_t)four[3] << 24;
}

/* Of the ten bytes that res_table_type_head writes, how many entries the chunk has. Its id is head[0], its flags are head[1]. */
static inline uint32_t res_table_type_entry_count(const uint8_t head[RES_TABLE_TYPE_HEAD]) {
    return res_table_type_number(head + 2);
}

/* Of these ten bytes, the offset in the chunk where its entries start. */
static inline uint32_t res_table_type_entries_start(const uint8_t head[RES_TABLE_TYPE_HEAD]) {
    return res_table_type_number(head + 6);
}

#ifdef __cplusplus
}
#endif

#endif
