/*
 * The driver of the comparison at scale: reads questions, makes the port's calls, and writes what came of each. What tests/rust
 * writes and reads on the other sides is framed, numbers little-endian, and this machine's are too:
 *
 *   question  tag 1, number 4, index 8, offset 8, bytes lent 4, length of the first input 4, of the second 4, the two inputs
 *   answer    status 1, answer 8, length 4, the lent bytes up to the last that isn't what it was before the call
 *
 * Each input and the lent bytes stand between guards. The status has a bit for each that isn't as it was: 1 the guard in front of
 * the lent bytes, 2 the one behind them, 4 an input or a guard of it. Exit status: 1 where the questions end before their last
 * frame, where one can't be asked here, and where nobody takes the answers.
 */
#include "res_table_config.h"

/* The functions of C's library and of the system that are called: a compiler for another machine may have no headers of them. */
void *memcpy(void *to, const void *from, size_t count);
int memcmp(const void *a, const void *b, size_t count);
long read(int file, void *to, size_t count);
long write(int file, const void *from, size_t count);

/* What crates/test_probe and crates/test_probe_chunks export for this run. */
uint64_t probe_first_line(const uint8_t *bytes, size_t len, uint32_t age, uint8_t *out, size_t cap);
uint64_t probe_line(const uint8_t *bytes, size_t len, uint32_t age, size_t index, size_t offset, uint8_t *out, size_t cap);
uint64_t probe_next(const uint8_t *bytes, size_t len, uint32_t age, size_t index, size_t offset, uint8_t *out, size_t cap);
uint64_t probe_walk(const uint8_t *bytes, size_t len, size_t offset);
size_t probe_records(const uint8_t *bytes, size_t len, size_t offset);
size_t probe_row(const uint8_t *bytes, size_t len, size_t offset);
uint64_t probe_record_line(const uint8_t *bytes, size_t len, uint32_t age, size_t index, size_t offset, uint8_t *out, size_t cap);
uint64_t probe_write(const uint8_t *bytes, size_t len, uint32_t size, uint8_t *out, size_t cap);
uint64_t probe_chunk_stop(const uint8_t *bytes, size_t len, size_t offset);
size_t probe_chunk_end(const uint8_t *bytes, size_t len, size_t offset);
size_t probe_chunks(const uint8_t *bytes, size_t len, size_t offset);
uint64_t probe_chunk_step(const uint8_t *bytes, size_t len, size_t offset, uint32_t age, uint8_t *out, size_t cap);
size_t probe_chunk_next(const uint8_t *bytes, size_t len, size_t offset, uint32_t age);
uint64_t probe_chunk_read(const uint8_t *bytes, size_t len, size_t offset, uint32_t age, uint8_t *out, size_t cap);
size_t probe_chunk_read_next(const uint8_t *bytes, size_t len, size_t offset, uint32_t age);

enum {
    TAKE, TEXT, AGED_TEXT, REPLACED, MARKS, MARKS_WORD, MARKS_LETTERS, ORDER, INDEX, FIND, FIRST_LINE, LINE, NEXT, WALK, RECORDS, WRITE, ROW,
    RECORD_LINE, TYPE_TAKE, TYPE_HEAD, TYPE_TEXT, TYPE_MARKS, CHUNK_STOP, CHUNK_END, CHUNKS, CHUNK_STEP, CHUNK_NEXT, CHUNK_READ,
    CHUNK_READ_NEXT, NAMED,
    CALLS,
    END = 255
};

#define HEADER 33
#define ANSWER 13
#define GUARD 64
#define TURN 11
/* The most bytes of an input, and the most that are lent. */
#define MOST (1u << 18)

struct question {
    uint8_t tag;
    uint32_t number, lent, first_length, second_length;
    uint64_t index, offset;
    const uint8_t *first, *second;
};

/* The bytes that are nobody's: 0xf5 to 0xff in turn; no text and no line has one, and an entry may. Each question begins one further on. */
#define AREA (TURN + GUARD + MOST + GUARD)
static uint8_t nobodys[AREA];

/* Where inputs and lent bytes stand, each question's as far on as its first byte of nobody's: so at every alignment. */
static uint8_t first_area[AREA], second_area[AREA], lent_area[AREA];

/* What was read and not taken yet, and what is to be written. */
static uint8_t in[4 * MOST], out[4 * MOST];
static size_t in_from, in_to, out_to;

/* Sees that so many bytes stand at in + in_from; 0 where the input ends before. */
static int want(size_t count) {
    if (in_to - in_from >= count) return 1;
    for (size_t i = 0; i < in_to - in_from; i++) in[i] = in[in_from + i];
    in_to -= in_from;
    in_from = 0;
    while (in_to < count) {
        long got = read(0, in + in_to, sizeof in - in_to);
        if (got <= 0) return 0;
        in_to += (size_t)got;
    }
    return 1;
}

/* Writes all that is to be written; 0 where nobody takes it. */
static int flush(void) {
    for (size_t from = 0; from < out_to;) {
        long put = write(1, out + from, out_to - from);
        if (put <= 0) return 0;
        from += (size_t)put;
    }
    out_to = 0;
    return 1;
}

/* Puts an answer among what is to be written. */
static int answered(uint8_t status, uint64_t answer, const uint8_t *bytes, uint32_t length) {
    if (sizeof out - out_to < ANSWER + (size_t)length && !flush()) return 0;
    out[out_to] = status;
    memcpy(out + out_to + 1, &answer, 8);
    memcpy(out + out_to + 9, &length, 4);
    memcpy(out + out_to + ANSWER, bytes, length);
    out_to += ANSWER + length;
    return 1;
}

/* Takes the next question; 0 where there is none, or where it is longer than there is room for. */
static int asked(struct question *q) {
    if (!want(HEADER)) return 0;
    const uint8_t *at = in + in_from;
    q->tag = at[0];
    memcpy(&q->number, at + 1, 4);
    memcpy(&q->index, at + 5, 8);
    memcpy(&q->offset, at + 13, 8);
    memcpy(&q->lent, at + 21, 4);
    memcpy(&q->first_length, at + 25, 4);
    memcpy(&q->second_length, at + 29, 4);
    if (q->lent > MOST || q->first_length > MOST || q->second_length > MOST) return 0;
    size_t whole = HEADER + (size_t)q->first_length + q->second_length;
    if (!want(whole)) return 0;
    q->first = in + in_from + HEADER;
    q->second = q->first + q->first_length;
    in_from += whole;
    return 1;
}

/* Puts an input behind a guard, and another guard behind it. */
static const uint8_t *guarded(uint8_t *at, const uint8_t *mine, const uint8_t *bytes, size_t length) {
    memcpy(at, mine, GUARD);
    memcpy(at + GUARD, bytes, length);
    memcpy(at + GUARD + length, mine, GUARD);
    return at + GUARD;
}

/* Whether an input and its guards are as they were. */
static int kept(const uint8_t *at, const uint8_t *mine, const uint8_t *bytes, size_t length) {
    return !memcmp(at, mine, GUARD) && !memcmp(at + GUARD, bytes, length) && !memcmp(at + GUARD + length, mine, GUARD);
}

/* Makes the call of a question on chunks. */
static uint64_t call_on_chunks(const struct question *q, const uint8_t *a, uint8_t *to) {
    size_t length = q->first_length, lent = q->lent;
    switch (q->tag) {
    case TYPE_TAKE: return res_table_type_take(a, length);
    case TYPE_HEAD: return res_table_type_head(a, length, to, lent);
    case TYPE_TEXT: return res_table_type_aged_text(a, length, q->number, to, lent);
    case TYPE_MARKS: return res_table_type_marks(a, length, q->number, to, lent);
    case CHUNK_STOP: return probe_chunk_stop(a, length, q->offset);
    case CHUNK_END: return probe_chunk_end(a, length, q->offset);
    case CHUNKS: return probe_chunks(a, length, q->offset);
    case CHUNK_STEP: return probe_chunk_step(a, length, q->offset, q->number, to, lent);
    case CHUNK_NEXT: return probe_chunk_next(a, length, q->offset, q->number);
    case CHUNK_READ: return probe_chunk_read(a, length, q->offset, q->number, to, lent);
    default: return probe_chunk_read_next(a, length, q->offset, q->number);
    }
}

/* Makes the call of a question. */
static uint64_t call(const struct question *q, const uint8_t *a, const uint8_t *b, uint8_t *to) {
    size_t length = q->first_length, lent = q->lent;
    switch (q->tag) {
    case TAKE: return res_table_config_take(a, length);
    case TEXT: return res_table_config_text(a, length, to, lent);
    case AGED_TEXT: return res_table_config_aged_text(a, length, q->number, to, lent);
    case REPLACED: return res_table_config_replaced(a, length, q->number);
    case MARKS: return res_table_config_marks(a, length, q->number, to, lent);
    case MARKS_WORD: return res_table_config_marks_word(a, length, q->number);
    case MARKS_LETTERS: return res_table_config_marks_letters(q->number, to, lent);
    case ORDER: return res_table_config_order(a, length, b, q->second_length);
    case INDEX: return res_table_config_index(a, length, to, lent);
    case FIND: return res_table_config_find(b, q->second_length, a, length);
    case FIRST_LINE: return probe_first_line(a, length, q->number, to, lent);
    case LINE: return probe_line(a, length, q->number, q->index, q->offset, to, lent);
    case NEXT: return probe_next(a, length, q->number, q->index, q->offset, to, lent);
    case WALK: return probe_walk(a, length, q->offset);
    case RECORDS: return probe_records(a, length, q->offset);
    case WRITE: return probe_write(a, length, q->number, to, lent);
    case ROW: return probe_row(a, length, q->offset);
    case RECORD_LINE: return probe_record_line(a, length, q->number, q->index, q->offset, to, lent);
    case NAMED: return res_table_config_named(a, length, to, lent);
    default: return call_on_chunks(q, a, to);
    }
}

/* Makes the call of a question between guards, and answers. */
static int answer(const struct question *q, size_t turn) {
    const uint8_t *mine = nobodys + turn;
    uint8_t *first = first_area + turn, *second = second_area + turn, *front = lent_area + turn;
    uint8_t *to = front + GUARD, *behind = to + q->lent;
    const uint8_t *a = guarded(first, mine, q->first, q->first_length);
    const uint8_t *b = guarded(second, mine, q->second, q->second_length);
    memcpy(front, mine, GUARD + q->lent + GUARD);
    uint64_t got = call(q, a, b, to);
    int status = memcmp(front, mine, GUARD) ? 1 : 0;
    if (memcmp(behind, mine + GUARD + q->lent, GUARD)) status |= 2;
    if (!kept(first, mine, q->first, q->first_length) || !kept(second, mine, q->second, q->second_length)) status |= 4;
    uint32_t touched = q->lent;
    while (touched > 0 && to[touched - 1] == mine[GUARD + touched - 1]) touched--;
    return answered((uint8_t)status, got, to, touched);
}

int main(void) {
    struct question q;
    for (size_t i = 0; i < AREA; i++) nobodys[i] = (uint8_t)(0xf5 + i % TURN);
    for (uint64_t count = 0; asked(&q); count++) {
        if (q.tag == END) return !(answered(END, count, in, 0) && flush());
        if (q.tag >= CALLS || !answer(&q, count % TURN)) return 1;
    }
    return 1;
}
