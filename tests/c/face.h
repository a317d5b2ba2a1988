/* What the checks of the C face share: face.c has it, face_words.c, face_index.c and face_types.c use it too. */
#ifndef FACE_H
#define FACE_H

#include "res_table_config.h"

#define ROOM 400

/* What the calls are lent, all of it guard bytes before each. */
extern uint8_t out[ROOM];

/* mcc310-en-rUS-port-hdpi: the first record of 01's listing. */
extern const uint8_t PHONE[16];
extern const char PHONE_TEXT[];

/* The twelve ages. */
extern const uint32_t AGES[12];

/* Counts a check, and says where it stands if it fails. */
void check(int holds, const char *file, int line);
#define CHECK(holds) check(holds, __FILE__, __LINE__)

/* Ends a class of checks. */
void ended(const char *name);

/* Whether an answer is a refusal with this number that carries this, and out is as it was. */
int carries(uint64_t answer, uint32_t number, uint32_t carried);

/* Whether an answer is a refusal with this number that carries nothing, and out is as it was. */
int refused(uint64_t answer, uint32_t number);

/* Whether an answer is a success that wrote these bytes, or this word, and no byte behind it. */
int wrote_bytes(uint64_t answer, const uint8_t *bytes, size_t count);
int wrote(uint64_t answer, const char *word);

/* A record in 80 bytes of room: this size, and one byte at an offset. */
void record(uint8_t *bytes, uint8_t size, size_t at, uint8_t byte);

/* The checks of the marks in one word. */
void words(void);

/* The checks of the index of a run. */
void indexes(void);

/* The checks of the calls on type chunks. */
void types(void);

#endif
