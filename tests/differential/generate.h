/* generate.h: programs from a seeded generator; a program is determined by the seed, its kind and its number.
 * Written for the tests; it shares no code with the product. */
#ifndef GENERATE_H
#define GENERATE_H

#include <stddef.h>
#include <stdint.h>

enum { PROGRAM_ROOM = 33000 };

enum kind {
    KIND_BYTES,      /* random bytes, and random fields around known opcodes */
    KIND_DAMAGED,    /* a structured or acceptable program, damaged in one field */
    KIND_STRUCTURED, /* every opcode, forward jumps, loads and stores into record and stack */
    KIND_CORNERS,    /* each opcode with corner operands and every shift count */
    KIND_ACCEPTABLE, /* structured, with registers set first and indices masked or tested */
    KINDS
};

extern const char *const kind_names[KINDS];

struct program {
    size_t length; /* bytes */
    uint64_t record_len;
    int is_lean; /* one index, made from the record's first byte or word */
    uint8_t bytes[PROGRAM_ROOM];
};

struct source {
    uint64_t state;
};

enum { RECORD_LENGTHS = 6 };
extern const uint64_t record_lengths[RECORD_LENGTHS];

void source_start(struct source *source, uint64_t seed, enum kind kind, uint64_t number);
uint64_t draw(struct source *source);                       /* 64 bits */
uint64_t below(struct source *source, uint64_t limit);      /* 0 .. limit - 1 */
int one_in(struct source *source, uint64_t limit);

/* Makes the program; draws from the source, which must have been started for this kind and number. */
void generate(struct source *source, enum kind kind, uint64_t number, struct program *program);

/* Fills a record: zeros, ones, random or corner bytes, or numbers near the program's own immediates. */
void fill_record(struct source *source, const struct program *program, uint8_t *record, uint64_t length);

#endif
