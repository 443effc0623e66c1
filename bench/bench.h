// What the files of bench/ share: the shape of a run, the two C interpreters, and the workloads with their programs.
// pw_run and pw_verify are those of include/probewarden.h.
#ifndef BENCH_H
#define BENCH_H

#include <stddef.h>
#include <stdint.h>

// As pw_run: the same arguments, the same codes, the same words of the answer. Each of the three is a side of the comparison.
typedef uint64_t run_function(const uint8_t *program, size_t program_len, const uint8_t *record, size_t record_len, uint64_t record_at,
                              uint64_t stack_at, uint8_t *stack, size_t stack_len, uint64_t budget, uint64_t *answer, size_t answer_words);
run_function checking_run, trusting_run;

struct program {
    const uint8_t *code;
    size_t size;
    const uint8_t *record;
    size_t record_size;
};

enum { PROGRAMS_MAX = 16 };
extern struct program programs[PROGRAMS_MAX];
extern int program_count;

// The tables that a workload stands in.
enum { INTERPRETER = 1, VERIFIER = 2 };

struct workload {
    const char *name, *what;
    int tables, length; // length: instructions, where it is made from the seed
    void (*make)(void);
};

extern const struct workload workloads[];
extern const int workload_count;

// Fills `programs` with those of a workload, the same ones in each start; called once. Length 0: as long as it usually is.
// 0 where the length is not possible, or a file is missing.
int make_programs(const struct workload *w, int length);

// examples.c: the probes of examples/objects/ that keep to the rules, and a record for them. 0 where one cannot be read.
int make_examples(void);

#endif
