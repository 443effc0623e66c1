// The probes of examples/objects/ that keep to the rules, read from their objects, and a slot record as a scheduler would fill it.
// Assumes that the working folder is the project's.
#include <stdio.h>
#include <string.h>

#include "bench.h"
#include "../examples/slot.h"

enum { FILE_MAX = 4096 };

#define OBJECT(name) "examples/objects/" name ".o"
static const char *const paths[] = {
    OBJECT("busiest_rank"), OBJECT("bytes_in_slot"), OBJECT("counter_fold"), OBJECT("focus_beam"), OBJECT("focus_tbs"), OBJECT("mcs_bucket"),
    OBJECT("prb_load"), OBJECT("retransmissions"), OBJECT("rssi_class"), OBJECT("scheduled_users"), OBJECT("slot_phase"), OBJECT("weakest_layer"),
};
enum { OBJECTS = sizeof paths / sizeof *paths };

static uint8_t files[OBJECTS][FILE_MAX];
static struct slot slot;

static void fill_ue(struct slot_ue *ue, int k) {
    *ue = (struct slot_ue){.rnti = 0x4600 + k, .prb_start = 30 * k, .prb_count = 24 + 2 * k, .mcs = 9 + 2 * k, .harq = k, .redundancy = k % 3,
                           .ndi = k & 1, .tbs = 3000 + 700 * k, .cqi = 8 + k % 6, .rank = 1 + k % 4, .bytes = 1500 * (k + 1)};
}

static void fill_slot(void) {
    slot = (struct slot){.ues = 5, .numerology = 1, .cell = 7, .prb_used = 190, .prb_total = 273, .number = 123456, .rssi = -8950, .focus = 3,
                         .time = 61728000000ull};
    for (int k = 0; k < SLOT_LAYERS; k++) slot.sinr[k] = 900 - 37 * k % 200;
    for (int k = 0; k < SLOT_BEAMS; k++) slot.beam_load[k] = 5 * k % 100;
    for (int k = 0; k < 8; k++) slot.counter[k] = 1000003u * (k + 1);
    for (int k = 0; k < slot.ues; k++) fill_ue(&slot.ue[k], k);
}

static uint64_t field(const uint8_t *file, size_t at, size_t size) {
    uint64_t value = 0;
    if (at <= FILE_MAX - size) memcpy(&value, file + at, size);
    return value;
}

// The section of an ELF object that has instructions in it: a program of no bytes where there is none.
static struct program section(const uint8_t *file) {
    size_t headers = field(file, 0x28, 8), size = field(file, 0x3a, 2), count = field(file, 0x3c, 2);
    for (size_t k = 0; k < count; k++) {
        size_t header = headers + k * size, executable = field(file, header + 8, 8) & 4;
        size_t start = field(file, header + 0x18, 8), bytes = field(file, header + 0x20, 8);
        if (executable && bytes && start < FILE_MAX && bytes <= FILE_MAX - start)
            return (struct program){file + start, bytes, (const uint8_t *)&slot, sizeof slot};
    }
    return (struct program){0};
}

static int read_object(const char *path, uint8_t *file) {
    FILE *from = fopen(path, "rb");
    if (!from) return 0;
    size_t size = fread(file, 1, FILE_MAX, from);
    fclose(from);
    return size > 0 && size < FILE_MAX;
}

int make_examples(void) {
    fill_slot();
    for (int k = 0; k < OBJECTS; k++) {
        struct program p = read_object(paths[k], files[k]) ? section(files[k]) : (struct program){0};
        if (p.size == 0) {
            printf("%s is missing, or no object with a program\n", paths[k]);
            return 0;
        }
        programs[program_count++] = p;
    }
    return 1;
}
