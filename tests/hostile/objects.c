/* The reader of ELF objects under damaged ones: objects SEED FIRST COUNT OBJECT.. makes the cases FIRST .. FIRST + COUNT - 1, each of the seed and
 * its number alone, and lends each to reading_load. Status 0: all were answered as they should be. A case that was not is told by its number. */
#include <stdint.h>
#include <stdio.h>
#include <stdlib.h>
#include <string.h>

uint64_t reading_load(const uint8_t *file, size_t file_len, const uint8_t *name, size_t name_len, uint8_t *bare, size_t bare_len,
                      uint8_t *program, size_t program_len, uint64_t *answer, size_t answer_len);

enum { MOST_OBJECTS = 64, MOST_BYTES = 65536, GUARD = 64, ROOM = 4096, CODES = 100 };
enum { IN_FILE = 0, SPELLED = 1, LAST_TROUBLE = 22, NO_ROOM = 99 };

struct bytes {
    uint8_t *at;
    size_t size;
};

/* ---- random numbers */

static uint64_t state;

static uint64_t next(void) {
    uint64_t z = state += 0x9e3779b97f4a7c15u;
    z = (z ^ (z >> 30)) * 0xbf58476d1ce4e5b9u;
    z = (z ^ (z >> 27)) * 0x94d049bb133111ebu;
    return z ^ (z >> 31);
}

static size_t below(size_t n) { return n == 0 ? 0 : (size_t)(next() % n); }

/* ---- damage */

struct field {
    size_t at;
    size_t width;
};

static const struct field header[] = {{4, 1},  {5, 1},  {6, 1},  {16, 2}, {18, 2}, {20, 4}, {24, 8}, {32, 8},
                                      {40, 8}, {48, 4}, {52, 2}, {54, 2}, {56, 2}, {58, 2}, {60, 2}, {62, 2}};
static const struct field section[] = {{0, 4}, {4, 4}, {8, 8}, {16, 8}, {24, 8}, {32, 8}, {40, 4}, {44, 4}, {48, 8}, {56, 8}};
#define COUNT(a) (sizeof(a) / sizeof *(a))

static uint64_t odd_number(size_t size) {
    const uint64_t numbers[] = {0, 1, UINT64_MAX, (uint64_t)1 << 31, (uint64_t)1 << 63, size, size - 1, size + 1, below(size), next()};
    return numbers[below(COUNT(numbers))];
}

static void set_field(struct bytes f, size_t at, size_t width) {
    uint64_t value = odd_number(f.size);
    for (size_t i = 0; i < width; i++)
        if (at < f.size && i < f.size - at)
            f.at[at + i] = (uint8_t)(value >> (8 * i));
}

/* where the section headers start, as the file says now, or anywhere where it says nonsense */
static size_t table_of(struct bytes f) {
    uint64_t start = 0;
    if (f.size < 64)
        return 0;
    for (size_t i = 0; i < 8; i++)
        start |= (uint64_t)f.at[40 + i] << (8 * i);
    return start < f.size ? (size_t)start : below(f.size);
}

/* a section becomes one that relocates another */
static void relocate(struct bytes f) {
    size_t at = table_of(f) + 64 * below(7);
    if (f.size < 64 || at > f.size - 64)
        return;
    f.at[at + 4] = below(2) ? 4 : 9;
    f.at[at + 44] = (uint8_t)below(7);
}

/* each byte as two digits, which takes another way through the reader; now and then all of it is one comment */
static struct bytes spelled(struct bytes f) {
    static const char digits[] = "0123456789abcdef";
    size_t n = f.size < MOST_BYTES / 4 ? f.size : MOST_BYTES / 4;
    int comment = below(8) == 0;
    for (size_t i = n; i-- > 0;) {
        uint8_t b = f.at[i];
        f.at[3 * i] = (uint8_t)digits[b >> 4];
        f.at[3 * i + 1] = (uint8_t)digits[b & 15];
        f.at[3 * i + 2] = i % 8 == 7 && !comment ? '\n' : ' ';
    }
    if (comment && n > 0)
        f.at[0] = '#';
    f.size = 3 * n;
    return f;
}

static struct bytes damaged(struct bytes f) {
    size_t kind = below(21);
    struct field chosen;
    if (kind < 6) {
        for (size_t n = 1 + below(8); n > 0; n--)
            if (f.size > 0)
                f.at[below(f.size)] ^= (uint8_t)(1u << below(8));
    } else if (kind < 11) {
        chosen = header[below(COUNT(header))];
        set_field(f, chosen.at, chosen.width);
    } else if (kind < 17) {
        chosen = section[below(COUNT(section))];
        set_field(f, table_of(f) + 64 * below(7) + chosen.at, chosen.width);
    } else if (kind < 18) {
        relocate(f);
    } else if (kind < 20) {
        f.size = below(f.size + 1);
    } else {
        f = spelled(f);
    }
    return f;
}

/* ---- buffers: bytes that are written stand between guards, so that a write outside is seen */

struct lent {
    uint8_t *whole;
    uint8_t *at;
    size_t size;
};

static uint8_t pattern(size_t i) { return (uint8_t)(i * 7 + 3); }

static struct lent lend(size_t size) {
    struct lent l = {malloc(size + 2 * GUARD), NULL, size};
    if (l.whole == NULL)
        exit(2);
    l.at = l.whole + GUARD;
    for (size_t i = 0; i < size + 2 * GUARD; i++)
        l.whole[i] = pattern(i);
    return l;
}

static int untouched(struct lent l, size_t from, size_t to) {
    for (size_t i = from; i < to; i++)
        if (l.whole[i] != pattern(i))
            return 0;
    return 1;
}

static int guarded(struct lent l) { return untouched(l, 0, GUARD) && untouched(l, GUARD + l.size, 2 * GUARD + l.size); }

static int as_it_was(struct lent l) { return untouched(l, GUARD, GUARD + l.size); }

/* a block of just this size, so that a reader that leaves it is seen by valgrind */
static struct bytes exact(const uint8_t *from, size_t size) {
    struct bytes b = {malloc(size), size};
    if (b.at == NULL && size > 0)
        exit(2);
    if (size > 0)
        memcpy(b.at, from, size);
    return b;
}

/* ---- a case */

static uint64_t codes[CODES];

/* what is wrong with an answer, or NULL */
static const char *wrong(struct bytes file, struct lent bare, struct lent program, struct lent answer, uint64_t code) {
    const size_t words = answer.size / 8;
    uint64_t told[2] = {0, 0};
    if (!guarded(bare) || !guarded(program) || !guarded(answer))
        return "bytes outside a lent buffer were written";
    if (words < 2)
        return code == NO_ROOM && as_it_was(bare) && as_it_was(program) && as_it_was(answer) ? NULL
                                                                                          : "an answer without room is not left alone";
    memcpy(told, answer.at, sizeof told);
    if (!untouched(answer, GUARD + 16, GUARD + answer.size))
        return "more than two words of the answer were written";
    if (code == IN_FILE)
        return told[0] <= file.size && told[1] <= file.size - told[0] ? NULL : "the program does not lie in the file";
    if (!untouched(answer, GUARD + (code == SPELLED ? 8 : 0), GUARD + 16))
        return "a word that tells nothing was written";
    if (code == SPELLED)
        return told[0] <= program.size ? NULL : "the program has no room in its buffer";
    return code <= LAST_TROUBLE ? NULL : "this is no code";
}

static int differs(struct bytes b, const void *from) { return b.size > 0 && memcmp(b.at, from, b.size) != 0; }

/* lends a file with a name and room for so many words, and tells what was wrong */
static const char *lend_all(struct bytes f, const char *name, size_t scratch, size_t room, size_t words, uint64_t *code) {
    struct bytes file = exact(f.at, f.size), called = exact((const uint8_t *)name, strlen(name));
    struct lent bare = lend(scratch), program = lend(room), answer = lend(8 * words);
    const char *trouble;
    *code = reading_load(file.at, file.size, called.at, called.size, bare.at, bare.size, program.at, program.size, (uint64_t *)answer.at, words);
    trouble = wrong(file, bare, program, answer, *code);
    if (trouble == NULL && (differs(file, f.at) || differs(called, name)))
        trouble = "what was lent for reading was written";
    free(file.at);
    free(called.at);
    free(bare.whole);
    free(program.whole);
    free(answer.whole);
    return trouble;
}

static const char *run_case(uint64_t seed, uint64_t number, const struct bytes *objects, size_t count, uint8_t *work, uint64_t *code) {
    static const char *const names[] = {"", "", "", "slot_probe", "slot_probe", ".text", ".strtab", "slot", "x"};
    struct bytes f = {work, 0};
    state = seed * 1000003 + number;
    next();
    f.size = objects[number % count].size;
    memcpy(work, objects[number % count].at, f.size);
    for (size_t n = 1 + below(3); n > 0; n--)
        f = damaged(f);
    const char *name = names[below(COUNT(names))];
    size_t scratch = below(8) == 0 ? below(f.size + 1) : f.size;
    size_t room = below(8) == 0 ? below(64) : ROOM;
    /* now and then without room for the answer first */
    const char *trouble = below(16) > 0 ? NULL : lend_all(f, name, scratch, room, below(2), code);
    return trouble != NULL ? trouble : lend_all(f, name, scratch, room, 2 + below(3), code);
}

/* ---- all of them */

static struct bytes read_object(const char *path) {
    static uint8_t buffer[MOST_BYTES / 4];
    FILE *in = fopen(path, "rb");
    if (in == NULL) {
        printf("%s: cannot be read\n", path);
        exit(2);
    }
    size_t size = fread(buffer, 1, sizeof buffer, in);
    fclose(in);
    return exact(buffer, size);
}

/* An object that is not damaged has a program, with and without its section's name. */
static int good_object(struct bytes object, const char *path) {
    uint64_t code = NO_ROOM, named = NO_ROOM;
    const char *trouble = lend_all(object, "", object.size, ROOM, 2, &code);
    const char *other = lend_all(object, "slot_probe", object.size, ROOM, 2, &named);
    if (trouble == NULL && other == NULL && code == IN_FILE && named == IN_FILE)
        return 1;
    printf("%s, not damaged: %s, codes %llu and %llu\n", path, trouble ? trouble : other ? other : "no program", (unsigned long long)code,
           (unsigned long long)named);
    return 0;
}

int main(int argc, char **argv) {
    static struct bytes objects[MOST_OBJECTS];
    static uint8_t work[MOST_BYTES];
    size_t count = argc < 4 ? 0 : (size_t)argc - 4;
    uint64_t good = 0, bad = 0;
    if (count == 0 || count > MOST_OBJECTS) {
        printf("usage: objects SEED FIRST COUNT OBJECT..\n");
        return 2;
    }
    uint64_t seed = strtoull(argv[1], NULL, 10), first = strtoull(argv[2], NULL, 10), cases = strtoull(argv[3], NULL, 10);
    for (size_t i = 0; i < count; i++) {
        objects[i] = read_object(argv[4 + i]);
        if (good_object(objects[i], argv[4 + i]))
            good++;
        else
            bad++;
    }
    for (uint64_t i = first; i < first + cases; i++) {
        uint64_t code = NO_ROOM;
        const char *trouble = run_case(seed, i, objects, count, work, &code);
        codes[code < CODES ? code : CODES - 1]++;
        if (trouble == NULL)
            good++;
        else if (bad++ < 10)
            printf("case %llu, code %llu: %s\n", (unsigned long long)i, (unsigned long long)code, trouble);
    }
    printf("seed %llu, cases by code:", (unsigned long long)seed);
    for (size_t i = 0; i < CODES; i++)
        if (codes[i] > 0)
            printf(" %zu: %llu", i, (unsigned long long)codes[i]);
    printf("\n%llu good, %llu bad\n", (unsigned long long)good, (unsigned long long)bad);
    for (size_t i = 0; i < count; i++)
        free(objects[i].at);
    return bad > 0;
}
