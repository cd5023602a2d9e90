/* The reference grids P1 to P11, the page of 07 01 01, a ring, counts and some refusals, by the library. `examples/run` compiles, runs and compares it. */
#include <inttypes.h>
#include <stdio.h>
#include <string.h>

#include "grid.h"

enum { WORDS = 14, NORTH = 5, LEVEL = 9, COLUMN = 10, ROW = 11, FLAGS = 12, MOST = 40, COUNTS = 39 };

typedef struct {
    grid_header header;
    uint32_t capacity;
    int32_t table[WORDS * (MOST + 1)];
    double values[MOST + 1];
    uint32_t counts[COUNTS + 1], counts_len;
} map;

/* what the calls are lent, without the counts and with them */
#define GRID(m) &(m)->header, (m)->table, WORDS * ((m)->capacity + 1), (m)->values, (m)->capacity + 1
#define LISTS(m) GRID(m), (m)->capacity
#define COUNTED(m) GRID(m), (m)->counts, (m)->counts_len, (m)->capacity
#define TAPE(m, ...) run(m, (const uint8_t[]){__VA_ARGS__}, sizeof((const uint8_t[]){__VA_ARGS__}))

static int32_t word(const map *m, uint32_t number, uint32_t w) { return m->table[WORDS * number + w]; }

static void build(map *m, uint32_t capacity, uint32_t columns, uint32_t rows, uint32_t mode) {
    uint32_t in_use = 99;
    memset(m, 0x55, sizeof *m);
    m->capacity = capacity;
    m->counts_len = COUNTS;
    uint32_t refusal = grid_build(COUNTED(m), columns, rows, mode, &in_use);
    printf("build %" PRIu32 " in use %" PRIu32 "\n", refusal, in_use);
}

static void run(map *m, const uint8_t *tape, size_t length) {
    size_t done = 99, offset = 99;
    uint32_t refusal = grid_tape(COUNTED(m), tape, length, &done, &offset);
    printf("tape %" PRIu32 " done %zu at %zu mark %u\n", refusal, done, offset, m->header.mark);
}

static void places(const map *m, uint32_t first, uint32_t last) {
    printf("places");
    for (uint32_t n = first; n <= last; n++) printf(" %" PRIu32 "=(%" PRId32 ",%" PRId32 ")", n, word(m, n, COLUMN), word(m, n, ROW));
    printf("\n");
}

static void words(const char *name, const map *m, uint32_t w, const uint32_t *numbers, size_t count) {
    printf("%s", name);
    for (size_t k = 0; k < count; k++) printf(" %" PRId32, word(m, numbers[k], w));
    printf("\n");
}

#define FLAGS_OF(m, ...) words("flags", m, FLAGS, (const uint32_t[]){__VA_ARGS__}, sizeof((const uint32_t[]){__VA_ARGS__}) / sizeof(uint32_t))

static void row(const map *m, uint32_t number, uint32_t first, uint32_t count) {
    printf("row %" PRIu32 ":", number);
    for (uint32_t w = first; w < first + count; w++) printf(" %" PRId32, word(m, number, w));
    printf("\n");
}

static void check(const map *m) { printf("check %" PRIu32 "\n", grid_check(COUNTED(m))); }

static void scan(const map *m, const uint8_t *order, size_t length, uint32_t kind, size_t room) {
    uint16_t out[MOST + 1];
    uint32_t count = 99;
    uint32_t refusal = grid_scan(LISTS(m), 1, order, length, kind, word(m, 1, LEVEL), 12, out, room, &count);
    printf("scan %" PRIu32 " count %" PRIu32 ":", refusal, count);
    for (uint32_t k = 0; k < count; k++) printf(" %u", out[k]);
    printf("\n");
}

static void lookup(const map *m, uint32_t speed, uint32_t load) {
    uint32_t number = 99, status = 99;
    double value = 99;
    uint64_t bits;
    uint32_t refusal = grid_lookup(LISTS(m), speed, load, &number, &status, &value);
    memcpy(&bits, &value, sizeof bits);
    printf("lookup %" PRIu32 " leaf %" PRIu32 " status %" PRIu32 " value %016" PRIx64 "\n", refusal, number, status, bits);
}

static void page(const map *m, size_t room) {
    uint8_t out[400];
    size_t count = 99;
    uint32_t refusal = grid_page(LISTS(m), out, room, &count);
    printf("page %" PRIu32 " bytes %zu\n", refusal, count);
    fwrite(out, 1, count, stdout);
}

static void count(const map *m, uint32_t level, uint32_t status) {
    uint32_t number = 99;
    uint32_t refusal = grid_count(m->counts, m->counts_len, level, status, &number);
    printf("count %" PRIu32 " is %" PRIu32 "\n", refusal, number);
}

/* of the levels 0 and 1, how many leaves are blank, measured and carried */
static void lacking(const map *m) {
    for (uint32_t level = 0; level < 2; level++) {
        uint32_t number[3] = {99, 99, 99};
        for (uint32_t status = 0; status < 3; status++) grid_count(m->counts, m->counts_len, level, status, &number[status]);
        printf("level %" PRIu32 ": blank %" PRIu32 " measured %" PRIu32 " carried %" PRIu32 "\n", level, number[0], number[1], number[2]);
    }
}

static const uint8_t order[] = {3, 4, 2, 1};

static void one_cell(map *m) {
    static int32_t built[WORDS * (MOST + 1)];
    puts("P1 P2 and the page");
    build(m, 40, 1, 1, GRID_OPEN);
    memcpy(built, m->table, sizeof built);
    places(m, 2, 5);
    FLAGS_OF(m, 2, 3, 4, 5);
    page(m, 400);

    puts("P3 P4 P5");
    TAPE(m, 1, 0, 2);
    places(m, 6, 14);
    FLAGS_OF(m, 6, 7, 8, 9);
    TAPE(m, 2, 0, 6, 2, 0, 7, 2, 0, 8, 2, 0, 9, 3, 0, 2);
    printf("rows of the build %s\n", memcmp(m->table, built, sizeof built) == 0 ? "yes" : "no");
    build(m, 14, 1, 1, GRID_OPEN);
    TAPE(m, 1, 0, 2);
    build(m, 13, 1, 1, GRID_OPEN);
    TAPE(m, 1, 0, 2);
}

static void more_cells(map *m) {
    puts("P6 P7 P8");
    build(m, 40, 2, 1, GRID_OPEN);
    scan(m, order, 4, 2, 40);
    TAPE(m, 1, 0, 4);
    scan(m, order, 4, 1, 40);
    FLAGS_OF(m, 17, 16, 11, 18);
    TAPE(m, 4, 0, 6);
    FLAGS_OF(m, 3, 8, 9, 17, 16, 11, 18);
    TAPE(m, 1, 0, 10);
    row(m, 10, 1, 4);

    puts("P9");
    build(m, 40, 3, 1, GRID_OPEN);
    TAPE(m, 4, 0, 6);
    scan(m, order, 4, 1, 40);
    row(m, 6, NORTH, 4);
    row(m, 8, NORTH, 4);
}

/* 11, a kid of 4, lies beside 6: 6 is refined before 11, and has its kids until 11 has none */
static void no_jump(map *m) {
    puts("no jump of two levels");
    build(m, 40, 2, 1, GRID_OPEN);
    TAPE(m, 1, 0, 4, 1, 0, 11);
    TAPE(m, 1, 0, 6, 1, 0, 11);
    row(m, 6, 1, 4);
    row(m, 11, 1, 4);
    TAPE(m, 2, 0, 17, 2, 0, 19, 2, 0, 16, 2, 0, 20, 3, 0, 6);
    TAPE(m, 2, 0, 25, 2, 0, 26, 2, 0, 27, 2, 0, 28, 3, 0, 11, 3, 0, 6);
    scan(m, order, 4, 3, 40);
    check(m);
}

/* 8 is the highest of three cells, and 4, the lowest, lies to its north: 12, a kid of 8, lies beside 4 until 4 is killed */
static void ring(map *m) {
    puts("a ring");
    build(m, 40, 1, 3, GRID_RING);
    places(m, 4, 9);
    row(m, 4, NORTH, 4);
    row(m, 8, NORTH, 4);
    FLAGS_OF(m, 4, 5, 8, 6, 7, 9);
    TAPE(m, 1, 0, 8);
    places(m, 10, 18);
    row(m, 12, NORTH, 4);
    row(m, 14, NORTH, 4);
    FLAGS_OF(m, 12, 13, 14, 15);
    lookup(m, 0, 3 * 4096 - 1);
    lookup(m, 0, 3 * 4096);
    TAPE(m, 1, 0, 12);
    TAPE(m, 4, 0, 4, 1, 0, 12);
    FLAGS_OF(m, 12, 13, 14, 15);
    lookup(m, 0, 0);
    scan(m, order, 4, 3, 40);
    page(m, 400);
    check(m);
    m->header.mode = GRID_OPEN;
    check(m);
    m->header.mode = 2;
    check(m);
    build(m, 40, 1, 2, GRID_RING);
    build(m, 40, 1, 3, 2);
}

static void points(map *m) {
    puts("P10 P11");
    build(m, 40, 1, 1, GRID_OPEN);
    lookup(m, 4095, 4095);
    lookup(m, 4096, 0);
    lookup(m, 4097, 0);
    TAPE(m, 1, 0, 2, 1, 0, 2);

    puts("rated speed");
    build(m, 40, 2, 2, GRID_OPEN);
    TAPE(m, 4, 0, 9);
    lookup(m, 4096, 4096);
    lookup(m, 8192, 4095);
    lookup(m, 0, 8192);
    lookup(m, 8192, 4096);
    lookup(m, 4097, 4097);
    lookup(m, UINT32_MAX, UINT32_MAX);
    build(m, 40, 2, 2, GRID_OPEN);
    TAPE(m, 4, 0, 7);
    lookup(m, 0, 4096);

    puts("values");
    build(m, 40, 1, 1, GRID_OPEN);
    TAPE(m, 5, 0, 2, 0x3f, 0xf8, 0, 0, 0, 0, 0, 0);
    lookup(m, 0, 0);
    TAPE(m, 1, 0, 2);
    lookup(m, 4095, 0);
    page(m, 400);
}

static void counts(map *m) {
    puts("how many cells lack a measurement");
    build(m, 40, 2, 1, GRID_OPEN);
    lacking(m);
    TAPE(m, 1, 0, 4);
    lacking(m);
    TAPE(m, 5, 0, 10, 0x3f, 0xf8, 0, 0, 0, 0, 0, 0);
    lacking(m);
    TAPE(m, 5, 0, 6, 0x3f, 0xf8, 0, 0, 0, 0, 0, 0, 1, 0, 6);
    lacking(m);
    TAPE(m, 5, 0, 11, 0x3f, 0xf8, 0, 0, 0, 0, 0, 0, 1, 0, 4, 1, 0, 11);
    lacking(m);
    TAPE(m, 2, 0, 10, 2, 0, 11, 2, 0, 12, 2, 0, 13, 3, 0, 4);
    lacking(m);
    TAPE(m, 4, 0, 4);
    lacking(m);
    check(m);
    count(m, 13, 0);
    count(m, 0, 3);
    count(m, UINT32_MAX, UINT32_MAX);
    m->counts[4] += 1;
    check(m);
    TAPE(m, 1, 0, 16);
    count(m, 1, 1);
    scan(m, order, 4, 3, 40);
    m->counts[4] -= 1;
    check(m);
    m->counts_len = 38;
    check(m);
    TAPE(m, 1, 0, 16);
    count(m, 13, 0);
    m->counts_len = 40;
    check(m);
    count(m, 1, 2);
}

static void refusals(map *m) {
    puts("refusals");
    scan(m, order, 4, 3, 3);
    scan(m, order, 3, 3, 40);
    page(m, 10);
    check(m);
    m->table[WORDS * 6 + FLAGS] += 1;
    check(m);
    lookup(m, 0, 0);
    m->header.rows = 33;
    check(m);
    m->capacity = 4;
    check(m);
    TAPE(m, 1, 0, 2);
}

int main(void) {
    static map m;
    one_cell(&m);
    more_cells(&m);
    no_jump(&m);
    ring(&m);
    counts(&m);
    points(&m);
    refusals(&m);
    return 0;
}
