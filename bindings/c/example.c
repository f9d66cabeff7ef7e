/* The seven calls on device G and program A of the document, as a loader would make them, and refusals in words. From the top of the repository:
 *
 *   gcc -Iinclude bindings/c/example.c target/staticlib/libabwakiris.a -o target/example && target/example
 *
 * G: 2 rows of 3 locations, all owned by job 1. A: inits at 0 and 2, a merge of both, two frees. The whole output is in example.out.
 */
#include <stdio.h>
#include <string.h>

#include "abwakiris.h"

static const uint8_t device[] = {'Q', 'L', 'G', 0, 1, 0, 6, 0, 7,                    /* version 1, 6 locations, 7 edges */
                                 1, 1, 1, 1, 1, 1,                                   /* owners */
                                 0, 1, 0, 3, 1, 2, 1, 4, 2, 5, 3, 4, 4, 5};          /* edges */

static const uint8_t program[] = {'Q', 'L', 'S', 0, 1, 0, 0, 16,                     /* version 1, no functions, main's length */
                                  1, 0, 0, 1, 1, 2,                                  /* init slot 0 at 0, slot 1 at 2 */
                                  6, 2, 0, 0, 0, 1,                                  /* slot 2 gets the measurement of slots 0 and 1 */
                                  3, 0, 3, 1};                                       /* free both */

static const uint8_t live[] = {'Q', 'L', 'S', 0, 1, 0, 0, 14, 1, 0, 0, 1, 1, 2, 6, 2, 0, 0, 0, 1, 3, 0}; /* A without its last free */

static const uint8_t empty[] = {'Q', 'L', 'S', 0, 1, 0, 0, 0};

static const uint8_t schedule[] = {ABWAKIRIS_STEP(1, 0), ABWAKIRIS_STEP(1, 0), ABWAKIRIS_STEP(2, 0), ABWAKIRIS_STEP(1, 0)};

static const char *file(uint64_t answer) {
    switch (ABWAKIRIS_FILE(answer)) {
    case ABWAKIRIS_IN_NONE: return "no file";
    case ABWAKIRIS_IN_DEVICE: return "the device";
    case ABWAKIRIS_IN_SCHEDULE: return "the schedule";
    case ABWAKIRIS_IN_LISTING: return "the listing";
    case ABWAKIRIS_IN_PROGRAM: return "the program";
    case ABWAKIRIS_IN_PROGRAM_1: return "the program of job 1";
    case ABWAKIRIS_IN_PROGRAM_2: return "the program of job 2";
    default: return "a file that has no name here";
    }
}

/* Whether nothing is refused; else it is printed. */
static int accepted(const char *call, uint64_t answer) {
    unsigned number = ABWAKIRIS_NUMBER(answer);
    if (number == ABWAKIRIS_ACCEPTED)
        return 1;
    printf("%s: refused by %u at %lu in %s: %s\n", call, number, (unsigned long)ABWAKIRIS_VALUE(answer), file(answer), abwakiris_words(number));
    return 0;
}

static void print_bytes(const uint8_t *bytes, size_t length) {
    for (size_t i = 0; i < length; i++)
        printf(" %u", (unsigned)bytes[i]);
    printf("\n");
}

static void print_record(unsigned job, abwakiris_record record) {
    printf("run: job %u ", job);
    if (record.told == ABWAKIRIS_TOLD_FINISHED)
        printf("is finished\n");
    else if (record.told != ABWAKIRIS_TOLD_MOVED)
        printf("is stuck at %u by %u: %s\n", record.offset, record.told, abwakiris_words(record.told));
    else if (record.edges != 0)
        printf("moved at %u, along %u edges\n", record.offset, record.edges);
    else
        printf("moved at %u\n", record.offset);
}

/* The number of locations; 0 where a file doesn't read. */
static size_t read_files(void) {
    uint64_t read = abwakiris_read_device(device, sizeof device);
    if (!accepted("read_device", read) || !accepted("read_program", abwakiris_read_program(program, sizeof program)))
        return 0;
    printf("read_device: %lu locations\nread_program: accepted\n", (unsigned long)ABWAKIRIS_VALUE(read));
    return ABWAKIRIS_VALUE(read);
}

static void check(const uint8_t *file, size_t length, uint64_t job) {
    uint64_t answer = abwakiris_check(device, sizeof device, file, length, job);
    if (accepted("check", answer))
        printf("check: %lu commands, %lu left live\n", (unsigned long)ABWAKIRIS_COUNT(answer), (unsigned long)ABWAKIRIS_LIVE(answer));
}

/* From 0 to 2. */
static void route(const uint8_t *occupancy, size_t n) {
    uint8_t buffer[ABWAKIRIS_MOST_LOCATIONS];
    uint64_t answer = abwakiris_route(device, sizeof device, 1, occupancy, n, 0, 2, buffer, sizeof buffer);
    if (accepted("route", answer)) {
        printf("route:");
        print_bytes(buffer, ABWAKIRIS_VALUE(answer));
    }
}

/* A beside the empty program. */
static void run(size_t n) {
    uint8_t records[ABWAKIRIS_RECORD_BYTES * sizeof schedule], map[ABWAKIRIS_MOST_LOCATIONS];
    uint64_t answer = abwakiris_run(device, sizeof device, program, sizeof program, empty, sizeof empty, schedule, sizeof schedule,
                                    records, sizeof records, map, n);
    if (!accepted("run", answer))
        return;
    for (size_t step = 0; step < sizeof schedule; step++)
        print_record(schedule[step] / 16u, abwakiris_record_at(records, step));
    printf("run: job 1 moved %lu steps, job 2 %lu\n", (unsigned long)ABWAKIRIS_MOVED_1(answer), (unsigned long)ABWAKIRIS_MOVED_2(answer));
    printf("run: map");
    print_bytes(map, n);
}

/* The bytes of the listing of A, which is printed; 0 where it is refused. */
static size_t write_listing(uint8_t *text, size_t length) {
    uint64_t answer = abwakiris_write_listing(program, sizeof program, text, length);
    if (!accepted("write_listing", answer))
        return 0;
    printf("write_listing: %lu bytes\n", (unsigned long)ABWAKIRIS_VALUE(answer));
    fwrite(text, 1, ABWAKIRIS_VALUE(answer), stdout);
    return ABWAKIRIS_VALUE(answer);
}

static void read_listing(const uint8_t *text, size_t length) {
    uint8_t bytes[ABWAKIRIS_MOST_PROGRAM_BYTES];
    uint64_t answer = abwakiris_read_listing(text, length, bytes, sizeof bytes);
    if (accepted("read_listing", answer)) {
        int same = ABWAKIRIS_VALUE(answer) == sizeof program && memcmp(bytes, program, sizeof program) == 0;
        printf("read_listing: %lu bytes, %s\n", (unsigned long)ABWAKIRIS_VALUE(answer), same ? "the program again" : "another program");
    }
}

/* A and its listing, there and back; then texts that are no listing. */
static void listings(void) {
    static const char slot[] = "program 1\nmain\n  init 0 0\n  free 32\n"; /* slots are 0 to 31 */
    uint8_t text[ABWAKIRIS_MOST_LISTING_BYTES];
    size_t length = write_listing(text, sizeof text);
    if (length == 0)
        return;
    read_listing(text, length);
    read_listing(text, length - 1); /* the last newline is missing */
    read_listing((const uint8_t *)slot, strlen(slot));
    write_listing(text, 10);
}

int main(void) {
    uint8_t occupancy[ABWAKIRIS_MOST_LOCATIONS] = {0};
    size_t n = read_files();
    if (n == 0)
        return 1;
    check(program, sizeof program, 1);
    check(live, sizeof live, 1);
    occupancy[1] = 1; /* the short way */
    route(occupancy, n);
    run(n);
    check(program, sizeof program, 2); /* job 2 owns nothing */
    occupancy[4] = 1;                  /* the long way too */
    route(occupancy, n);
    listings();
    return 0;
}
