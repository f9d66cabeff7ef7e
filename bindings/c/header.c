/* Tests what the header has beside the declarations: constants, words, records, version. It is C and C++, and is linked with another file that
 * includes the header and uses nothing of it. No call is made, so it needs no archive. It prints what is wrong; the status is 0 where nothing is.
 */
#include <limits.h>
#include <stdio.h>
#include <string.h>

#include "abwakiris.h"

static int wrong = 0;

static void expect(int holds, const char *what, unsigned number) {
    if (!holds) {
        printf("header: %s, %u\n", what, number);
        wrong = 1;
    }
}

/* Outside programs use these names. */
static const int names[] = {
    ABWAKIRIS_ACCEPTED,
    ABWAKIRIS_NO_FILE_TOO_SHORT, ABWAKIRIS_NO_MARK, ABWAKIRIS_NO_VERSION, ABWAKIRIS_NO_LIMIT, ABWAKIRIS_NO_DEVICE_LENGTH, ABWAKIRIS_NO_OWNER,
    ABWAKIRIS_NO_EDGE, ABWAKIRIS_NO_FIT, ABWAKIRIS_NO_STATEMENT, ABWAKIRIS_NO_OPERAND, ABWAKIRIS_NO_KIND, ABWAKIRIS_NO_UNBOUND_SLOT,
    ABWAKIRIS_NO_REGION, ABWAKIRIS_NO_FREE_LOCATION, ABWAKIRIS_NO_TWICE, ABWAKIRIS_NO_ARGUMENT_PLACE, ABWAKIRIS_NO_QUBIT_OUTLIVES,
    ABWAKIRIS_NO_BRANCHES_DIFFER, ABWAKIRIS_NO_LOOP_LOSES, ABWAKIRIS_NO_COUNT, ABWAKIRIS_NO_PATH, ABWAKIRIS_NO_SCHEDULE_LENGTH,
    ABWAKIRIS_NO_SCHEDULE_BYTE, ABWAKIRIS_NO_ROOM, ABWAKIRIS_NO_JOB, ABWAKIRIS_NO_OCCUPANCY_LENGTH, ABWAKIRIS_NO_LISTING
};

static void numbers(void) {
    const unsigned count = (unsigned)(sizeof names / sizeof names[0]);
    expect(count == 28, "not 27 numbers", count - 1);
    for (unsigned number = 0; number < count; number++)
        expect(names[number] == (int)number, "not its name's number", number);
}

static void words(void) {
    const char *unknown = abwakiris_words(UINT_MAX);
    expect(strcmp(abwakiris_words(0), "accepted") == 0, "not accepted", 0);
    for (unsigned number = 0; number < 28; number++) {
        const char *line = abwakiris_words(number);
        expect(line[0] != 0 && strchr(line, '\n') == NULL && strcmp(line, unknown) != 0, "not one line of words", number);
    }
    for (unsigned number = 28; number < 300; number++)
        expect(strcmp(abwakiris_words(number), unknown) == 0, "words for no number", number);
}

static void list(void) {
    unsigned next = 1;
#define ENTRY(number, name, rust, words) \
    expect(number == next && name == number && strcmp(abwakiris_words(number), words) == 0 && #rust[0] != 0, "not the list's entry", next); \
    next++;
    ABWAKIRIS_REFUSALS(ENTRY)
#undef ENTRY
    expect(next == 28, "not 27 entries", next - 1);
}

static void record(const uint8_t *records, size_t step, unsigned told, unsigned edges, unsigned offset) {
    abwakiris_record found = abwakiris_record_at(records, step);
    expect(found.told == told && found.edges == edges && found.offset == offset, "not the record", (unsigned)step);
}

static void records(void) {
    static const uint8_t bytes[] = {0, 2, 0, 14, 1, 0, 255, 255, 21, 0, 15, 253, 0, 255, 1, 0};
    record(bytes, 0, ABWAKIRIS_TOLD_MOVED, 2, 14);
    record(bytes, 1, ABWAKIRIS_TOLD_FINISHED, 0, ABWAKIRIS_OFFSET_FINISHED);
    record(bytes, 2, ABWAKIRIS_NO_PATH, 0, 4093);
    record(bytes, 3, ABWAKIRIS_TOLD_MOVED, 255, 256);
}

static void steps(void) {
    static const uint8_t bytes[] = {ABWAKIRIS_STEP_1_0, ABWAKIRIS_STEP_1_1, ABWAKIRIS_STEP_2_0, ABWAKIRIS_STEP_2_1};
    static const uint8_t same[] = {ABWAKIRIS_STEP(1, 0), ABWAKIRIS_STEP(1, 1), ABWAKIRIS_STEP(2, 0), ABWAKIRIS_STEP(2, 1)};
    static const uint8_t document[] = {0x10, 0x11, 0x20, 0x21};
    expect(memcmp(bytes, document, sizeof document) == 0, "not the schedule's bytes", 0);
    expect(memcmp(same, document, sizeof document) == 0, "not the schedule's bytes", 1);
}

static void answers(void) {
    const uint64_t refused = (UINT64_C(18) << 40) | (UINT64_C(13) << 32) | 4096u, moved = UINT64_C(4096) << 16 | 3u;
    const uint64_t counted = UINT64_C(32) << 16 | 65535u, few = UINT64_C(1) << 16 | 4u;
    const uint64_t unlisted = (UINT64_C(3) << 40) | (UINT64_C(27) << 32) | 65536u;
    expect(ABWAKIRIS_NUMBER(refused) == ABWAKIRIS_NO_REGION, "not the number", 13);
    expect(ABWAKIRIS_FILE(refused) == ABWAKIRIS_IN_PROGRAM_2, "not the file", 18);
    expect(ABWAKIRIS_VALUE(refused) == 4096u, "not the place", 4096);
    expect(ABWAKIRIS_NUMBER(unlisted) == ABWAKIRIS_NO_LISTING, "not the number", 27);
    expect(ABWAKIRIS_FILE(unlisted) == ABWAKIRIS_IN_LISTING, "not the file", 3);
    expect(ABWAKIRIS_VALUE(unlisted) == ABWAKIRIS_MOST_LISTING_BYTES, "not the place", 65536);
    expect(ABWAKIRIS_COUNT(counted) == ABWAKIRIS_MOST_COUNT && ABWAKIRIS_LIVE(counted) == ABWAKIRIS_MOST_LIVE, "not what is counted", 32);
    expect(ABWAKIRIS_COUNT(few) == 4u && ABWAKIRIS_LIVE(few) == 1u, "not what is counted", 1);
    expect(ABWAKIRIS_MOVED_1(moved) == 3u && ABWAKIRIS_MOVED_2(moved) == 4096u, "not what moved", 3);
}

static void version(void) {
    char text[32];
    snprintf(text, sizeof text, "%d.%d.%d", ABWAKIRIS_VERSION_MAJOR, ABWAKIRIS_VERSION_MINOR, ABWAKIRIS_VERSION_PATCH);
    expect(strcmp(text, ABWAKIRIS_VERSION) == 0, "not the version", 0);
}

int main(void) {
    numbers();
    words();
    list();
    records();
    steps();
    answers();
    version();
    return wrong;
}
