/* The loader's interface: seven calls of the proved library.
 *
 * Every call takes any bytes, any lengths and any numbers, and always answers. A length of 0 with any pointer is fine. Each answer is one u64:
 *
 *   bits  0 to 31   the call's value, or the place of a refusal: a byte offset in the file named below; 0 where it is in none, but for 13 of
 *                   a route the end, 0 or 1
 *   bits 32 to 39   0 where nothing is refused, else the refusal's number, ABWAKIRIS_NO_..
 *   bits 40 to 47   the file that the place is in, ABWAKIRIS_IN_..
 *   bits 48 to 63   0
 *
 * Packing cuts nothing off: a refusal's number is 1 to 27 and its place at most 4,096, in a listing at most 65,536; n, a device's number of
 * locations, is 1 to 256, a command count is at most 65,535 and the number left live at most 32, a route has at most 256 locations, a job moves at most
 * 4,096 steps in a run, a listing has at most 65,536 bytes and a program at most 4,096. So taking an answer apart, as the macros below do, gives back
 * exactly what the call promises; that is proved of every call.
 *
 * After a refusal every buffer that was lent holds the bytes it held before. Bytes past what a call writes stay as they are. A buffer that a
 * call writes (buffer, records, map, the text of write_listing, the program of read_listing) must overlap nothing else that is given to it; what it
 * only reads may overlap.
 *
 * Threads: no state is kept between calls, so every call may be made from any thread at once, with its own buffers.
 *
 * Stack, in bytes at most, measured on x86-64 at -O3, not proved: read_device 136, read_program 2,824, check 39,128, route 9,080, run 22,920,
 * write_listing 3,144, read_listing 2,256. So 64 KiB were enough for any call.
 *
 * Linking: the archive is x86-64-v2 code for Linux, so the processor must have SSE4.2 and POPCNT; nothing in it looks for them. By `nm` its only symbols
 * from outside are memcpy and memset, so it allocates nothing; by `size` it has code and constants, and no data and no bss.
 */
#ifndef ABWAKIRIS_H
#define ABWAKIRIS_H

#include <stddef.h>
#include <stdint.h>

#ifdef __cplusplus
extern "C" {
#endif

/* The version of this interface. */
#define ABWAKIRIS_VERSION "0.12.0"
#define ABWAKIRIS_VERSION_MAJOR 0
#define ABWAKIRIS_VERSION_MINOR 12
#define ABWAKIRIS_VERSION_PATCH 0

/* Taking an answer apart. */
#define ABWAKIRIS_VALUE(answer) ((uint32_t)((answer) & 0xFFFFFFFFu))
#define ABWAKIRIS_NUMBER(answer) ((unsigned)(((answer) >> 32) & 0xFFu))
#define ABWAKIRIS_FILE(answer) ((unsigned)(((answer) >> 40) & 0xFFu))
#define ABWAKIRIS_COUNT(answer) (ABWAKIRIS_VALUE(answer) & 0xFFFFu)
#define ABWAKIRIS_LIVE(answer) (ABWAKIRIS_VALUE(answer) >> 16)
#define ABWAKIRIS_MOVED_1(answer) (ABWAKIRIS_VALUE(answer) & 0xFFFFu)
#define ABWAKIRIS_MOVED_2(answer) (ABWAKIRIS_VALUE(answer) >> 16)

/* The file that a place is in. A program is named by the job that it is for, 16 + job; 16 where it was read for no job. */
enum {
    ABWAKIRIS_IN_NONE = 0,
    ABWAKIRIS_IN_DEVICE = 1,
    ABWAKIRIS_IN_SCHEDULE = 2,
    ABWAKIRIS_IN_LISTING = 3,
    ABWAKIRIS_IN_PROGRAM = 16,
    ABWAKIRIS_IN_PROGRAM_1 = 17,
    ABWAKIRIS_IN_PROGRAM_2 = 18
};

/* Why a call refuses: each number with its name in C, its name in the Rust crate and its line of words. The constants and abwakiris_words below are
 * made from this list, and the Rust crate's enum too: one entry a line, in order. */
#define ABWAKIRIS_REFUSALS(X) \
    X(1, ABWAKIRIS_NO_FILE_TOO_SHORT, FileTooShort, "device under 9 bytes, program under 8") \
    X(2, ABWAKIRIS_NO_MARK, Mark, "not the file's mark") \
    X(3, ABWAKIRIS_NO_VERSION, Version, "not version 1") \
    X(4, ABWAKIRIS_NO_LIMIT, Limit, "a number outside its limits") \
    X(5, ABWAKIRIS_NO_DEVICE_LENGTH, DeviceLength, "the device's length is not what its header says") \
    X(6, ABWAKIRIS_NO_OWNER, Owner, "an owner byte that is not 0, 1 or 2") \
    X(7, ABWAKIRIS_NO_EDGE, Edge, "an edge that is out of range or out of order") \
    X(8, ABWAKIRIS_NO_FIT, Fit, "a block, header or statement doesn't fit, or bytes follow main") \
    X(9, ABWAKIRIS_NO_STATEMENT, Statement, "unknown statement") \
    X(10, ABWAKIRIS_NO_OPERAND, Operand, "operand out of range; callee not earlier; k or m not the callee's") \
    X(11, ABWAKIRIS_NO_KIND, Kind, "slot not of the kind needed") \
    X(12, ABWAKIRIS_NO_UNBOUND_SLOT, SlotBound, "slot to be bound is bound") \
    X(13, ABWAKIRIS_NO_REGION, OutsideRegion, "location outside the region") \
    X(14, ABWAKIRIS_NO_FREE_LOCATION, NotFree, "location not free") \
    X(15, ABWAKIRIS_NO_TWICE, Twice, "a location or a slot listed twice in a call, a slot twice in a merge, a route's ends equal") \
    X(16, ABWAKIRIS_NO_ARGUMENT_PLACE, ArgumentPlace, "argument not at its location") \
    X(17, ABWAKIRIS_NO_QUBIT_OUTLIVES, QubitOutlives, "qubit outlives its block") \
    X(18, ABWAKIRIS_NO_BRANCHES_DIFFER, BranchesDiffer, "branches end differently") \
    X(19, ABWAKIRIS_NO_LOOP_LOSES, LoopLoses, "loop body loses a qubit") \
    X(20, ABWAKIRIS_NO_COUNT, Count, "command count too large") \
    X(21, ABWAKIRIS_NO_PATH, NoPath, "no path") \
    X(22, ABWAKIRIS_NO_SCHEDULE_LENGTH, ScheduleLength, "schedule over 4,096 bytes") \
    X(23, ABWAKIRIS_NO_SCHEDULE_BYTE, ScheduleByte, "bad schedule byte") \
    X(24, ABWAKIRIS_NO_ROOM, BufferTooShort, "buffer too short") \
    X(25, ABWAKIRIS_NO_JOB, Job, "job not 1 or 2") \
    X(26, ABWAKIRIS_NO_OCCUPANCY_LENGTH, OccupancyLength, "occupancy length not n") \
    X(27, ABWAKIRIS_NO_LISTING, Listing, "with this line the text begins no listing, or the rest is missing")

#define ABWAKIRIS_CONSTANT_(number, name, rust, words) , name = number
#define ABWAKIRIS_CASE_(number, name, rust, words) case name: return words;

enum { ABWAKIRIS_ACCEPTED = 0 ABWAKIRIS_REFUSALS(ABWAKIRIS_CONSTANT_) };

/* When a number is given, in one line. */
static inline const char *abwakiris_words(unsigned number) {
    switch (number) {
    case ABWAKIRIS_ACCEPTED: return "accepted";
    ABWAKIRIS_REFUSALS(ABWAKIRIS_CASE_)
    default: return "refused, by a number that has no words here";
    }
}

#undef ABWAKIRIS_CONSTANT_
#undef ABWAKIRIS_CASE_

/* Sizes. */
enum {
    ABWAKIRIS_MOST_LOCATIONS = 256,
    ABWAKIRIS_MOST_EDGES = 1024,
    ABWAKIRIS_MOST_PROGRAM_BYTES = 4096,
    ABWAKIRIS_MOST_LISTING_BYTES = 65536,
    ABWAKIRIS_MOST_COUNT = 65535,
    ABWAKIRIS_MOST_LIVE = 32,
    ABWAKIRIS_MOST_STEPS = 4096,
    ABWAKIRIS_RECORD_BYTES = 4
};

/* The bytes of a schedule: a step of job 1 or 2, in which a measurement binds outcome 0 or 1. */
#define ABWAKIRIS_STEP(job, outcome) (16u * (job) + (outcome))
enum {
    ABWAKIRIS_STEP_1_0 = 0x10,
    ABWAKIRIS_STEP_1_1 = 0x11,
    ABWAKIRIS_STEP_2_0 = 0x20,
    ABWAKIRIS_STEP_2_1 = 0x21
};

/* What a record's first byte tells, where it is no reason; and the offset of a finished step. */
enum {
    ABWAKIRIS_TOLD_MOVED = 0,
    ABWAKIRIS_TOLD_FINISHED = 1,
    ABWAKIRIS_OFFSET_FINISHED = 0xFFFF
};

/* A record of a run. A `told` of 2 or more is the reason that the job is stuck: the number that its step failed by, 11 to 16 or 21, which
 * abwakiris_words has words for. */
typedef struct {
    unsigned told;   /* ABWAKIRIS_TOLD_.., or the reason */
    unsigned edges;  /* of the route of a moved merge, else 0 */
    unsigned offset; /* of the statement, a return's being its call's; ABWAKIRIS_OFFSET_FINISHED */
} abwakiris_record;

/* The record of a step, the first being step 0; it must be one of the schedule's. */
static inline abwakiris_record abwakiris_record_at(const uint8_t *records, size_t step) {
    const uint8_t *bytes = records + ABWAKIRIS_RECORD_BYTES * step;
    abwakiris_record record;
    record.told = bytes[0];
    record.edges = bytes[1];
    record.offset = 256u * bytes[2] + bytes[3];
    return record;
}

/* Whether a device file reads. Value: n, the number of locations, 1 to 256, which the occupancy of a route and the map of a run go by. */
uint64_t abwakiris_read_device(const uint8_t *device, size_t device_len);

/* Whether a program file reads, for no job. Value 0. */
uint64_t abwakiris_read_program(const uint8_t *program, size_t program_len);

/* Whether a program can be loaded for a job (1 or 2) and never halts its machine. Value: the command count + 65536 * the number left live, which is how
 * many of main's slots hold a qubit at its end; ABWAKIRIS_COUNT and ABWAKIRIS_LIVE take it apart. */
uint64_t abwakiris_check(const uint8_t *device, size_t device_len, const uint8_t *program, size_t program_len, uint64_t job);

/* The route between two locations of a job's region. The occupancy has one byte a location, n in all, 0 free; the ends' own bytes don't matter. The
 * route is written from the buffer's start. Value: its number of locations, at most 256. */
uint64_t abwakiris_route(const uint8_t *device, size_t device_len, uint64_t job, const uint8_t *occupancy, size_t occupancy_len,
                         uint64_t first, uint64_t second, uint8_t *buffer, size_t buffer_len);

/* A run of two jobs from a fresh start. Schedule bytes are ABWAKIRIS_STEP_.., each one step. Each step writes a record of four bytes, in the
 * schedule's order: 0 moved, 1 finished or the reason; the edges of the route of a moved merge, else 0; the statement's offset, big-endian (0xFFFF
 * finished). The map gets one byte a location, 0 or the occupying job. Records need 4 bytes a step, the map n.
 * Value: steps moved by job 1 + 65536 * steps moved by job 2. */
uint64_t abwakiris_run(const uint8_t *device, size_t device_len, const uint8_t *first_program, size_t first_len,
                       const uint8_t *second_program, size_t second_len, const uint8_t *schedule, size_t schedule_len,
                       uint8_t *records, size_t records_len, uint8_t *map, size_t map_len);

/* The listing of a program: its text, one statement a line (docs/listing.md), written from the text's start. It is ASCII, ends in a newline and has no
 * zero byte behind it. Value: its number of bytes. Refused, in this order: the program's own refusals, as a program read for no job; 24 where the text is
 * shorter than the listing, which ABWAKIRIS_MOST_LISTING_BYTES never are. */
uint64_t abwakiris_write_listing(const uint8_t *program, size_t program_len, uint8_t *text, size_t text_len);

/* The program that a text is the listing of, written from the program's start. Exactly what abwakiris_write_listing writes is taken, so a program has one
 * listing and a listing one program. Value: the program's number of bytes. Refused, in this order: 27, in the listing, at the start of the first line
 * with which the text so far begins no listing, and at the text's end where lines are missing or the last one is unfinished; 24 where the buffer is shorter
 * than the program, which ABWAKIRIS_MOST_PROGRAM_BYTES never are. */
uint64_t abwakiris_read_listing(const uint8_t *text, size_t text_len, uint8_t *program, size_t program_len);

#ifdef __cplusplus
}
#endif

#endif
