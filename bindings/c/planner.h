/* The buoy planner: jobs of one slot for two equal cores, with starts, deadlines and orders. For C99 and C++11 on.
 *
 * Link libfirmware.a, which `tools/build archive` writes to target/staticlib/, for x86-64 Linux. Nothing here
 * allocates, waits or keeps anything: all memory is lent by the caller for the time of the call.
 *
 * A book is opened by planner_open and changed by the functions here alone; its fields are there to be read.
 * A book that was filled in any other way is outside every promise, unless planner_is_book says that it is one; so are
 * places lent to one call that overlap.
 * A row or bytes of length 0 may be lent as NULL; nothing else may be NULL.
 *
 * A call that can refuse answers 0 where it accepts, else the number of the refusal, and *value is what goes with it:
 *
 *    1  64 jobs held already, or more in a list                               0
 *    2  start above 4,095 or deadline above 4,096                             the job's place in a list, else 0
 *    3  deadline at most the job's start                                      as 2
 *    4  sound, but no valid plan meets the deadlines                          0
 *    5  a job number not held; of an order, the first job's                   the pair's place in a list, else 0
 *    6  order that closes a loop through other jobs                           as 5
 *    7  rows of a list that do not belong together                            0
 *    8  bytes lent too few for the whole plan or file                         the bytes needed
 *    9  file over 24,576 bytes                                                0
 *   10  mark unknown                                                          the record's offset
 *   11  offset past the end, or 1 to 5 bytes left                             the offset
 *   12  order whose second job is not held                                    as 5
 *   13  order of a job before itself                                          as 5
 *   14  lateness of an empty list                                             0
 *
 * A refusal leaves the book and every lent row, byte and number as it was, but for *value and, where planner_read
 * read a request that is then refused, for the offset. planner_open, planner_is_book and planner_class refuse nothing.
 */
#ifndef PLANNER_H
#define PLANNER_H

#include <stddef.h>
#include <stdint.h>

#define PLANNER_VERSION 10100 /* 1.1.0: 10,000 times the first number, 100 times the second, and the third */

#ifdef __cplusplus
extern "C" {
#endif

enum {
    PLANNER_JOBS = 64,
    PLANNER_IDLE = 255,         /* in a plan: no job on this core */
    PLANNER_END = 255,          /* answered by planner_read at the end of the file; no number of refusal */
    PLANNER_PLAN_BYTES = 8192,  /* enough for the plan of any book */
    PLANNER_BOOK_BYTES = 12480, /* enough for the file of any book */
    PLANNER_FILE_BYTES = 24576  /* the longest file that is read */
};

/* what planner_class answers */
enum { PLANNER_NONE = 0, PLANNER_ROOM = 1, PLANNER_REQUEST = 2, PLANNER_PLAN = 3, PLANNER_FORM = 4 };

struct planner_book {
    uint16_t size;       /* jobs held, numbered from 0 */
    uint16_t start[64];  /* by job; 0 beyond the jobs held */
    uint16_t latest[64]; /* by job: its latest time; 0 beyond */
    uint64_t before[64]; /* by job: bit a is 1 where job a precedes it */
};

/* The library takes size, start and latest as one row of 129 numbers: they lie one behind the other, or this does not
 * compile. C99 has no other assertion; a new row of the book is one more line here. */
typedef char planner_book_is_one_row[
    offsetof(struct planner_book, size) == 0 &&
    offsetof(struct planner_book, start) == sizeof(uint16_t[1]) &&
    offsetof(struct planner_book, latest) == sizeof(uint16_t[65]) &&
    offsetof(struct planner_book, before) >= sizeof(uint16_t[129]) ? 1 : -1];

/* the place of a job in the plan: end is slot + 1, and spare its latest time minus its end */
struct planner_seat {
    size_t slot, core, end, spare;
};

/* What the library exports: a book as its row of 129 numbers and its 64 sets, a row as pointer and length. */
void firmware_open(uint16_t *, uint64_t *);
uint8_t firmware_is_book(const uint16_t *, const uint64_t *);
uint8_t firmware_add_job(uint16_t *, uint64_t *, uint16_t, uint16_t, size_t *);
uint8_t firmware_add_order(uint16_t *, uint64_t *, uint16_t, uint16_t, size_t *);
uint8_t firmware_draw_in(uint16_t *, uint64_t *, uint16_t, uint16_t, size_t *);
uint8_t firmware_judge(const uint16_t *, size_t, const uint16_t *, size_t, const uint16_t *, size_t, uint16_t *, size_t, size_t *);
uint8_t firmware_lateness(const uint16_t *, size_t, const uint16_t *, size_t, const uint16_t *, size_t, int16_t *,
                          size_t *);
uint8_t firmware_shortest(const uint16_t *, size_t, const uint16_t *, size_t, const uint16_t *, size_t, size_t *);
uint8_t firmware_plan(const uint16_t *, const uint64_t *, uint8_t *, size_t, size_t *);
uint8_t firmware_place(const uint16_t *, const uint64_t *, uint16_t, size_t *, size_t *, size_t *, size_t *);
uint8_t firmware_read(uint16_t *, uint64_t *, const uint8_t *, size_t, size_t *, size_t *);
uint8_t firmware_write(const uint16_t *, const uint64_t *, uint8_t *, size_t, size_t *);
uint8_t firmware_class(uint8_t);

/* An empty book, whatever the memory held. It answers nothing. */
static inline void planner_open(struct planner_book *book) {
    firmware_open(&book->size, book->before);
}

/* 1 where the memory holds a book that requests can make, and 0 for anything else: for one that was kept elsewhere. */
static inline uint8_t planner_is_book(const struct planner_book *book) {
    return firmware_is_book(&book->size, book->before);
}

/* A new job; *value is its number. Refusals in this order: 1, 2, 3, 4. */
static inline uint8_t planner_add_job(struct planner_book *book, uint16_t start, uint16_t deadline, size_t *value) {
    return firmware_add_job(&book->size, book->before, start, deadline, value);
}

/* Job `first` ends before job `second` begins; *value is 0. An order that already follows changes nothing.
 * 5, 12, 13, 6, 4. */
static inline uint8_t planner_add_order(struct planner_book *book, uint16_t first, uint16_t second, size_t *value) {
    return firmware_add_order(&book->size, book->before, first, second, value);
}

/* An earlier deadline; *value is 0. One not below the latest time held changes nothing. 5, 2, 3, 4. */
static inline uint8_t planner_draw_in(struct planner_book *book, uint16_t job, uint16_t deadline, size_t *value) {
    return firmware_draw_in(&book->size, book->before, job, deadline, value);
}

/* A whole list and no book: `pairs` holds first, second, first, second..; `latest` receives the latest times, and its
 * entries beyond the number of jobs stay. *value is 0. 7, 1; then 2, 3 job by job; then 5, 12 pair by pair; then 13 or
 * 6; then 4. */
static inline uint8_t planner_judge(const uint16_t *starts, size_t starts_length, const uint16_t *deadlines,
                                    size_t deadlines_length, const uint16_t *pairs, size_t pairs_length,
                                    uint16_t *latest, size_t latest_length, size_t *value) {
    uint16_t none = 0, nowhere = 0;
    return firmware_judge(starts ? starts : &none, starts_length, deadlines ? deadlines : &none, deadlines_length,
                          pairs ? pairs : &none, pairs_length, latest ? latest : &nowhere, latest_length, value);
}

/* The least maximum lateness of a whole list, to *lateness: a job's lateness is its end minus its deadline, a plan's is
 * the greatest of its jobs', and this is the least of all valid plans', deadlines met or not. It is also the least
 * number of slots by which all deadlines can be moved, past 4,096 too, so that a valid plan meets them: above 0 where
 * the list does not fit. From -4,095 to 4,158; *value is 0. 7, 1, 14; then 2, 3 job by job; then 5, 12 pair by pair;
 * then 13 or 6; never 4. A refusal leaves *lateness. */
static inline uint8_t planner_lateness(const uint16_t *starts, size_t starts_length, const uint16_t *deadlines,
                                       size_t deadlines_length, const uint16_t *pairs, size_t pairs_length,
                                       int16_t *lateness, size_t *value) {
    uint16_t none = 0;
    return firmware_lateness(starts ? starts : &none, starts_length, deadlines ? deadlines : &none, deadlines_length,
                             pairs ? pairs : &none, pairs_length, lateness, value);
}

/* The shortest finishing time among the valid plans of a whole list that meet the deadlines, to *value; 0 for an empty
 * list. The plan that planner_plan makes may finish later. 7, 1; then 2, 3 job by job; then 5, 12 pair by pair; then 13
 * or 6; then 4. */
static inline uint8_t planner_shortest(const uint16_t *starts, size_t starts_length, const uint16_t *deadlines,
                                       size_t deadlines_length, const uint16_t *pairs, size_t pairs_length,
                                       size_t *value) {
    uint16_t none = 0;
    return firmware_shortest(starts ? starts : &none, starts_length, deadlines ? deadlines : &none, deadlines_length,
                             pairs ? pairs : &none, pairs_length, value);
}

/* The plan: two bytes a slot, core 0 first, PLANNER_IDLE for an idle core; *value is the finishing time in slots.
 * Bytes beyond the plan stay; PLANNER_PLAN_BYTES are always enough. 8. */
static inline uint8_t planner_plan(const struct planner_book *book, uint8_t *out, size_t length, size_t *value) {
    uint8_t nowhere = 0;
    return firmware_plan(&book->size, book->before, out ? out : &nowhere, length, value);
}

/* The place of a job in the plan, to *seat. There is no value: the one refusal, 5, goes with 0, and leaves *seat. */
static inline uint8_t planner_place(const struct planner_book *book, uint16_t job, struct planner_seat *seat) {
    return firmware_place(&book->size, book->before, job, &seat->slot, &seat->core, &seat->end, &seat->spare);
}

/* One record of a job file at offset *at. PLANNER_END where the offset is the length (*value is 0). 9, 11 and 10 stop
 * and leave the offset; any other answer, and *value, are those of the request that was read, and *at is six further. */
static inline uint8_t planner_read(struct planner_book *book, const uint8_t *file, size_t length, size_t *at,
                                   size_t *value) {
    uint8_t none = 0;
    return firmware_read(&book->size, book->before, file ? file : &none, length, at, value);
}

/* The book as a job file; *value is the number of bytes written. Bytes beyond them stay; PLANNER_BOOK_BYTES are always
 * enough. 8. */
static inline uint8_t planner_write(const struct planner_book *book, uint8_t *out, size_t length, size_t *value) {
    uint8_t nowhere = 0;
    return firmware_write(&book->size, book->before, out ? out : &nowhere, length, value);
}

/* The class of a number of refusal: PLANNER_NONE (0, and any number that is none), PLANNER_ROOM, .. */
static inline uint8_t planner_class(uint8_t number) { return firmware_class(number); }

#ifdef __cplusplus
}
#endif

#endif
