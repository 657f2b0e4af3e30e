/* The edges of the calls from C and C++: no memory lent, the end of a file, refusals that leave what is lent, how
 * late and how short a list is. */
#include "planner.h"
#include <stdio.h>
#include <string.h>

static int failures;
static void holds(int fact, int line) {
    if (!fact) {
        printf("edges.c: line %d does not hold\n", line);
        failures++;
    }
}
#define HOLDS(fact) holds((fact), __LINE__)

/* field by field: a book has bytes between its fields that nobody sets */
static int same(const struct planner_book *a, const struct planner_book *b) {
    return a->size == b->size && memcmp(a->start, b->start, sizeof a->start) == 0 &&
           memcmp(a->latest, b->latest, sizeof a->latest) == 0 && memcmp(a->before, b->before, sizeof a->before) == 0;
}

/* a whole list as late as this, with the value 0 */
static int late_by(const uint16_t *starts, const uint16_t *deadlines, size_t jobs, const uint16_t *pairs, size_t length,
                   int16_t wanted) {
    int16_t late = 7777;
    size_t value = 9;
    return planner_lateness(starts, jobs, deadlines, jobs, pairs, length, &late, &value) == 0 && late == wanted &&
           value == 0;
}

/* a whole list whose shortest time answers this number with this value */
static int shortest(const uint16_t *starts, const uint16_t *deadlines, size_t jobs, const uint16_t *pairs,
                    size_t length, uint8_t number, size_t wanted) {
    size_t value = 9;
    return planner_shortest(starts, jobs, deadlines, jobs, pairs, length, &value) == number && value == wanted;
}

/* small lists, and both ends of the range */
static void late_and_short(void) {
    const uint16_t zeros[8] = {0}, twos[8] = {2, 2, 2, 2, 2, 2, 2, 2}, due[4] = {1, 2, 2, 3}, order[2] = {2, 3};
    const uint16_t last = 4096;
    uint16_t starts[64], deadlines[64], chain[126];
    HOLDS(late_by(zeros, twos, 8, NULL, 0, 2) && shortest(zeros, twos, 8, NULL, 0, 4, 0));
    HOLDS(late_by(zeros, due, 4, order, 2, 0) && shortest(zeros, due, 4, order, 2, 0, 2));
    HOLDS(late_by(zeros, &last, 1, NULL, 0, -4095) && shortest(zeros, &last, 1, NULL, 0, 0, 1));
    HOLDS(shortest(NULL, NULL, 0, NULL, 0, 0, 0) && shortest(NULL, NULL, 0, order, 2, 5, 0));
    for (uint16_t i = 0; i < 64; i++) { /* one chain from 4,095, whose last job is due by 1 */
        starts[i] = i < 63 ? 4095 : 0;
        deadlines[i] = i < 63 ? 4096 : 1;
        if (i > 0) {
            chain[2 * i - 2] = (uint16_t)(i - 1);
            chain[2 * i - 1] = i;
        }
    }
    HOLDS(late_by(starts, deadlines, 64, chain, 126, 4158) && shortest(starts, deadlines, 64, chain, 126, 4, 0));
}

/* the number of a lateness refused, with its value; a refusal leaves *lateness */
static uint8_t refused(const uint16_t *starts, size_t jobs, const uint16_t *deadlines, size_t times,
                       const uint16_t *pairs, size_t length, size_t with) {
    int16_t late = 7777;
    size_t value = 9;
    uint8_t number = planner_lateness(starts, jobs, deadlines, times, pairs, length, &late, &value);
    return value == with && late == 7777 ? number : 0;
}

static void late_refused(void) {
    const uint16_t zeros[65] = {0}, twos[3] = {2, 2, 2}, from[2] = {0, 2}, past[2] = {2, 4097};
    const uint16_t first[4] = {0, 1, 2, 1}, second[4] = {0, 1, 0, 2}, itself[4] = {0, 1, 1, 1}, loop[4] = {0, 1, 1, 0};
    HOLDS(refused(zeros, 2, twos, 3, loop, 4, 0) == 7 && refused(zeros, 2, twos, 2, loop, 3, 0) == 7);
    HOLDS(refused(NULL, 0, NULL, 0, loop, 1, 0) == 7 && refused(zeros, 65, zeros, 65, loop, 3, 0) == 7);
    HOLDS(refused(zeros, 65, zeros, 65, NULL, 0, 0) == 1);
    HOLDS(refused(NULL, 0, NULL, 0, NULL, 0, 0) == 14 && refused(NULL, 0, NULL, 0, loop, 4, 0) == 14);
    HOLDS(refused(zeros, 2, past, 2, first, 4, 1) == 2 && refused(from, 2, twos, 2, first, 4, 1) == 3);
    HOLDS(refused(zeros, 2, twos, 2, first, 4, 1) == 5 && refused(zeros, 2, twos, 2, second, 4, 1) == 12);
    HOLDS(refused(zeros, 2, twos, 2, itself, 4, 1) == 13 && refused(zeros, 2, twos, 2, loop, 4, 1) == 6);
    HOLDS(shortest(zeros, past, 2, first, 4, 2, 1) && shortest(from, twos, 2, first, 4, 3, 1));
    HOLDS(shortest(zeros, twos, 2, first, 4, 5, 1) && shortest(zeros, twos, 2, second, 4, 12, 1));
    HOLDS(shortest(zeros, twos, 2, itself, 4, 13, 1) && shortest(zeros, twos, 2, loop, 4, 6, 1));
    HOLDS(shortest(zeros, twos, 2, loop, 3, 7, 0) && shortest(zeros, zeros, 65, NULL, 0, 1, 0));
}

int main(void) {
    struct planner_book book, copy;
    struct planner_seat seat = {7, 7, 7, 7};
    uint8_t bytes[PLANNER_BOOK_BYTES];
    size_t value = 9, at = 0, length;

    memset(&book, 0xa5, sizeof book);
    HOLDS(planner_is_book(&book) == 0);
    planner_open(&book);
    HOLDS(planner_is_book(&book) == 1);
    HOLDS(book.size == 0 && book.start[63] == 0 && book.latest[63] == 0 && book.before[63] == 0);

    /* nothing lent */
    HOLDS(planner_plan(&book, NULL, 0, &value) == 0 && value == 0);
    HOLDS(planner_write(&book, NULL, 0, &value) == 0 && value == 0);
    HOLDS(planner_read(&book, NULL, 0, &at, &value) == PLANNER_END && value == 0 && at == 0);
    HOLDS(planner_judge(NULL, 0, NULL, 0, NULL, 0, NULL, 0, &value) == 0 && value == 0);
    HOLDS(planner_add_job(&book, 0, 2, &value) == 0 && value == 0);
    HOLDS(planner_plan(&book, NULL, 0, &value) == 8 && value == 2);
    HOLDS(planner_write(&book, NULL, 0, &value) == 8 && value == 6);

    /* a place; one refused leaves what is lent */
    HOLDS(planner_place(&book, 1, &seat) == 5 && seat.slot == 7 && seat.spare == 7);
    HOLDS(planner_place(&book, 0, &seat) == 0 && seat.slot == 0 && seat.core == 0 && seat.end == 1 && seat.spare == 1);

    /* a file and back; a request refused moves the offset, a stop does not */
    HOLDS(planner_write(&book, bytes, sizeof bytes, &length) == 0 && length == 6);
    planner_open(&copy);
    HOLDS(planner_read(&copy, bytes, length, &at, &value) == 0 && value == 0 && at == 6);
    HOLDS(planner_read(&copy, bytes, length, &at, &value) == PLANNER_END && at == 6);
    HOLDS(same(&book, &copy));

    /* a damaged book is told; one that requests can make is a book, whoever filled it */
    copy.before[0] = 1;
    HOLDS(planner_is_book(&copy) == 0);
    copy.before[0] = 0;
    HOLDS(planner_is_book(&copy) == 1);
    at = 0;
    HOLDS(planner_read(&copy, (const uint8_t *)"TG\0\11\0\1", 6, &at, &value) == 5 && at == 6);
    HOLDS(planner_read(&copy, bytes, 5, &at, &value) == 11 && value == 6 && at == 6);

    HOLDS(planner_class(0) == PLANNER_NONE && planner_class(8) == PLANNER_ROOM && planner_class(5) == PLANNER_REQUEST);
    HOLDS(planner_class(4) == PLANNER_PLAN && planner_class(11) == PLANNER_FORM && planner_class(255) == PLANNER_NONE);
    HOLDS(planner_class(14) == PLANNER_FORM && planner_class(15) == PLANNER_NONE);
    late_and_short();
    late_refused();
    HOLDS(PLANNER_VERSION >= 10100);
    return failures != 0;
}
