/* The deepest stack of each exported function over several books, accepted and refused: it runs on a painted stack, and
 * what lost its paint was used. */
#include "../bindings/c/planner.h"
#include <stdio.h>
#include <string.h>
#include <ucontext.h>

enum { STACK = 1 << 18, PAINT = 0xa5 };
static _Alignas(64) unsigned char stack[STACK];
static ucontext_t home, away;
enum { EMPTY, NEARLY, LOOSE, ORDERED, PACKED, BOOKS }; /* no job; 63; 64; 64 and 40 orders; 64 that fill their slots */
static struct planner_book books[BOOKS], held;
static uint8_t plan[PLANNER_PLAN_BYTES], file[PLANNER_FILE_BYTES];
static uint16_t starts[64], deadlines[64], pairs[126], latest[64];
static int16_t late;
static size_t value, at, length;
static uint8_t number;

static void nothing(void) {}
static void opened(void) { planner_open(&held); }
static void is_book(void) { number = !planner_is_book(&held); }
static void job(void) { number = planner_add_job(&held, 0, 40, &value); }
static void order(void) { number = planner_add_order(&held, 60, 61, &value); }
static void drawn(void) { number = planner_draw_in(&held, 63, 20, &value); }
static void judged(void) { number = planner_judge(starts, 64, deadlines, 64, pairs, 126, latest, 64, &value); }
static void lateness(void) { number = planner_lateness(starts, 64, deadlines, 64, pairs, 126, &late, &value); }
static void shortest(void) { number = planner_shortest(starts, 64, deadlines, 64, pairs, 126, &value); }
static void planned(void) { number = planner_plan(&held, plan, sizeof plan, &value); }
static void placed(void) { number = planner_place(&held, 63, &(struct planner_seat){0}); }
static void read_order(void) { number = planner_read(&held, file, length, &at, &value); }
static void written(void) { number = planner_write(&held, file, sizeof file, &value); }
static void classed(void) { value = planner_class(4); }

static size_t used(void (*work)(void)) {
    memset(stack, PAINT, sizeof stack);
    getcontext(&away);
    away.uc_stack.ss_sp = stack;
    away.uc_stack.ss_size = sizeof stack;
    away.uc_link = &home;
    makecontext(&away, work, 0);
    swapcontext(&home, &away);
    size_t low = 0;
    while (low < STACK && stack[low] == PAINT)
        low++;
    return STACK - low;
}

static void tell(const char *name, void (*work)(void), size_t floor) {
    size_t deepest = 0;
    int accepted = 0;
    for (int i = 0; i < BOOKS; i++) {
        held = books[i];
        at = 6 * 64; /* the first order of the file */
        number = 0;
        size_t bytes = used(work) - floor;
        deepest = bytes > deepest ? bytes : deepest;
        accepted |= number == 0;
    }
    if (accepted)
        printf("| %s | %zu |\n", name, deepest);
    else
        printf("%s is refused on every book\n", name);
}

/* So many jobs with one deadline. */
static void fill(struct planner_book *book, uint16_t jobs, uint16_t deadline) {
    planner_open(book);
    for (uint16_t i = 0; i < jobs; i++)
        planner_add_job(book, 0, deadline, &value);
}

int main(void) {
    fill(&books[EMPTY], 0, 0);
    fill(&books[NEARLY], 63, 64);
    fill(&books[LOOSE], 64, 64);
    fill(&books[ORDERED], 64, 64);
    fill(&books[PACKED], 64, 32);
    for (uint16_t i = 0; i < 40; i++)
        planner_add_order(&books[ORDERED], i, i + 1, &value);
    for (uint16_t i = 0; i < 64; i++) {
        deadlines[i] = 64;
        if (i > 0)
            pairs[2 * i - 2] = (i - 1) / 2, pairs[2 * i - 1] = i;
    }
    if (planner_write(&books[ORDERED], file, sizeof file, &length))
        return 1;
    size_t floor = used(nothing);
    printf("| Function | bytes of stack |\n|---|---|\n");
    tell("open", opened, floor);
    tell("is_book", is_book, floor);
    tell("add_job", job, floor);
    tell("add_order", order, floor);
    tell("draw_in", drawn, floor);
    tell("judge", judged, floor);
    tell("lateness", lateness, floor);
    tell("shortest", shortest, floor);
    tell("plan", planned, floor);
    tell("place", placed, floor);
    tell("read", read_order, floor);
    tell("write", written, floor);
    tell("class", classed, floor);
    return 0;
}
