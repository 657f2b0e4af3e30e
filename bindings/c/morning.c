/* A morning on the buoy: two readings, then the report on both, and a request that comes too late. */
#include "planner.h"
#include <stdio.h>

int main(void) {
    struct planner_book book;
    uint8_t plan[PLANNER_PLAN_BYTES], file[PLANNER_BOOK_BYTES];
    size_t wind, swell, report, value;

    planner_open(&book);
    if (planner_add_job(&book, 0, 4, &wind) || planner_add_job(&book, 0, 4, &swell) ||
        planner_add_job(&book, 1, 3, &report) || planner_add_order(&book, (uint16_t)wind, (uint16_t)report, &value) ||
        planner_add_order(&book, (uint16_t)swell, (uint16_t)report, &value) || planner_add_job(&book, 2, 3, &value) ||
        planner_add_job(&book, 2, 3, &value))
        return 1;
    uint8_t number = planner_add_job(&book, 2, 3, &value);
    printf("one more job: refused %d, class %d\n", number, planner_class(number));

    if (planner_plan(&book, plan, sizeof plan, &value))
        return 1;
    for (size_t slot = 0; slot < value; slot++)
        printf("slot %zu: [%d, %d]\n", slot, plan[2 * slot], plan[2 * slot + 1]);
    for (uint16_t job = 0; job < book.size; job++) {
        struct planner_seat place;
        if (planner_place(&book, job, &place))
            return 1;
        printf("job %d on core %zu ends at %zu, spare %zu\n", job, place.core, place.end, place.spare);
    }

    if (planner_write(&book, file, sizeof file, &value))
        return 1;
    printf("%zu bytes of job file\n", value);
    return 0;
}
