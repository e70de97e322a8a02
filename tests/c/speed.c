/* A million events through the C interface, those of `lp_rows core`: a task enters the kernel and leaves it, again and again.
 * scripts/measure --calls times both. */
#include "livepatch.h"
#include <stdio.h>

enum { EVENTS = 1000000 };

int main(void) {
    lp_slot slot = LP_EMPTY;
    lp_told told = {0};
    const lp_boot_task boots[] = {{1, 0}};
    if (lp_create(&slot, LP_HYBRID, 1, (uint16_t[]){0}, 1, (uint32_t[]){1}, 1, boots, 1)) return 1;
    for (uint32_t i = 0; i < EVENTS; i++) {
        lp_event event = {i % 2 ? LP_EXIT : LP_ENTER, 1, 0};
        if (lp_step(&slot, &event, &told) || told.what != LP_DONE) return 2;
    }
    lp_free(&slot);
    printf("%d events\n", EVENTS);
    return 0;
}
