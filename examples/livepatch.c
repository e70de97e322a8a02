/* A task is asleep in function 0 when a patch of it is enabled: it switches only once it has left the function.
 * To build it: gcc -Iinclude examples/livepatch.c crates/lp_c/out/liblivepatch.a */
#include "livepatch.h"
#include <stdio.h>

int main(void) {
    static const char *const did[] = {"ran", "done", "switched", "refused"};
    const uint16_t functions[] = {0};
    const uint32_t lengths[] = {1};
    const lp_boot_task boots[] = {{.task = 1}};
    const lp_event events[] = {
        {LP_ENTER, 1, 0}, {LP_CALL, 1, 0}, {LP_SLEEP, 1, 0}, {LP_ENABLE, 0, 0},
        {LP_WALK, 0, 0},  {LP_WAKE, 1, 0}, {LP_RET, 1, 0},   {LP_EXIT, 1, 0},
    };
    lp_slot slot = LP_EMPTY;
    uint32_t status = lp_create(&slot, LP_HYBRID, 1, functions, 1, lengths, 1, boots, 1);
    for (size_t i = 0; !status && i < sizeof events / sizeof *events; i++) {
        lp_told told = {0};
        lp_blame_code blame = {0};
        status = lp_step(&slot, &events[i], &told);
        printf("%zu %s%s\n", i + 1, did[told.what], told.complete ? ", complete" : "");
        if (!lp_blame(&slot, 1, &blame))
            printf("  task %u waits for the frame of event %llu\n", blame.task, (unsigned long long)blame.serial);
    }
    lp_free(&slot);
    return (int)status;
}
