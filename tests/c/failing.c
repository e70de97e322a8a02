/* A run with each allocation refused in turn: what is refused has changed nothing, and goes well when it is tried again.
 * To be linked with -Wl,--wrap=malloc,--wrap=realloc. */
#include "livepatch.h"
#include <stdio.h>
#include <stdlib.h>

static long left;
static int refused;

void *__real_malloc(size_t size);
void *__real_realloc(void *block, size_t size);

static int refuses(void) {
    if (left > 0 && --left == 0) {
        refused = 1;
        return 1;
    }
    return 0;
}

void *__wrap_malloc(size_t size) { return refuses() ? NULL : __real_malloc(size); }
void *__wrap_realloc(void *block, size_t size) { return refuses() ? NULL : __real_realloc(block, size); }

static const lp_event events[] = {
    {LP_ENTER, 1, 0},  {LP_CALL, 1, 0}, {LP_SLEEP, 1, 0},  {LP_ENTER, 2, 0},  {LP_SLEEP, 2, 0}, {LP_ENABLE, 0, 0},
    {LP_WALK, 0, 0},   {LP_WAKE, 1, 0}, {LP_FORK, 1, 9},   {LP_RET, 1, 0},    {LP_EXIT, 1, 0},  {LP_EXIT, 9, 0},
    {LP_DISABLE, 0, 0}, {LP_WALK, 0, 0}, {LP_REVERSE, 0, 0}, {LP_STOP, 0, 0},
};

/* What a run without a refusal answers. */
static lp_told wanted[sizeof events / sizeof *events];

static int create(lp_slot *slot) {
    const lp_boot_task boots[] = {{1, 0}, {2, 0}};
    return lp_create(slot, LP_HYBRID, 2, (uint16_t[]){0, 1}, 2, (uint32_t[]){1, 1}, 2, boots, 2);
}

/* The certificate that group 1 waits, if it does: its lines are all there, also where it was refused first. */
static int certify(lp_slot *slot) {
    lp_cert_code cert = {9, 9, 9};
    lp_line_code line;
    uint32_t status = lp_certificate(slot, 1, &cert);
    if (status == LP_NO_MEMORY) {
        if (!refused || cert.leg != 9) return 1;
        status = lp_certificate(slot, 1, &cert);
    }
    if (status == LP_NOT_THERE) return 0;
    if (status != LP_OK) return 2;
    for (size_t i = 0; i < cert.lines; i++)
        if (lp_line(slot, i, &line)) return 3;
    return lp_line(slot, cert.lines, &line) != LP_NOT_THERE;
}

static int play(long nth) {
    lp_slot slot = LP_EMPTY;
    refused = 0;
    left = nth;
    uint32_t status = create(&slot);
    if (status == LP_NO_MEMORY) {
        if (slot.at || !refused) return 1;
        status = create(&slot);
    }
    if (status != LP_OK) return 2;
    for (size_t i = 0; i < sizeof events / sizeof *events; i++) {
        lp_told told = {9, 9, 9, 9, 9};
        lp_engine_state state;
        status = lp_step(&slot, &events[i], &told);
        if (status == LP_NO_MEMORY) {
            if (!refused || told.what != 9 || lp_state(&slot, &state) || state.events != i) return 3;
            status = lp_step(&slot, &events[i], &told);
        }
        if (status != LP_OK) return 4;
        if (!nth) wanted[i] = told;
        if (told.what != wanted[i].what || told.level != wanted[i].level || told.refusal != wanted[i].refusal
            || told.complete != wanted[i].complete || told.groups != wanted[i].groups)
            return 5;
        if (certify(&slot)) return 6;
    }
    left = 0;
    lp_free(&slot);
    return 0;
}

int main(void) {
    for (long nth = 0; nth == 0 || refused; nth++) {
        int status = play(nth);
        if (status) {
            fprintf(stderr, "allocation %ld: %d\n", nth, status);
            return status;
        }
        if (nth == 0) refused = 1;
        else if (!refused) printf("%ld allocations\n", nth - 1);
    }
    puts("ok");
    return 0;
}
