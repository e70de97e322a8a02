/* Calls each export, and exits with 1 at the first check that fails, or 0. */
#include "livepatch.h"
#include <stdio.h>

#define CHECK(x) do { if (!(x)) { fprintf(stderr, "line %d: %s\n", __LINE__, #x); return 1; } } while (0)
#define EVENT(k, t, o) (&(lp_event){.kind = (k), .task = (t), .other = (o)})

static int misuse(void) {
    lp_slot slot = LP_EMPTY;
    lp_told told = {7, 7, 7, 7, 7};
    lp_engine_state state = {7, 7, 7};
    lp_task_state task = {7, 7, 7, 7, 7};
    lp_blame_code blame = {7, 7, 7};
    uint32_t group = 7;
    const uint16_t functions[] = {0, 3, 0};
    const uint32_t lengths[] = {1, 1, 1};
    const lp_boot_task boots[] = {{1, 0}, {0, 0}, {1, 0}};
    CHECK(lp_step(&slot, EVENT(LP_WALK, 0, 0), &told) == LP_NO_ENGINE && told.what == 7);
    CHECK(lp_group(&slot, 0, &group) == LP_NO_ENGINE && group == 7);
    CHECK(lp_state(&slot, &state) == LP_NO_ENGINE && state.events == 7);
    CHECK(lp_task(&slot, 1, &task) == LP_NO_ENGINE && task.level == 7);
    CHECK(lp_blame(&slot, 1, &blame) == LP_NO_ENGINE && blame.serial == 7);
    lp_free(&slot);
    CHECK(lp_create(&slot, UINT32_MAX, 3, functions, 1, lengths, 1, boots, 1) == LP_NO_MODEL && !slot.at);
    CHECK(lp_create(&slot, LP_HYBRID, 3, functions, 0, lengths, 0, boots, 1) == LP_PATCH_EMPTY && !slot.at);
    CHECK(lp_create(&slot, LP_HYBRID, 3, functions, 2, lengths, 2, boots, 1) == LP_PATCH_UNKNOWN && !slot.at);
    CHECK(lp_create(&slot, LP_HYBRID, 3, functions, 2, lengths, 1, boots, 1) == LP_PATCH_LENGTHS && !slot.at);
    CHECK(lp_create(&slot, LP_HYBRID, 3, functions, 1, lengths, 2, boots, 1) == LP_PATCH_LENGTHS && !slot.at);
    CHECK(lp_create(&slot, LP_HYBRID, 4097, functions, 1, lengths, 1, boots, 1) == LP_PATCH_LENGTHS && !slot.at);
    CHECK(lp_create(&slot, LP_HYBRID, 3, functions, 1, lengths, 1, boots, 2) == LP_TASK_RANGE && !slot.at);
    CHECK(lp_create(&slot, LP_HYBRID, 3, functions, 1, lengths, 1, &boots[2], 1) == LP_OK && slot.at);
    CHECK(lp_create(&slot, LP_HYBRID, 3, functions, 1, lengths, 1, boots, 1) == LP_HAS_ENGINE && slot.at);
    CHECK(lp_step(&slot, EVENT(LP_RESCHED + 1, 0, 0), &told) == LP_NO_EVENT && told.what == 7);
    CHECK(lp_step(&slot, EVENT(UINT32_MAX, 0, 0), &told) == LP_NO_EVENT && told.what == 7);
    CHECK(lp_task(&slot, 2, &task) == LP_NOT_THERE && task.level == 7);
    CHECK(lp_blame(&slot, 65535, &blame) == LP_NOT_THERE && blame.serial == 7);
    lp_free(&slot);
    CHECK(!slot.at);
    lp_free(&slot);
    CHECK(lp_step(&slot, EVENT(LP_WALK, 0, 0), &told) == LP_NO_ENGINE);
    CHECK(lp_model_name(UINT32_MAX, 0, &group) == LP_NO_MODEL && group == 7);
    CHECK(lp_model_name(LP_HYBRID, 6, &group) == LP_NOT_THERE && group == 7);
    CHECK(lp_model_name(LP_HYBRID, 5, &group) == LP_OK && group == 'd');
    return 0;
}

/* Three tasks asleep, one of them in the function: a walk switches the other two. */
static int run(void) {
    lp_slot slot = LP_EMPTY;
    lp_told told;
    lp_task_state task;
    lp_blame_code blame;
    lp_engine_state state;
    lp_cert_code cert = {7, 7, 7};
    lp_line_code line = {7, 7, 7, 7, 7, 7, 7};
    uint32_t group = 0;
    const lp_boot_task boots[] = {{1, 0}, {2, 0}, {3, 0}};
    CHECK(lp_create(&slot, LP_HYBRID, 1, (uint16_t[]){0}, 1, (uint32_t[]){1}, 1, boots, 3) == LP_OK);
    for (uint16_t t = 1; t <= 3; t++) {
        CHECK(lp_step(&slot, EVENT(LP_ENTER, t, 0), &told) == LP_OK && told.what == LP_DONE);
        if (t == 2) {
            CHECK(lp_step(&slot, EVENT(LP_CALL, t, 0), &told) == LP_OK && told.what == LP_RAN && told.level == 0);
        }
        CHECK(lp_step(&slot, EVENT(LP_SLEEP, t, 0), &told) == LP_OK && told.what == LP_DONE);
    }
    CHECK(lp_step(&slot, EVENT(LP_CALL, 9, 0), &told) == LP_OK && told.what == LP_REFUSED && told.refusal == 1);
    CHECK(lp_step(&slot, EVENT(LP_ENABLE, 0, 0), &told) == LP_OK && told.what == LP_DONE && !told.complete);
    CHECK(lp_step(&slot, EVENT(LP_WALK, 0, 0), &told) == LP_OK && told.what == LP_SWITCHED && told.groups == 2);
    CHECK(lp_group(&slot, 0, &group) == LP_OK && group == 1);
    CHECK(lp_group(&slot, 1, &group) == LP_OK && group == 3);
    CHECK(lp_group(&slot, 2, &group) == LP_NOT_THERE && group == 3);
    CHECK(lp_blame(&slot, 2, &blame) == LP_OK && blame.task == 2 && blame.serial == 4);
    CHECK(lp_line(&slot, 0, &line) == LP_NOT_THERE && line.kind == 7);
    CHECK(lp_certificate(&slot, 1, &cert) == LP_NOT_THERE && cert.leg == 7);
    CHECK(lp_certificate(&slot, 2, &cert) == LP_OK && cert.leg == 9 && cert.upto == 10 && cert.lines == 1);
    CHECK(lp_line(&slot, 1, &line) == LP_NOT_THERE && line.kind == 7);
    CHECK(lp_line(&slot, 0, &line) == LP_OK && line.kind == LP_HOLD && line.group == 2 && line.task == 2);
    CHECK(line.serial == 4 && line.from == 10 && line.to == 10);
    CHECK(lp_task(&slot, 2, &task) == LP_OK && task.level == 0 && task.group == 2 && task.mode == LP_ASLEEP && task.depth == 1);
    CHECK(lp_state(&slot, &state) == LP_OK && state.events == 10 && state.target == 1 && state.in_transition);
    CHECK(lp_step(&slot, EVENT(LP_WAKE, 2, 0), &told) == LP_OK && told.what == LP_DONE);
    CHECK(lp_group(&slot, 0, &group) == LP_NOT_THERE);
    CHECK(lp_line(&slot, 0, &line) == LP_NOT_THERE);
    CHECK(lp_step(&slot, EVENT(LP_RET, 2, 0), &told) == LP_OK && told.what == LP_DONE);
    CHECK(lp_step(&slot, EVENT(LP_EXIT, 2, 0), &told) == LP_OK && told.what == LP_SWITCHED && told.complete);
    CHECK(lp_state(&slot, &state) == LP_OK && state.target == 1 && !state.in_transition);
    lp_free(&slot);
    return 0;
}

int main(void) {
    if (misuse() || run()) return 1;
    puts("ok");
    return 0;
}
