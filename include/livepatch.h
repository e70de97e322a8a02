/* The livepatch transition engine.
 *
 * Each call is proved to do what it says here; docs/c.md says up to which border. A slot belongs to the
 * caller, who sets it to LP_EMPTY before the first call, never reads, writes or copies its pointer, and gives it
 * to one call at a time, on one thread. No pointer may be null, also not that of an array of length 0, and those of one call may
 * not overlap. What a call tells through a pointer has to be initialised before it, and is unchanged where the
 * status isn't LP_OK. */
#ifndef LIVEPATCH_H
#define LIVEPATCH_H

#include <stddef.h>
#include <stdint.h>

#ifdef __cplusplus
extern "C" {
#endif

struct lp_hidden;

/* A place for an engine. */
typedef struct lp_slot {
    struct lp_hidden *at;
} lp_slot;

#define LP_EMPTY {0}

/* The statuses. Where it isn't LP_OK nothing has happened. */
enum {
    LP_OK = 0,
    LP_NO_MEMORY = 13,        /* E13 */
    LP_JOURNAL_FULL = 14,     /* E14: 1,000,000 events are numbered */
    LP_NO_ENGINE = 20,        /* the slot is empty */
    LP_HAS_ENGINE = 21,       /* the slot has an engine already */
    LP_NO_MODEL = 22,         /* the number names no model */
    LP_NO_EVENT = 23,         /* the number names no kind of event */
    LP_NOT_THERE = 24,        /* no such task, group, blame, certificate or line */
    LP_PATCH_EMPTY = 31,      /* P1: no function in a patch, or no patch */
    LP_PATCH_UNKNOWN = 32,    /* P2: a function's number isn't below the count of symbols */
    LP_PATCH_DOUBLED = 33,    /* P3: a function is twice in one patch */
    LP_PATCH_TOO_MANY = 34,   /* P4: more than 256 functions in one patch */
    LP_TOO_MANY_PATCHES = 36, /* P6: more than 16 patches */
    LP_PATCH_LENGTHS = 37,    /* the lengths don't sum to the count of functions, or more than 4,096 symbols */
    LP_TASK_RANGE = 41,       /* T1: a boot task has the number 0 */
    LP_TASK_DOUBLED = 42,     /* T2: two boot tasks have one number */
};

/* The models; `lp_model_name` has their names. */
enum {
    LP_HYBRID = 0,
    LP_LEAVE_KERNEL = 1,
    LP_ALL_AT_ONCE = 2,
    LP_IMMEDIATE = 3,
    LP_PROCESS_GROUP = 4,
};

/* The kinds of events. */
enum {
    LP_CALL = 0,         /* the task calls the function `other` */
    LP_RET = 1,          /* the task returns from the function that it called last */
    LP_SLEEP = 2,        /* the task leaves its CPU, in the kernel */
    LP_WAKE = 3,         /* the task is on a CPU again */
    LP_ENTER = 4,        /* the task enters the kernel */
    LP_EXIT = 5,         /* the task returns to user space */
    LP_IDLE = 6,         /* the idle task is at the point in its loop where nothing runs */
    LP_FORK = 7,         /* the task forks the process `other` */
    LP_FORK_THREAD = 8,  /* the task starts the thread `other` */
    LP_DIE = 9,          /* the task ends */
    LP_WALK = 10,        /* all stacks are looked at while the tasks run */
    LP_STOP = 11,        /* all CPUs are stopped, and every stack is looked at */
    LP_ENABLE = 12,      /* a transition to the next higher level begins */
    LP_DISABLE = 13,     /* a transition to the next lower level begins */
    LP_REVERSE = 14,     /* the transition under way turns round */
    LP_RESCHED = 15,     /* the task, in the kernel, would let another run, and looks at its own stack (cond_resched) */
};

/* What an event did. */
enum {
    LP_RAN = 0,      /* the call runs `level` */
    LP_DONE = 1,     /* accepted, and nobody switched */
    LP_SWITCHED = 2, /* `groups` groups switched */
    LP_REFUSED = 3,  /* refused, as E1 to E12: `refusal` */
};

/* The modes of a task. */
enum {
    LP_USER = 0,
    LP_KERNEL = 1,
    LP_ASLEEP = 2,
};

/* The kinds of lines of a certificate. */
enum {
    LP_HOLD = 0,
    LP_BUSY = 1,
    LP_BORN = 2,
};

/* A boot task; `idle` is 1 for an idle task, else 0. */
typedef struct lp_boot_task {
    uint16_t task;
    uint16_t idle;
} lp_boot_task;

typedef struct lp_event {
    uint32_t kind;
    uint16_t task;
    uint16_t other;
} lp_event;

/* The reply to an event; `complete` is 1 where the transition is complete from this event on. */
typedef struct lp_told {
    uint32_t what;
    uint32_t level;
    uint32_t refusal;
    uint32_t complete;
    size_t groups;
} lp_told;

/* How many events came, the level to which the tasks switch or on which all are, and whether a transition is
 * under way. */
typedef struct lp_engine_state {
    uint64_t events;
    uint32_t target;
    uint32_t in_transition;
} lp_engine_state;

/* A live task: its level, its group, its mode, and how many frames it has. */
typedef struct lp_task_state {
    uint32_t level;
    uint32_t group;
    uint32_t mode;
    uint32_t unused;
    size_t depth;
} lp_task_state;

/* The frame that holds a group back: its task, and the number of the event that pushed it. */
typedef struct lp_blame_code {
    uint64_t serial;
    uint32_t task;
    uint32_t unused;
} lp_blame_code;

/* A certificate that a group waits: the event that opened the leg, the last event after which it waits, and how many
 * lines say why. */
typedef struct lp_cert_code {
    uint64_t leg;
    uint64_t upto;
    size_t lines;
} lp_cert_code;

/* A line of a certificate: the frame of `serial` holds the task back from event `from` to `to`; or the task is on a CPU at
 * event `from`; or the group was born at event `from`, by the task. */
typedef struct lp_line_code {
    uint32_t kind;
    uint32_t group;
    uint32_t task;
    uint32_t unused;
    uint64_t serial;
    uint64_t from;
    uint64_t to;
} lp_line_code;

/* Makes an engine in an empty slot: a model, so many symbols, the functions of all patches one patch after the
 * other, how many each patch has, and the boot tasks. */
uint32_t lp_create(lp_slot *slot, uint32_t model, uint16_t symbols, const uint16_t *functions, size_t functions_len,
                   const uint32_t *lengths, size_t lengths_len, const lp_boot_task *tasks, size_t tasks_len);

/* Takes one event; the reply is in `told`. */
uint32_t lp_step(lp_slot *slot, const lp_event *event, lp_told *told);

/* The group at a place, from 0, of those that switched at the last event taken, in increasing order. */
uint32_t lp_group(lp_slot *slot, size_t place, uint32_t *group);

uint32_t lp_state(lp_slot *slot, lp_engine_state *state);

/* LP_NOT_THERE where no live task has the number. */
uint32_t lp_task(lp_slot *slot, uint16_t task, lp_task_state *state);

/* The standing blame of a group: every check of it is refused until the frame is popped or the leg ends.
 * LP_NOT_THERE where there is none. */
uint32_t lp_blame(lp_slot *slot, uint16_t group, lp_blame_code *blame);

/* Keeps the certificate that a group waits in the leg under way, until the next event is taken. LP_NOT_THERE where the
 * group doesn't wait. */
uint32_t lp_certificate(lp_slot *slot, uint16_t group, lp_cert_code *cert);

/* The line at a place, from 0, of the certificate that was asked for since the last event. */
uint32_t lp_line(lp_slot *slot, size_t place, lp_line_code *line);

/* Frees the engine, if one is there. The slot is then empty, and may be used again. */
void lp_free(lp_slot *slot);

/* The letter at a place of a model's name: LP_NO_MODEL where the number names no model, LP_NOT_THERE past the name's end. */
uint32_t lp_model_name(uint32_t model, size_t place, uint32_t *letter);

#ifdef __cplusplus
}
#endif

#endif
