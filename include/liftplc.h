/* The lift controller as a library. docs/C_LIBRARY.md explains it.
 *
 * Each function returns a status, but for liftplc_budget and liftplc_version. Unless the status is LIFTPLC_OK the call has changed nothing but what stands
 * below at its function. What the proofs suppose, and nobody checks, stands at each function behind "owed"; everything else is answered:
 *
 *   P  A pointer that isn't null points to an object of its type, which lives through the call, and no other pointer of the call points into it.
 *   B  Each bool of such an object is 0 or 1. An object that was set to 0, or written in C, is so.
 *   H  A handle is all zero bytes before its first liftplc_open. From then on these functions alone write it, and it isn't copied or moved.
 *   T  One thread uses a handle, and no call comes from a signal handler or from the forked child of a process with threads.
 *   A  malloc, realloc and free are of one allocator, as of the C library, and align a block to each power of two up to 16 that divides its size.
 */
#ifndef LIFTPLC_H
#define LIFTPLC_H

#include <stdbool.h>
#include <stddef.h>
#include <stdint.h>

#ifdef __cplusplus
extern "C" {
#endif

/* The version of this header, and what liftplc_version answers to it. */
#define LIFTPLC_VERSION 3u

enum {
    LIFTPLC_OK = 0,
    LIFTPLC_REFUSED = 1,      /* the text is refused; the refusal says why */
    LIFTPLC_NO_MEMORY = 2,    /* an allocation failed */
    LIFTPLC_OPEN = 3,         /* the handle is open already */
    LIFTPLC_CLOSED = 4,       /* the handle is not open */
    LIFTPLC_OUT_OF_RANGE = 5, /* a field is out of range, or another number of cars is counted than the group has */
    LIFTPLC_ALREADY = 6,      /* the call is on the desk already, and stays there once */
    LIFTPLC_NO_FLOOR = 7,     /* the group has no such floor */
    LIFTPLC_SAME_FLOOR = 8,   /* a call to its own floor */
    LIFTPLC_NULL = 9,         /* a pointer is null */
    LIFTPLC_NO_TRACE = 10,    /* the trace is no trace of the text; the refusal says why */
    LIFTPLC_SHORT = 11        /* the room is too short */
};

/* The kind of a notice. */
enum {
    LIFTPLC_ENTERED = 1, /* the call from `from` to `to` entered `slot` under `ticket` */
    LIFTPLC_DENIED = 2,  /* `rule` of the interlock, 1 to 6, denied to `car` what it asked for, or its running motor */
    LIFTPLC_TOLD = 3,    /* GROUP told the call of `ticket` to `car` */
    LIFTPLC_SERVED = 4   /* `car` served the call of `ticket` */
};

/* The state of a call slot. */
enum { LIFTPLC_SLOT_FREE = 0, LIFTPLC_SLOT_WAITING = 1, LIFTPLC_SLOT_TOLD = 2 };

/* A controller, or none where all bytes are 0: liftplc_handle handle = {0}; */
typedef struct {
    void *world;
    bool is_open; /* may be read */
} liftplc_handle;

/* The number of a fault of a text or a trace (docs/FAULTS.md), its line, from 1 on, and how many bytes of the text come before it: of a trace 0. */
typedef struct {
    uint16_t number;
    uint32_t line;
    uint32_t offset;
} liftplc_refusal;

/* What the plant reports of a car: the floor that it is at or next to, from 1 on, and its sensors. */
typedef struct {
    uint8_t pos;
    bool level;
    bool top;
    bool bottom;
    bool locked;
    bool opened;
} liftplc_car;

/* What the plant reports: NOW in ms, up to 2147483647, how many cars may run at once, FIRE, and so many cars, car 1 first. */
typedef struct {
    uint32_t time;
    uint8_t run_limit;
    bool fire;
    uint8_t car_count;
    liftplc_car cars[8];
} liftplc_fields;

/* What a car shall do from now on: motor is 1 up, -1 down, 0 still; opens is an open command. */
typedef struct {
    int8_t motor;
    bool opens;
} liftplc_car_output;

/* A call slot. What its state doesn't have is 0. */
typedef struct {
    uint64_t ticket;
    uint8_t state;
    uint8_t from;
    uint8_t to;
    uint8_t car;
} liftplc_slot;

/* What a round has to tell. What its kind doesn't have is 0. */
typedef struct {
    uint64_t ticket;
    uint8_t kind;
    uint8_t car;
    uint8_t rule;
    uint8_t slot;
    uint8_t from;
    uint8_t to;
} liftplc_notice;

/* What a round left: of each array so many are written as are counted. Cars, car 1 first; call slots, slot 1 first; notices, in the order in which they came. */
typedef struct {
    uint8_t car_count;
    uint8_t slot_count;
    uint8_t notice_count;
    liftplc_car_output cars[8];
    liftplc_slot slots[64];
    liftplc_notice notices[168];
} liftplc_outputs;

/* Opens the controller of a text of `text_length` bytes: OK, REFUSED and `refusal` says why, NO_MEMORY or OPEN.
 * Owed: P, with `text_length` bytes at `text`; H, T, A. */
uint32_t liftplc_open(liftplc_handle *handle, const uint8_t *text, size_t text_length, liftplc_refusal *refusal);

/* The same where a trace of the text ends, of any format, whole or cut off: a state that liftplc_state wrote, or a trace of `liftplc serve`. Each output is still
 * until the first round. OK, and `dropped` is how many events after the last whole line of the trace are dropped; NO_TRACE and `refusal` says why; or as above.
 * Owed: P, with `text_length` bytes at `text` and `trace_length` at `trace`; H, T, A. */
uint32_t liftplc_open_from(liftplc_handle *handle, const uint8_t *text, size_t text_length, const uint8_t *trace, size_t trace_length, uint64_t *dropped, liftplc_refusal *refusal);

/* Closes it, and gives its memory back: OK or CLOSED. The handle may be opened again.
 * Owed: P, H, T, A. */
uint32_t liftplc_close(liftplc_handle *handle);

/* A call is pressed: OK, CLOSED, ALREADY, NO_FLOOR or SAME_FLOOR. A later round enters it into a call slot. No memory is taken.
 * Owed: P, H, T. */
uint32_t liftplc_press(liftplc_handle *handle, uint8_t from, uint8_t to);

/* A round: the calls of each floor are gathered, the image is refreshed with the fields, and each task makes a scan and commits it, CAR1 to CARn and then
 * GROUP. OK, CLOSED or OUT_OF_RANGE. No memory is taken.
 * Owed: P, H, T; B of `fields` and `outputs`. */
uint32_t liftplc_round(liftplc_handle *handle, const liftplc_fields *fields, liftplc_outputs *outputs);

/* Writes the state of the controller, as a trace of format 3 without rounds. The text is that with which it was opened: OK, and `length` is how many bytes
 * it has; SHORT, and `length` is how many bytes it takes; CLOSED or NO_MEMORY.
 * Owed: P, with `text_length` bytes at `text` and `room` at `state`; H, T, A. */
uint32_t liftplc_state(liftplc_handle *handle, const uint8_t *text, size_t text_length, uint8_t *state, size_t room, uint64_t *length);

/* The budget of a task, the greatest number of instructions of its scan: 0 is GROUP, k is CARk. It is 0 where there is no such task, or the handle isn't open.
 * Owed: P, H, T. */
uint32_t liftplc_budget(liftplc_handle *handle, uint8_t task);

/* LIFTPLC_VERSION of the header that the archive was made with. */
uint32_t liftplc_version(void);

#ifdef __cplusplus
}
#endif

/* A call goes by one of these, which answers a null pointer and a number that is no uint8_t. They lie in front of the functions above; (liftplc_press)(..)
 * with its parentheses is the function itself, of which P says that no pointer is null. */
static inline uint32_t liftplc_checked_open(liftplc_handle *handle, const void *text, size_t text_length, liftplc_refusal *refusal) {
    return handle && text && refusal ? liftplc_open(handle, (const uint8_t *)text, text_length, refusal) : (uint32_t)LIFTPLC_NULL;
}

static inline uint32_t liftplc_checked_open_from(liftplc_handle *handle, const void *text, size_t text_length, const void *trace, size_t trace_length, uint64_t *dropped, liftplc_refusal *refusal) {
    return handle && text && trace && dropped && refusal ? liftplc_open_from(handle, (const uint8_t *)text, text_length, (const uint8_t *)trace, trace_length, dropped, refusal)
                                                         : (uint32_t)LIFTPLC_NULL;
}

static inline uint32_t liftplc_checked_close(liftplc_handle *handle) { return handle ? liftplc_close(handle) : (uint32_t)LIFTPLC_NULL; }

static inline uint32_t liftplc_checked_press(liftplc_handle *handle, uint32_t from, uint32_t to) {
    return !handle ? (uint32_t)LIFTPLC_NULL : !handle->is_open ? (uint32_t)LIFTPLC_CLOSED : from > 255 || to > 255 ? (uint32_t)LIFTPLC_NO_FLOOR : liftplc_press(handle, (uint8_t)from, (uint8_t)to);
}

static inline uint32_t liftplc_checked_round(liftplc_handle *handle, const liftplc_fields *fields, liftplc_outputs *outputs) {
    return handle && fields && outputs ? liftplc_round(handle, fields, outputs) : (uint32_t)LIFTPLC_NULL;
}

static inline uint32_t liftplc_checked_state(liftplc_handle *handle, const void *text, size_t text_length, void *state, size_t room, uint64_t *length) {
    return handle && text && state && length ? liftplc_state(handle, (const uint8_t *)text, text_length, (uint8_t *)state, room, length) : (uint32_t)LIFTPLC_NULL;
}

static inline uint32_t liftplc_checked_budget(liftplc_handle *handle, uint32_t task) {
    return handle && task <= 255 ? liftplc_budget(handle, (uint8_t)task) : 0;
}

#define liftplc_open(handle, text, text_length, refusal) liftplc_checked_open(handle, text, text_length, refusal)
#define liftplc_open_from(handle, text, text_length, trace, trace_length, dropped, refusal) liftplc_checked_open_from(handle, text, text_length, trace, trace_length, dropped, refusal)
#define liftplc_close(handle) liftplc_checked_close(handle)
#define liftplc_press(handle, from, to) liftplc_checked_press(handle, from, to)
#define liftplc_round(handle, fields, outputs) liftplc_checked_round(handle, fields, outputs)
#define liftplc_state(handle, text, text_length, state, room, length) liftplc_checked_state(handle, text, text_length, state, room, length)
#define liftplc_budget(handle, task) liftplc_checked_budget(handle, task)

#endif
