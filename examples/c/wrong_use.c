/* Each wrong use that the library answers, and what it answers. It ends with status 0, or names the line that differs.
 *
 * usage: wrong_use FILE     (a text of 2 cars) */
#include <stdio.h>
#include <string.h>

#include "liftplc.h"

#define WANT(condition) \
    do { \
        if (!(condition)) { \
            printf("line %d: %s\n", __LINE__, #condition); \
            return 1; \
        } \
    } while (0)
#define ROUND(fields) liftplc_round(&handle, fields, &outputs)
#define REFUSED_ROUND(field, value) (bad = good, bad.field = (value), ROUND(&bad) == LIFTPLC_OUT_OF_RANGE && !memcmp(&outputs, &before, sizeof outputs))

#define OPEN_FROM(trace, length) liftplc_open_from(&handle, text, length_of_text, trace, length, &dropped, &refusal)
#define REFUSED_TRACE(trace, length, fault, at) \
    (OPEN_FROM(trace, length) == LIFTPLC_NO_TRACE && refusal.number == (fault) && refusal.line == (at) && !refusal.offset && dropped == 77 && !handle.is_open)

static char text[262144 + 2];
static char state[65536], kept_state[65536];
static uint64_t dropped = 77, size = 77;
static liftplc_outputs outputs, before;
static liftplc_fields bad;
static const liftplc_fields good = {100, 2, false, 2, {{1, true, false, true, true, false}, {1, true, false, true, true, false}}};

static int is_untouched(void) { return !memcmp(&outputs, &before, sizeof outputs); }

int main(int argc, char **argv) {
    FILE *file = argc == 2 ? fopen(argv[1], "rb") : NULL;
    if (!file) return 2;
    size_t length = fread(text, 1, sizeof text, file), length_of_text = length;
    fclose(file);
    static liftplc_handle handle;
    liftplc_refusal refusal = {999, 999, 999};
    memset(outputs.slots, 0x5a, sizeof outputs.slots);
    memset(outputs.notices, 0x5a, sizeof outputs.notices);
    before = outputs;
    memset(state, 0x5a, sizeof state);
    memcpy(kept_state, state, sizeof state);

    /* null pointers */
    WANT(liftplc_open(NULL, text, length, &refusal) == LIFTPLC_NULL);
    WANT(liftplc_open(&handle, NULL, length, &refusal) == LIFTPLC_NULL && liftplc_open(&handle, NULL, 0, &refusal) == LIFTPLC_NULL);
    WANT(liftplc_open(&handle, text, length, NULL) == LIFTPLC_NULL && !handle.is_open);
    WANT(liftplc_close(NULL) == LIFTPLC_NULL && liftplc_press(NULL, 1, 2) == LIFTPLC_NULL && liftplc_budget(NULL, 1) == 0);
    WANT(liftplc_round(NULL, &good, &outputs) == LIFTPLC_NULL && liftplc_round(&handle, NULL, &outputs) == LIFTPLC_NULL && ROUND(&good) == LIFTPLC_CLOSED);
    WANT(liftplc_round(&handle, &good, NULL) == LIFTPLC_NULL && is_untouched());
    WANT(liftplc_open_from(NULL, text, length, "", 0, &dropped, &refusal) == LIFTPLC_NULL && liftplc_open_from(&handle, NULL, 0, "", 0, &dropped, &refusal) == LIFTPLC_NULL);
    WANT(liftplc_open_from(&handle, text, length, NULL, 0, &dropped, &refusal) == LIFTPLC_NULL && liftplc_open_from(&handle, text, length, "", 0, NULL, &refusal) == LIFTPLC_NULL);
    WANT(liftplc_open_from(&handle, text, length, "", 0, &dropped, NULL) == LIFTPLC_NULL && !handle.is_open && dropped == 77);
    WANT(liftplc_state(NULL, text, length, state, sizeof state, &size) == LIFTPLC_NULL && liftplc_state(&handle, NULL, 0, state, sizeof state, &size) == LIFTPLC_NULL);
    WANT(liftplc_state(&handle, text, length, NULL, 0, &size) == LIFTPLC_NULL && liftplc_state(&handle, text, length, state, sizeof state, NULL) == LIFTPLC_NULL && size == 77);

    /* a closed handle */
    WANT(liftplc_close(&handle) == LIFTPLC_CLOSED && liftplc_close(&handle) == LIFTPLC_CLOSED);
    WANT(liftplc_press(&handle, 1, 2) == LIFTPLC_CLOSED && liftplc_press(&handle, 999, 2) == LIFTPLC_CLOSED && liftplc_budget(&handle, 1) == 0);
    WANT(REFUSED_ROUND(car_count, 9) == 0 && ROUND(&bad) == LIFTPLC_CLOSED && is_untouched());

    WANT(liftplc_state(&handle, text, length, state, sizeof state, &size) == LIFTPLC_CLOSED && size == 77 && !memcmp(state, kept_state, sizeof state));

    /* texts that are refused leave the handle closed */
    WANT(liftplc_open(&handle, "X", 1, &refusal) == LIFTPLC_REFUSED && refusal.line == 1 && refusal.offset == 0 && refusal.number == 10 && !handle.is_open);
    WANT(liftplc_open(&handle, text, 0, &refusal) == LIFTPLC_REFUSED && liftplc_open(&handle, text, length - 20, &refusal) == LIFTPLC_REFUSED);
    WANT(liftplc_open(&handle, text, sizeof text, &refusal) == LIFTPLC_REFUSED && refusal.number == 6 && refusal.line == 1 && !handle.is_open && !handle.world);

    WANT(liftplc_open_from(&handle, "X", 1, "E 1", 3, &dropped, &refusal) == LIFTPLC_REFUSED && refusal.number == 10 && refusal.line == 1 && !handle.is_open && dropped == 77);

    /* what is no trace of the text leaves it closed too */
    WANT(REFUSED_TRACE("", 0, 81, 1) && REFUSED_TRACE("LIFTTRACE 9\n", 12, 80, 1) && REFUSED_TRACE("LIFTTRACE 3\n", 12, 80, 1) && REFUSED_TRACE("LIFTTRACE 2\nP 1 99\n", 19, 64, 2));

    /* an open handle isn't opened again */
    WANT(liftplc_open(&handle, text, length, &refusal) == LIFTPLC_OK && handle.is_open && handle.world);
    liftplc_refusal kept = refusal;
    WANT(liftplc_open(&handle, "X", 1, &refusal) == LIFTPLC_OPEN && handle.is_open && !memcmp(&kept, &refusal, sizeof kept));
    WANT(OPEN_FROM("LIFTTRACE 2\nE 0\n", 16) == LIFTPLC_OPEN && handle.is_open && dropped == 77 && !memcmp(&kept, &refusal, sizeof kept));

    /* presses */
    for (uint32_t floor = 0; floor < 600; floor++) {
        if (floor >= 1 && floor <= 8) continue;
        WANT(liftplc_press(&handle, floor, 2) == LIFTPLC_NO_FLOOR && liftplc_press(&handle, 2, floor) == LIFTPLC_NO_FLOOR);
    }
    WANT(liftplc_press(&handle, (uint32_t)-1, 2) == LIFTPLC_NO_FLOOR && liftplc_press(&handle, 2, 256 + 3) == LIFTPLC_NO_FLOOR);
    WANT(liftplc_press(&handle, 2, 2) == LIFTPLC_SAME_FLOOR && liftplc_press(&handle, 9, 9) == LIFTPLC_NO_FLOOR);
    WANT(liftplc_press(&handle, 1, 2) == LIFTPLC_OK && liftplc_press(&handle, 1, 2) == LIFTPLC_ALREADY);

    /* budgets */
    WANT(liftplc_budget(&handle, 0) > 0 && liftplc_budget(&handle, 1) > 0 && liftplc_budget(&handle, 2) > 0);
    for (uint32_t task = 3; task < 600; task++) WANT(liftplc_budget(&handle, task) == 0);

    /* fields out of range change nothing */
    for (unsigned i = 0; i < 256; i++) {
        if (i != 2) WANT(REFUSED_ROUND(car_count, (uint8_t)i));
        if (i > 2) WANT(REFUSED_ROUND(run_limit, (uint8_t)i));
        if (i < 1 || i > 8) WANT(REFUSED_ROUND(cars[0].pos, (uint8_t)i) && REFUSED_ROUND(cars[1].pos, (uint8_t)i));
    }
    WANT(REFUSED_ROUND(time, 0x80000000u) && REFUSED_ROUND(time, 0xffffffffu));

    /* what is in range, and the call that was pressed once above */
    WANT(ROUND(&good) == LIFTPLC_OK && outputs.car_count == 2 && outputs.slot_count >= 1 && outputs.notice_count >= 1);
    const liftplc_notice *first = &outputs.notices[0];
    WANT(first->kind == LIFTPLC_ENTERED && first->ticket == 1 && first->slot == 1 && first->from == 1 && first->to == 2 && !first->car && !first->rule);
    WANT(outputs.slots[0].ticket == 1 && outputs.slots[0].from == 1 && outputs.slots[0].to == 2 && outputs.slots[0].state != LIFTPLC_SLOT_FREE);

    /* a room that is too short for the state */
    WANT(liftplc_state(&handle, text, length, state, 0, &size) == LIFTPLC_SHORT && size > 100 && size < sizeof state && !memcmp(state, kept_state, sizeof state));
    const uint64_t takes = size;
    size = 77;
    WANT(liftplc_state(&handle, text, length, state, takes - 1, &size) == LIFTPLC_SHORT && size == takes && !memcmp(state, kept_state, sizeof state));
    WANT(liftplc_state(&handle, text, length, state, takes, &size) == LIFTPLC_OK && size == takes && !memcmp(state + takes, kept_state + takes, sizeof state - takes));
    memcpy(kept_state, state, sizeof state);

    /* a state of another text, and one that is cut off, are refused; what is whole opens */
    WANT(liftplc_state(&handle, "X", 1, state, sizeof state, &size) == LIFTPLC_OK && size == takes && memcmp(state, kept_state, takes));
    WANT(liftplc_close(&handle) == LIFTPLC_OK && REFUSED_TRACE(state, takes, 85, 2) && REFUSED_TRACE(kept_state, 40, 81, 2));
    WANT(OPEN_FROM(kept_state, takes) == LIFTPLC_OK && handle.is_open && dropped == 0 && ROUND(&good) == LIFTPLC_OK && outputs.slots[0].ticket == 1);

    /* closed, and opened anew */
    WANT(liftplc_close(&handle) == LIFTPLC_OK && !handle.is_open && !handle.world && liftplc_close(&handle) == LIFTPLC_CLOSED && ROUND(&good) == LIFTPLC_CLOSED);
    WANT(liftplc_open(&handle, text, length, &refusal) == LIFTPLC_OK && ROUND(&good) == LIFTPLC_OK && outputs.notice_count == 0);
    WANT(outputs.slots[0].state == LIFTPLC_SLOT_FREE && liftplc_close(&handle) == LIFTPLC_OK);
    WANT(liftplc_version() == LIFTPLC_VERSION);
    return 0;
}
