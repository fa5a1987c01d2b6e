/* A controller that is stopped and goes on. Two controllers of one text make the same rounds, each on a simulated plant. Between reading the plant and a round a file gets the
 * state of the second, which is closed and opened again from the file. That round leaves the same call slots in both, and both serve the same calls.
 *
 * usage: restart FILE CARS FLOORS ROUND STATE [AGAIN]     (ROUND: in which round; AGAIN: a file for the state right after the start)
 * status: 0; 1 a file, a text or memory; 2 the words; 3 what isn't the same; 4 a press, a round or a state that is refused */
#define _XOPEN_SOURCE 700
#include <fcntl.h>
#include <stdio.h>
#include <stdlib.h>
#include <unistd.h>

#include "liftplc.h"
#include "plant.h"

enum { TEXT_MAX = 262144 + 1, STATE_MAX = 1 << 20, CALLS = 12, LONGEST = 5000 }; /* bytes, bytes, calls, rounds */

/* A controller, its plant, and how often it served the call of each ticket. */
typedef struct {
    liftplc_handle handle;
    plant_car plant[8];
    liftplc_outputs outputs; /* zero: every motor is still */
    int served[CALLS + 1];
} group;

static group first, second; /* all zero: closed */
static uint8_t text[TEXT_MAX], state[STATE_MAX];
static size_t text_length;
static int cars, floors;

/* FILES */

static bool read_file(const char *name, uint8_t *at, size_t room, size_t *length) {
    FILE *file = fopen(name, "rb");
    if (!file) return false;
    *length = fread(at, 1, room, file);
    return !fclose(file);
}

/* There is always the whole old file or the whole new one: what is new is brought to the disk before it takes the name. */
static bool replace_file(const char *name, const uint8_t *bytes, size_t length) {
    char fresh[4096];
    if ((size_t)snprintf(fresh, sizeof fresh, "%s.new", name) >= sizeof fresh) return false;
    int file = open(fresh, O_WRONLY | O_CREAT | O_TRUNC, 0644);
    if (file < 0) return false;
    bool is_whole = write(file, bytes, length) == (ssize_t)length && !fsync(file);
    return !close(file) && is_whole && !rename(fresh, name);
}

/* STOP AND START */

static bool save(group *of, const char *name) {
    uint64_t length;
    return !liftplc_state(&of->handle, text, text_length, state, sizeof state, &length) && replace_file(name, state, (size_t)length);
}

/* Every output is still from here to the first round. */
static bool start_again(group *of, const char *name) {
    size_t length;
    uint64_t dropped;
    liftplc_refusal refusal;
    of->outputs = (liftplc_outputs){0};
    return read_file(name, state, sizeof state, &length) && !liftplc_open_from(&of->handle, text, text_length, state, length, &dropped, &refusal);
}

static bool stop_and_start(group *of, const char *name, const char *again) {
    return save(of, name) && !liftplc_close(&of->handle) && start_again(of, name) && (!again || save(of, again));
}

/* ROUNDS */

static liftplc_fields read_plant(group *of, int round) {
    liftplc_fields fields = {.time = (uint32_t)round * 100, .run_limit = (uint8_t)cars, .car_count = (uint8_t)cars};
    for (int i = 0; i < cars; i++) {
        plant_moves(&of->plant[i], floors, of->outputs.cars[i]);
        fields.cars[i] = plant_reports(of->plant[i], floors);
    }
    return fields;
}

static bool make_round(group *of, liftplc_fields fields) {
    if (liftplc_round(&of->handle, &fields, &of->outputs)) return false;
    for (int i = 0; i < of->outputs.notice_count; i++) {
        const liftplc_notice *n = &of->outputs.notices[i];
        if (n->kind == LIFTPLC_SERVED && n->ticket <= CALLS) of->served[n->ticket]++;
    }
    return true;
}

/* The call of a number, from one floor to another; no two of the first FLOORS * (FLOORS - 1) are the same. */
static bool press(group *of, int number) {
    int from = number % floors, far = 1 + number / floors % (floors - 1);
    return !liftplc_press(&of->handle, (uint32_t)from + 1, (uint32_t)((from + far) % floors) + 1);
}

/* Whether the same calls are in the same slots, under the same tickets, told to the same cars. */
static bool have_same_slots(const liftplc_outputs *a, const liftplc_outputs *b) {
    for (int i = 0; i < a->slot_count; i++) {
        const liftplc_slot *x = &a->slots[i], *y = &b->slots[i];
        if (x->ticket != y->ticket || x->state != y->state || x->from != y->from || x->to != y->to || x->car != y->car) return false;
    }
    return a->slot_count == b->slot_count;
}

static int count_served(const group *of) {
    int count = 0;
    for (int ticket = 1; ticket <= CALLS; ticket++) count += of->served[ticket];
    return count;
}

int main(int argc, char **argv) {
    if (argc < 6 || argc > 7 || liftplc_version() != LIFTPLC_VERSION) return 2;
    cars = atoi(argv[2]), floors = atoi(argv[3]);
    int stop = atoi(argv[4]), pressed = 0, left = 0;
    if (cars < 1 || cars > 8 || floors < 2 || stop < 1 || stop > LONGEST) return 2;
    liftplc_refusal refusal;
    if (!read_file(argv[1], text, sizeof text, &text_length)) return 1;
    if (liftplc_open(&first.handle, text, text_length, &refusal) || liftplc_open(&second.handle, text, text_length, &refusal)) return 1;

    for (int round = 1; round <= LONGEST; round++) {
        if (round > stop && count_served(&first) == CALLS && count_served(&second) == CALLS) break;
        if (round % 5 == 1 && pressed < CALLS) {
            if (!press(&first, pressed) || !press(&second, pressed)) return 4;
            pressed++;
        }
        liftplc_fields ours = read_plant(&first, round), theirs = read_plant(&second, round);
        if (round == stop) {
            left = pressed - count_served(&second);
            if (!stop_and_start(&second, argv[5], argv[6])) return 4;
        }
        if (!make_round(&first, ours) || !make_round(&second, theirs)) return 4;
        if (round == stop && !have_same_slots(&first.outputs, &second.outputs)) return 3;
    }
    for (int ticket = 1; ticket <= CALLS; ticket++) {
        if (first.served[ticket] != 1 || second.served[ticket] != 1) return 3;
    }
    printf("%d calls, of which %d were not served at the start; both served each once\n", CALLS, left);
    return liftplc_close(&first.handle) || liftplc_close(&second.handle) ? 4 : 0;
}
