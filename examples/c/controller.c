/* A cyclic controller of a lift group: in each cycle it reads the plant, makes a round and writes the outputs, and a watchdog stops the motors where a cycle
 * stays away. The plant is that of plant.h; for a lift, replace the three functions of its I/O. On standard output stands the trace that `liftplc sim` writes.
 *
 * usage: controller FILE CARS FLOORS ROUNDS [--clock] [ROUND:FROM:TO ..]     (--clock: a round each 100 ms; otherwise they follow at once)
 * status: 0; 1 a file, a text or memory; 2 the words; 3 the watchdog; 4 a refused round */
#define _XOPEN_SOURCE 700
#include <signal.h>
#include <stdio.h>
#include <stdlib.h>
#include <string.h>
#include <sys/time.h>
#include <time.h>
#include <unistd.h>

#include "liftplc.h"
#include "plant.h"

enum { PERIOD = 100, PATIENCE = 500, TEXT_MAX = 262144 + 1 }; /* ms, ms, bytes */

/* THE PLANT'S I/O */

static plant_car plant[8];
static int cars, floors;
static liftplc_outputs outputs; /* zero: every motor is still */

static void read_plant(liftplc_fields *fields) {
    for (int i = 0; i < cars; i++) {
        plant_moves(&plant[i], floors, outputs.cars[i]);
        fields->cars[i] = plant_reports(plant[i], floors);
    }
    fields->car_count = fields->run_limit = (uint8_t)cars;
}

static void write_plant(void) { /* the simulated plant reads `outputs` itself */ }

/* All motors off. It is called from a signal handler too, so it calls nothing of the library. */
static void stop_plant(void) {
    if (write(STDERR_FILENO, "stop\n", 5) != 5) _exit(3);
}

/* CLOCK AND WATCHDOG */

static void overdue(int signal) {
    (void)signal;
    stop_plant();
    _exit(3);
}

static void feed_watchdog(int patience) {
    struct itimerval rest = {{0, 0}, {patience / 1000, patience % 1000 * 1000}};
    setitimer(ITIMER_REAL, &rest, NULL);
}

/* Waits for the next cycle; the answer is NOW. Of a clock it goes from 2147483647 on to 0, where timers lose one interval. */
static uint32_t next_cycle(struct timespec *next, int round, bool by_clock) {
    if (!by_clock) return (uint32_t)round * PERIOD;
    next->tv_nsec += PERIOD * 1000000L;
    if (next->tv_nsec >= 1000000000L) next->tv_sec++, next->tv_nsec -= 1000000000L;
    while (clock_nanosleep(CLOCK_MONOTONIC, TIMER_ABSTIME, next, NULL)) {}
    return (uint32_t)((uint64_t)next->tv_sec * 1000 + (uint64_t)next->tv_nsec / 1000000) & 0x7fffffff;
}

/* THE TRACE */

static int lines;

static void print_round(liftplc_handle *handle, const liftplc_fields *fields) {
    for (int i = 0; i < outputs.notice_count; i++) {
        const liftplc_notice *n = &outputs.notices[i];
        if (n->kind == LIFTPLC_ENTERED) lines += 2, printf("P %u %u\nG %u\n", n->from, n->to, n->from);
    }
    lines++, printf("R %u %u %d", (unsigned)fields->time, fields->run_limit, fields->fire);
    for (int i = 0; i < cars; i++) {
        const liftplc_car *c = &fields->cars[i];
        printf(" %u %d%d%d%d%d", c->pos, c->level, c->top, c->bottom, c->locked, c->opened);
    }
    putchar('\n');
    for (int i = 1; i <= cars + 1; i++) { /* CAR1 to CARn, and GROUP, which is 0 */
        int task = i % (cars + 1);
        if (liftplc_budget(handle, (uint32_t)task)) lines += 2, printf("S %d\nC %d\n", task, task);
    }
}

int main(int argc, char **argv) {
    if (argc < 5 || liftplc_version() != LIFTPLC_VERSION) return 2;
    cars = atoi(argv[2]), floors = atoi(argv[3]);
    int rounds = atoi(argv[4]), first = argc > 5 && !strcmp(argv[5], "--clock") ? 6 : 5;
    if (cars < 1 || cars > 8) return 2;
    static char text[TEXT_MAX];
    FILE *file = fopen(argv[1], "rb");
    if (!file) return 1;
    size_t length = fread(text, 1, sizeof text, file);
    fclose(file);

    static liftplc_handle handle; /* all zero: closed */
    liftplc_refusal refusal;
    uint32_t status = liftplc_open(&handle, text, length, &refusal);
    if (status == LIFTPLC_REFUSED) fprintf(stderr, "refused %u at line %u\n", refusal.number, (unsigned)refusal.line);
    if (status) return 1;

    static liftplc_fields fields;
    struct timespec next;
    clock_gettime(CLOCK_MONOTONIC, &next);
    signal(SIGALRM, overdue);
    printf("LIFTTRACE 2\n");
    for (int round = 1; round <= rounds && !status; round++) {
        feed_watchdog(PATIENCE);
        fields.time = next_cycle(&next, round, first == 6);
        for (int i = first; i < argc; i++) {
            unsigned at, from, to;
            if (sscanf(argv[i], "%u:%u:%u", &at, &from, &to) != 3) return 2;
            if (at == (unsigned)round && liftplc_press(&handle, from, to) >= LIFTPLC_NO_FLOOR) fprintf(stderr, "no call %u %u\n", from, to);
        }
        read_plant(&fields);
        status = liftplc_round(&handle, &fields, &outputs);
        if (status) break;
        write_plant();
        print_round(&handle, &fields);
    }
    feed_watchdog(0);
    stop_plant();
    printf("E %d\n", lines);
    liftplc_close(&handle);
    return status ? 4 : 0;
}
