/* A plant behind `serve`: it exchanges rounds as fast as they go, and stops where the account of tools/year needs the answer.

   tools/year compiles this file as a shared library. It starts `serve`, presses, and keeps the account. The plant is that of docs/TRACE.md. */
#define _GNU_SOURCE
#include <string.h>
#include <unistd.h>

enum { MOST_CARS = 8, LONGEST_LINE = 129, STEP = 100, PLACES_OF_FLOOR = 10, DOOR_OPEN = 5 };
static const long MOST_NOW = 2147483647;

struct car {
    int place, door, motor, opens;
};

/* `now` is that of the last line. */
struct plant {
    int count, floors;
    long now;
    struct car cars[MOST_CARS];
};

/* The last answer. One that isn't whole may have nothing: then `serve` has ended. */
struct answer {
    int is_whole;
    long length;
    char text[1 << 16];
};

static int between(int low, int value, int high) {
    return value < low ? low : value > high ? high : value;
}

/* One step under the outputs of the last answer. Behind its end NOW goes on at 0. */
static void step(struct plant *of) {
    of->now = of->now + STEP <= MOST_NOW ? of->now + STEP : 0;
    for (struct car *car = of->cars; car < of->cars + of->count; car++) {
        car->place = between(-PLACES_OF_FLOOR, car->place + car->motor, PLACES_OF_FLOOR * of->floors);
        car->door = between(0, car->door + (car->opens ? 1 : -1), DOOR_OPEN);
    }
}

/* Puts a space and a number. The answer is the place behind it. */
static char *put_number(char *to, long number) {
    char digits[20];
    int count = 0;
    do digits[count++] = '0' + number % 10;
    while (number /= 10);
    *to++ = ' ';
    while (count) *to++ = digits[--count];
    return to;
}

/* Puts POS, and LEVEL, TOP, BOTTOM, LOCKED and OPENED. */
static char *put_car(char *to, const struct car *car, int floors) {
    to = put_number(to, between(1, (car->place + PLACES_OF_FLOOR / 2) / PLACES_OF_FLOOR + 1, floors));
    *to++ = ' ';
    *to++ = '0' + (car->place % PLACES_OF_FLOOR == 0);
    *to++ = '0' + (car->place >= PLACES_OF_FLOOR * (floors - 1));
    *to++ = '0' + (car->place <= 0);
    *to++ = '0' + (car->door == 0);
    *to++ = '0' + (car->door == DOOR_OPEN);
    return to;
}

/* Makes a step, and puts the R line of what the plant then reports: every car may run, and there is no fire. The answer is its length. */
int next_line(struct plant *of, char *line) {
    char *to = line;
    step(of);
    *to++ = 'R';
    to = put_number(put_number(put_number(to, of->now), of->count), 0);
    for (int k = 0; k < of->count; k++) to = put_car(to, &of->cars[k], of->floors);
    *to++ = '\n';
    return to - line;
}

/* Takes the outputs of all cars from a line, `outputs` and ` MOTOR OPEN` of each. The answer is whether it is one. */
static int take_outputs(struct plant *of, const char *line, const char *end) {
    if (end - line < 8 || memcmp(line, "outputs", 7)) return 0;
    line += 7;
    for (int k = 0; k < of->count; k++) {
        int down = end - line > 1 && line[1] == '-';
        if (end - line < 5 + down || line[0] != ' ' || line[2 + down] != ' ') return 0;
        int motor = line[1 + down] - '0', opens = line[3 + down] - '0';
        if (motor < down || motor > 1 || opens < 0 || opens > 1) return 0;
        of->cars[k].motor = down ? -motor : motor, of->cars[k].opens = opens;
        line += 4 + down;
    }
    return end - line == 1 && *line == '\n';
}

/* Where the last line of a text begins. */
static const char *last_line(const char *text, const char *end) {
    const char *before = end - text > 1 ? memrchr(text, '\n', end - text - 1) : NULL;
    return before ? before + 1 : text;
}

/* Reads an answer up to its outputs, and takes those. */
static void hear(struct plant *of, int from, struct answer *to) {
    const char *last, *end;
    do {
        ssize_t got = read(from, to->text + to->length, sizeof to->text - to->length);
        if (got <= 0) return;
        to->length += got;
        end = to->text + to->length;
        last = last_line(to->text, end);
    } while (end[-1] != '\n' || end - last < 7 || memcmp(last, "outputs", 7));
    to->is_whole = take_outputs(of, last, end);
}

/* Whether an answer has a notice of calls: a line before its outputs that is no denial. */
static int tells_of_calls(const struct answer *of) {
    const char *line = of->text, *last = last_line(of->text, of->text + of->length);
    while (line < last && !memcmp(line, "denied ", 7)) line = (const char *)memchr(line, '\n', last - line) + 1;
    return line < last;
}

/* Makes up to so many rounds. It stops behind the first one whose answer tells of calls, and where an answer isn't whole: that round doesn't count. */
long make_rounds(struct plant *of, int into, int from, long most, struct answer *to) {
    char line[LONGEST_LINE];
    for (long made = 0; made < most; made++) {
        int length = next_line(of, line);
        to->is_whole = 0, to->length = 0;
        if (write(into, line, length) == length) hear(of, from, to);
        if (!to->is_whole) return made;
        if (tells_of_calls(to)) return made + 1;
    }
    return most;
}
