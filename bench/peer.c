/* The other end of `liftplc serve`: a plant that talks to it over pipes.

   usage: peer drive ROUNDS SEED CARS FLOORS SLOTS WORD...   (the words of `serve`, a program first)
          peer time ROUNDS CARS FLOORS PAUSE WORD...
          peer echo ROUNDS CARS FLOORS PAUSE WORD...

   `drive` has ROUNDS rounds of the plant of docs/TRACE.md with presses, other run limits and times of fire, and holds each answer against docs/SERVE.md: the
   order of its lines, tickets, slots and cars, and the interlock. It prints `pid N`, lines `memory ROUND OWN RESIDENT HIGHEST` (kB: RssAnon, the memory
   that is no file's, VmRSS and VmHWM), and at the end
   `counts ...`, `answered ROUNDS PRESSES` and, where E was answered, the image as `replay` prints it, without globals; last `status N`. What is wrong is
   printed behind `wrong:`, and ends it with status 1. Where the program ends too early it says how far it came; its own status is 0.

   `time` prints the round-trip times of R lines in ns, one a line; a press stands before each 50th. Before each R line it sleeps PAUSE ms, 0 for not at all.
   `echo` does so where the answer is the line itself. */
#include <errno.h>
#include <poll.h>
#include <signal.h>
#include <stdarg.h>
#include <stdint.h>
#include <stdio.h>
#include <stdlib.h>
#include <string.h>
#include <sys/wait.h>
#include <time.h>
#include <unistd.h>

enum { MOST_CARS = 8, MOST_FLOORS = 16, MOST_SLOTS = 64, LONGEST = 256, MOST_NOTICES = 168, PATIENCE = 20000 };

struct car {
    int place, door, motor, opens;
};
struct slot {
    unsigned long ticket;
    int from, to, car; /* ticket 0: the slot is free; car 0: told to none */
};

static int cars, floors, slots, limit, fire;
static long now, rounds_answered, presses_answered;
static struct car plant[MOST_CARS + 1];
static struct slot book[MOST_SLOTS + 1];
static long pressed[MOST_FLOORS + 1][MOST_FLOORS + 1]; /* answered `new`, and not entered yet */
static unsigned long tickets;
static long counts[8];
enum { NEW, ALREADY, REFUSED, ENTERED, TOLD, SERVED, DENIED, MOST_OF_A_ROUND };
static pid_t child;
static int to_child, from_child;

static void wrong(const char *text, ...) {
    va_list rest;
    va_start(rest, text);
    printf("wrong: ");
    vprintf(text, rest);
    printf(", in round %ld\n", rounds_answered + 1);
    va_end(rest);
    kill(child, SIGKILL);
    exit(1);
}

/* Pipes */

static void start(char **words) {
    int in[2], out[2];
    if (pipe(in) || pipe(out) || (child = fork()) < 0) {
        perror("peer");
        exit(1);
    }
    if (child == 0) {
        dup2(in[0], 0);
        dup2(out[1], 1);
        close(in[0]), close(in[1]), close(out[0]), close(out[1]);
        signal(SIGPIPE, SIG_DFL);
        execv(words[0], words);
        _exit(127);
    }
    close(in[0]), close(out[1]);
    to_child = in[1], from_child = out[0];
}

/* Whether a line went out whole. */
static int say(const char *line, int length) {
    return write(to_child, line, length) == length;
}

static char buffer[1 << 16];
static int filled, taken;

/* The next line without its line feed, or NULL where the output ends. */
static char *hear(void) {
    for (int seen = taken;;) {
        char *end = memchr(buffer + seen, '\n', filled - seen);
        if (end) {
            char *line = buffer + taken;
            *end = 0;
            taken = end + 1 - buffer;
            return line;
        }
        seen = filled;
        if (taken) {
            memmove(buffer, buffer + taken, filled - taken);
            filled -= taken, seen -= taken, taken = 0;
        }
        ssize_t got = read(from_child, buffer + filled, sizeof buffer - filled);
        if (got <= 0) return NULL;
        filled += got;
    }
}

/* As `hear`; no answer in time is wrong. */
static char *hear_in_time(void) {
    struct pollfd of = {from_child, POLLIN, 0};
    if (!memchr(buffer + taken, '\n', filled - taken) && poll(&of, 1, PATIENCE) == 0) wrong("no answer");
    return hear();
}

/* The plant of docs/TRACE.md */

static void open_plant(void) {
    for (int k = 1; k <= cars; k++) plant[k] = (struct car){0};
    now = 0, limit = cars, fire = 0;
}

static int between(int low, int value, int high) {
    return value < low ? low : value > high ? high : value;
}

static void step(void) {
    now += 100;
    for (int k = 1; k <= cars; k++) {
        struct car *car = &plant[k];
        car->place = between(-10, car->place + car->motor, 10 * floors);
        car->door = between(0, car->door + (car->opens ? 1 : -1), 5);
    }
}

static int pos(int k) { return between(1, (plant[k].place + 5) / 10 + 1, floors); }
static int level(int k) { return plant[k].place % 10 == 0; }
static int top(int k) { return plant[k].place >= 10 * (floors - 1); }
static int bottom(int k) { return plant[k].place <= 0; }
static int locked(int k) { return plant[k].door == 0; }

static int put_fields(char *line) {
    int length = sprintf(line, "R %ld %d %d", now, limit, fire);
    for (int k = 1; k <= cars; k++)
        length += sprintf(line + length, " %d %d%d%d%d%d", pos(k), level(k), top(k), bottom(k), locked(k), plant[k].door == 5);
    line[length++] = '\n';
    line[length] = 0;
    return length;
}

/* Answers */

static void take_outputs(const char *line) {
    char spelled[LONGEST] = "outputs";
    int length = 7, motor, opens, read, running = 0;
    const char *rest = line + 7;
    for (int k = 1; k <= cars; k++) {
        if (sscanf(rest, " %d %d%n", &motor, &opens, &read) != 2 || motor < -1 || motor > 1 || opens < 0 || opens > 1) wrong("`%s`", line);
        rest += read;
        plant[k].motor = motor, plant[k].opens = opens;
        length += sprintf(spelled + length, " %d %d", motor, opens);
        running += motor != 0;
        if (motor && (!locked(k) || opens)) wrong("car %d runs with an open door", k);
        if ((motor > 0 && (top(k) || fire)) || (motor < 0 && bottom(k))) wrong("car %d runs too far", k);
        if (opens && !level(k)) wrong("car %d opens between floors", k);
    }
    if (strcmp(line, spelled)) wrong("`%s`", line);
    if (running > limit) wrong("%d cars run", running);
}

static int slot_of(unsigned long ticket) {
    for (int s = 1; s <= slots; s++)
        if (book[s].ticket == ticket) return s;
    wrong("ticket %lu is in no slot", ticket);
    return 0;
}

static void enter(unsigned long ticket, int slot, int from, int to) {
    int lowest = 1;
    while (lowest <= slots && book[lowest].ticket) lowest++;
    if (ticket != ++tickets || slot != lowest || slot > slots) wrong("ticket %lu enters slot %d", ticket, slot);
    if (from < 1 || to < 1 || from > floors || to > floors || pressed[from][to]-- < 1) wrong("%d to %d was not pressed", from, to);
    book[slot] = (struct slot){ticket, from, to, 0};
}

/* The lines of a round, up to its outputs; 0 where the output ends before. */
static int take_round(void) {
    char *line, more;
    unsigned long ticket;
    int a, b, c, notices = 0, part = ENTERED, last_slot = 0;
    int last_car = 0, last_served = 0, scanned = 0; /* cars rise in what the refresh denies, and again in what the scans deny and serve */
    while ((line = hear_in_time())) {
        if (!strncmp(line, "outputs", 7)) {
            take_outputs(line);
            if (notices > counts[MOST_OF_A_ROUND]) counts[MOST_OF_A_ROUND] = notices;
            if (notices > MOST_NOTICES) wrong("%d notices", notices);
            return 1;
        }
        notices++;
        if (part == ENTERED && sscanf(line, "entered %lu %d %d %d%c", &ticket, &a, &b, &c, &more) == 4) {
            enter(ticket, a, b, c);
            counts[ENTERED]++;
        } else if (sscanf(line, "denied %d %d%c", &a, &b, &more) == 2) {
            if (part == TOLD || a < 1 || a > cars || b < 1 || b > 6) wrong("`%s`", line);
            if ((a < last_car && scanned++) || a <= last_served) wrong("`%s` out of turn", line);
            part = DENIED, last_car = a;
            counts[DENIED]++;
        } else if (sscanf(line, "served %lu %d%c", &ticket, &a, &more) == 2) {
            int s = slot_of(ticket);
            if (part == TOLD || book[s].car != a) wrong("`%s`", line);
            if ((a < last_car && scanned) || a <= last_served) wrong("`%s` out of turn", line);
            part = SERVED, last_car = last_served = a, scanned = 1;
            book[s] = (struct slot){0};
            counts[SERVED]++;
        } else if (sscanf(line, "told %lu %d%c", &ticket, &a, &more) == 2) {
            int s = slot_of(ticket);
            if (book[s].car || a < 1 || a > cars || s <= last_slot) wrong("`%s`", line);
            part = TOLD, last_slot = s;
            book[s].car = a;
            counts[TOLD]++;
        } else
            wrong("`%s`", line);
    }
    return 0;
}

static int press(int from, int to) {
    char line[LONGEST], wanted[LONGEST], *answer;
    if (!say(line, sprintf(line, "P %d %d\n", from, to)) || !(answer = hear_in_time())) return 0;
    int length = sprintf(wanted, "press %d %d ", from, to);
    if (strncmp(answer, wanted, length)) wrong("`%s`", answer);
    int is_call = from >= 1 && to >= 1 && from <= floors && to <= floors && from != to;
    if (is_call && !strcmp(answer + length, "new"))
        pressed[from][to]++, counts[NEW]++;
    else if (is_call && !strcmp(answer + length, "already") && pressed[from][to])
        counts[ALREADY]++;
    else if (!is_call && !strcmp(answer + length, from >= 1 && from <= floors && from == to ? "refused 65" : "refused 64"))
        counts[REFUSED]++;
    else
        wrong("`%s`", answer);
    presses_answered++;
    return 1;
}

/* What is done */

static uint64_t state;
static unsigned chance(unsigned below) {
    state ^= state << 13, state ^= state >> 7, state ^= state << 17;
    return (state >> 11) % below;
}

static void print_memory(long round) {
    char path[64], line[LONGEST];
    long own = 0, resident = 0, highest = 0;
    sprintf(path, "/proc/%d/status", (int)child);
    FILE *file = fopen(path, "r");
    while (file && fgets(line, sizeof line, file)) sscanf(line, "RssAnon: %ld", &own), sscanf(line, "VmRSS: %ld", &resident), sscanf(line, "VmHWM: %ld", &highest);
    if (file) fclose(file);
    printf("memory %ld %ld %ld %ld\n", round, own, resident, highest);
}

static void print_image(void) {
    printf("NOW %ld\nRUNLIMIT %d\nFIRE %s\n", now, limit, fire ? "TRUE" : "FALSE");
    for (int k = 1; k <= cars; k++)
        printf("CAR %d %d %d%d%d%d%d %d %d\n", k, pos(k), level(k), top(k), bottom(k), locked(k), plant[k].door == 5, plant[k].motor, plant[k].opens);
    for (int s = 1; s <= slots; s++) {
        const struct slot *of = &book[s];
        if (!of->ticket)
            printf("SLOT %d FREE\n", s);
        else if (!of->car)
            printf("SLOT %d WAITING %lu %d %d\n", s, of->ticket, of->from, of->to);
        else
            printf("SLOT %d TOLD %lu %d %d %d\n", s, of->ticket, of->from, of->to, of->car);
    }
}

static int drive_round(void) {
    char line[LONGEST];
    /* A full group in the first round, then few presses, now and then a wrong one. */
    if (rounds_answered == 0)
        for (int at = 0; at < 100; at++)
            if (!press(1 + at % floors, 1 + (at % floors + 1 + at / floors) % floors)) return 0;
    if (chance(12) == 0 && !press(1 + chance(floors), 1 + chance(floors))) return 0;
    if (chance(500) == 0 && !press(chance(256), chance(256))) return 0;
    if (chance(200) == 0) limit = chance(4) ? cars : (int)chance(cars + 1);
    if (chance(fire ? 100 : 2000) == 0) fire = !fire;
    step();
    if (!say(line, put_fields(line)) || !take_round()) return 0;
    rounds_answered++;
    return 1;
}

static int ended(void) {
    char stop[LONGEST] = "outputs";
    for (int k = 1; k <= cars; k++) strcat(stop, " 0 0");
    if (!say("E\n", 2)) return 0;
    char *line = hear_in_time();
    if (!line || strcmp(line, stop)) wrong("the end is answered `%s`", line ? line : "");
    if (hear_in_time()) wrong("a line behind the end");
    return 1;
}

static int drive(long rounds, uint64_t seed) {
    int status;
    state = seed * 0x9e3779b97f4a7c15u | 1;
    printf("pid %d\n", (int)child);
    fflush(stdout);
    while (rounds_answered < rounds && drive_round())
        if (rounds_answered == 1 || rounds_answered % (rounds / 8 + 1) == 0) print_memory(rounds_answered);
    print_memory(rounds_answered);
    int whole = rounds_answered == rounds && ended();
    printf("counts new %ld already %ld refused %ld entered %ld told %ld served %ld denied %ld most %ld\n", counts[NEW], counts[ALREADY], counts[REFUSED],
           counts[ENTERED], counts[TOLD], counts[SERVED], counts[DENIED], counts[MOST_OF_A_ROUND]);
    printf("answered %ld %ld\n", rounds_answered, presses_answered);
    if (whole) print_image();
    close(to_child);
    waitpid(child, &status, 0);
    printf("status %d\n", WIFEXITED(status) ? WEXITSTATUS(status) : -WTERMSIG(status));
    return 0;
}

static int64_t clock_ns(void) {
    struct timespec at;
    clock_gettime(CLOCK_MONOTONIC, &at);
    return at.tv_sec * 1000000000LL + at.tv_nsec;
}

/* A round trip: from before the line is written until the last line of its answer was read. */
static int64_t trip(const char *line, int length, int echo) {
    char *answer;
    int64_t start = clock_ns();
    if (!say(line, length)) wrong("the program ended");
    do {
        if (!(answer = hear())) wrong("the program ended");
    } while (!echo && strncmp(answer, "outputs", 7));
    int64_t taken_ns = clock_ns() - start;
    if (!echo) {
        const char *rest = answer + 7;
        for (int k = 1, read; k <= cars; k++, rest += read)
            if (sscanf(rest, " %d %d%n", &plant[k].motor, &plant[k].opens, &read) != 2) wrong("`%s`", answer);
    }
    return taken_ns;
}

static int measure(long rounds, long pause, int echo) {
    const struct timespec slept = {pause / 1000, pause % 1000 * 1000000};
    char line[LONGEST];
    int64_t *taken_ns = malloc(rounds * sizeof *taken_ns);
    int from = 1;
    if (!taken_ns) return 1;
    for (long at = 0; at < rounds; at++) {
        if (at % 50 == 0) {
            from = from % floors + 1;
            if (!say(line, sprintf(line, "P %d %d\n", from, from % floors + 1)) || !hear()) wrong("the program ended");
        }
        step();
        if (pause) nanosleep(&slept, NULL);
        taken_ns[at] = trip(line, put_fields(line), echo);
    }
    close(to_child);
    waitpid(child, NULL, 0);
    for (long at = 0; at < rounds; at++) printf("%lld\n", (long long)taken_ns[at]);
    free(taken_ns);
    return 0;
}

int main(int count, char **words) {
    int drives = count > 7 && !strcmp(words[1], "drive"), echo = count > 6 && !strcmp(words[1], "echo");
    if (!drives && !echo && !(count > 6 && !strcmp(words[1], "time"))) {
        fputs("usage: peer drive ROUNDS SEED CARS FLOORS SLOTS WORD... | peer time|echo ROUNDS CARS FLOORS PAUSE WORD...\n", stderr);
        return 2;
    }
    char **rest = words + 3 + drives;
    cars = between(1, atoi(rest[0]), MOST_CARS), floors = between(2, atoi(rest[1]), MOST_FLOORS);
    slots = drives ? between(1, atoi(rest[2]), MOST_SLOTS) : 0;
    signal(SIGPIPE, SIG_IGN);
    open_plant();
    start(rest + 3);
    return drives ? drive(atol(words[2]), strtoull(words[3], 0, 10)) : measure(atol(words[2]), atol(rest[2]), echo);
}
