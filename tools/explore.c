/* Every state of a small group that passengers can lead to, by breadth. tools/explore compiles this file with the C library, starts it, and reads what it says.

   usage: explore TEXT CARS FLOORS SLOTS CALLS ALONE JOBS BYTES SECONDS CLOCK LONGEST

   At most CALLS calls are open, or, where ALONE is 1, passengers under way. JOBS processes search, with BYTES of memory, for SECONDS (0: without an end). CLOCK 1
   takes states by the time itself, 0 by the time since a timer's last call, cut at LONGEST ms (0: not cut). docs/TORTURE.md has the model.

   The library's memory lies in an arena at a fixed address, so what it holds can be written down and put back: the words that differ from those at the opening.
   All processes are forks of the one that opened the controller, and share the table of states. A state is known by 96 bits of a hash of its text. */
#define _GNU_SOURCE
#include <errno.h>
#include <pthread.h>
#include <signal.h>
#include <stdatomic.h>
#include <stdio.h>
#include <stdlib.h>
#include <string.h>
#include <sys/mman.h>
#include <sys/prctl.h>
#include <sys/wait.h>
#include <time.h>
#include <unistd.h>

#include "liftplc.h"

enum { PAGE = 4096, WORDS = PAGE / 8, MOST_PEOPLE = 5, MOST_CARS = 8, MOST_SLOTS = 64, MOST_JOBS = 32, MOST_DEPTH = 1 << 20, MOST_ACTIONS = 1 << 20 };
enum { STEP = 100, PLACES_OF_FLOOR = 10, DOOR_OPEN = 5, ALIGNED = 16, CHUNK = 8, FIRST_BITS = 16 };
enum { COMPLETE, NO_MEMORY_LEFT, NO_TIME_LEFT, TOO_DEEP };
enum { ENDED = 0, WRONG_MODEL = 1, REFUSED_TEXT = 2, CANNOT = 3, KILLED = 5 };
static const size_t ARENA_BYTES = (size_t)1 << 28, SCRATCH_BYTES = (size_t)1 << 24;
static const uint64_t MOST_STATES = 800000000;
static char *const ARENA = (char *)0x200000000000;

/* What was asked for. */
static int floors, most_people, people_alone, jobs, by_clock;
static uint64_t most_bytes, longest_ms;
static double most_seconds;

static void fail(int status, const char *what) {
    fprintf(stderr, "%s\n", what);
    _exit(status);
}

static double seconds(void) {
    struct timespec now;
    clock_gettime(CLOCK_MONOTONIC, &now);
    return now.tv_sec + now.tv_nsec / 1e9;
}

/* Memory that all processes share, of which only what is touched is there. */
static void *shared_room(uint64_t bytes) {
    void *made = mmap(NULL, (bytes + PAGE - 1) / PAGE * PAGE, PROT_READ | PROT_WRITE, MAP_SHARED | MAP_ANONYMOUS | MAP_NORESERVE, -1, 0);
    if (made == MAP_FAILED) fail(CANNOT, "no address space for the search");
    return made;
}

static void give_back(void *room, uint64_t bytes) {
    madvise(room, (bytes + PAGE - 1) / PAGE * PAGE, MADV_REMOVE);
}

/* -- The library's memory -------------------------------------------------------------------------------------------------------------------------------- */

/* What the library takes at the opening stays. What liftplc_state takes ends with its call. */
static char *scratch;
static size_t arena_used, scratch_used;
static int is_opened;

static void *take(size_t bytes) {
    char *room = is_opened ? scratch : ARENA;
    size_t *used = is_opened ? &scratch_used : &arena_used, most = is_opened ? SCRATCH_BYTES : ARENA_BYTES;
    size_t whole = ALIGNED + (bytes + ALIGNED - 1) / ALIGNED * ALIGNED;
    if (bytes > most || *used + whole > most) return NULL;
    char *made = room + *used + ALIGNED;
    *used += whole;
    memcpy(made - ALIGNED, &bytes, sizeof bytes);
    return made;
}

void *__wrap_malloc(size_t bytes);
void *__wrap_realloc(void *old, size_t bytes);
void __wrap_free(void *old);

void *__wrap_malloc(size_t bytes) {
    return take(bytes);
}

void *__wrap_realloc(void *old, size_t bytes) {
    size_t had = 0;
    char *made = take(bytes);
    if (!made || !old) return made;
    memcpy(&had, (char *)old - ALIGNED, sizeof had);
    return memcpy(made, old, had < bytes ? had : bytes);
}

void __wrap_free(void *old) {
    (void)old;
}

/* The pages of the arena that changed since the opening, by rising number, and the arena as it was then. */
static char *pristine;
static uint32_t changed[1 << 16], changed_count;
static unsigned char *is_changed;

static void page_changes(int number, siginfo_t *of, void *context) {
    (void)number, (void)context;
    size_t page = ((char *)of->si_addr - ARENA) / PAGE;
    if ((char *)of->si_addr < ARENA || page >= arena_used / PAGE || is_changed[page]) {
        signal(SIGSEGV, SIG_DFL);
        return;
    }
    is_changed[page] = 1;
    uint32_t at = changed_count++;
    for (; at && changed[at - 1] > page; at--) changed[at] = changed[at - 1];
    changed[at] = page;
    mprotect(ARENA + page * PAGE, PAGE, PROT_READ | PROT_WRITE);
}

/* From now on each change is against the arena as it is. */
static void begin_changes(void) {
    arena_used = (arena_used + PAGE - 1) / PAGE * PAGE;
    pristine = shared_room(arena_used);
    memcpy(pristine, ARENA, arena_used);
    if (arena_used / PAGE > sizeof changed / sizeof *changed) fail(CANNOT, "the group takes more memory than the search can follow");
    is_changed = mmap(NULL, arena_used / PAGE, PROT_READ | PROT_WRITE, MAP_PRIVATE | MAP_ANONYMOUS, -1, 0);
    struct sigaction how = {.sa_sigaction = page_changes, .sa_flags = SA_SIGINFO};
    sigaction(SIGSEGV, &how, NULL);
    mprotect(ARENA, arena_used, PROT_READ);
}

/* Writes that a word differs: how far it is from the one before, which bytes of it differ, and those. */
static unsigned char *put_word(unsigned char *to, uint64_t gap, uint64_t differs) {
    for (; gap > 127; gap >>= 7) *to++ = 128 | (gap & 127);
    *to++ = gap;
    unsigned char *mask = to++;
    for (*mask = 0; differs;) {
        int byte = __builtin_ctzll(differs) / 8;
        *mask |= 1 << byte;
        *to++ = differs >> 8 * byte;
        differs &= ~((uint64_t)255 << 8 * byte);
    }
    return to;
}

/* So many words are looked at together, by instructions for several. */
typedef uint64_t several __attribute__((vector_size(32), may_alias));
enum { SEVERAL = 4, TOGETHER = 32 };

static int is_same(const uint64_t *now, const uint64_t *then) {
    several all = {0};
    for (int at = 0; at < TOGETHER / SEVERAL; at++) all |= ((const several *)now)[at] ^ ((const several *)then)[at];
    return !(all[0] | all[1] | all[2] | all[3]);
}

/* Writes the words that differ from those at the opening. */
static unsigned char *put_changes(unsigned char *to) {
    uint64_t before = 0;
    for (uint32_t at = 0; at < changed_count; at++) {
        const uint64_t *now = (uint64_t *)(ARENA + (size_t)changed[at] * PAGE), *then = (uint64_t *)(pristine + (size_t)changed[at] * PAGE);
        for (int begin = 0; begin < WORDS; begin += TOGETHER) {
            if (is_same(now + begin, then + begin)) continue;
            for (int word = begin; word < begin + TOGETHER; word++) {
                uint64_t number = (uint64_t)changed[at] * WORDS + word;
                if (now[word] == then[word]) continue;
                to = put_word(to, number - before, now[word] ^ then[word]);
                before = number;
            }
        }
    }
    return to;
}

/* Puts the arena back to what was written. */
static void take_changes(const unsigned char *from, const unsigned char *end) {
    for (uint32_t at = 0; at < changed_count; at++) memcpy(ARENA + (size_t)changed[at] * PAGE, pristine + (size_t)changed[at] * PAGE, PAGE);
    uint64_t number = 0;
    while (from < end) {
        uint64_t gap = 0, differs = 0;
        int shift = 0;
        for (; *from & 128; shift += 7) gap |= (uint64_t)(*from++ & 127) << shift;
        number += gap | (uint64_t)*from++ << shift;
        for (unsigned mask = *from++; mask; mask &= mask - 1) differs |= (uint64_t)*from++ << 8 * __builtin_ctz(mask);
        ((uint64_t *)ARENA)[number] ^= differs;
    }
}

/* -- The group, its plant and its passengers ------------------------------------------------------------------------------------------------------------- */

/* What a passenger does. A code has it, the car, the call slot (of one at the desk: how many presses of the same call are before theirs), and floor and destination. */
enum { AGAIN, DESK, ENTERED, TOLD, ABOARD, STRAY };
enum { AT_CAR = 24, AT_SLOT = 16, AT_FLOOR = 8, AT_DOING = 28 };

static int doing(uint32_t code) { return code >> AT_DOING; }
static int car_of(uint32_t code) { return code >> AT_CAR & 15; }
static int slot_of(uint32_t code) { return code >> AT_SLOT & 255; }
static int floor_of(uint32_t code) { return code >> AT_FLOOR & 255; }
static int goal_of(uint32_t code) { return code & 255; }

static uint32_t code(int does, int car, int slot, int floor, int goal) {
    return (uint32_t)does << AT_DOING | (uint32_t)car << AT_CAR | (uint32_t)slot << AT_SLOT | (uint32_t)floor << AT_FLOOR | (uint32_t)goal;
}

/* It lies in the arena, so that it is written down with the library's memory. */
struct game {
    liftplc_handle handle;
    uint64_t tickets[MOST_SLOTS + 1];
    int16_t places[MOST_CARS], doors[MOST_CARS];
    int8_t motors[MOST_CARS], opens[MOST_CARS];
    uint32_t time, count, people[MOST_PEOPLE];
};
static struct game *game;
static liftplc_outputs outputs;
static int cars, slots;

/* What new passengers press in a round: calls by rising number. An action's number is its place among all, which begin with that of nobody. */
struct action {
    uint8_t count, calls[MOST_PEOPLE];
};
static struct action *actions;
static uint32_t actions_of[MOST_PEOPLE + 1]; /* with at most so many new passengers */
static int call_count;
static uint8_t call_from[256], call_to[256];

static void add_actions(struct action begun, int least, int left, uint32_t *count) {
    if (!left) {
        if (*count == MOST_ACTIONS) fail(REFUSED_TEXT, "so many calls of so many floors are too many");
        actions[(*count)++] = begun;
        return;
    }
    for (int call = least; call < call_count; call++) {
        begun.calls[begun.count++] = call;
        add_actions(begun, call, left - 1, count);
        begun.count--;
    }
}

static void make_actions(void) {
    for (int from = 1; from <= floors; from++)
        for (int to = 1; to <= floors; to++)
            if (from != to) call_from[call_count] = from, call_to[call_count++] = to;
    uint32_t count = 0;
    actions = mmap(NULL, MOST_ACTIONS * sizeof *actions, PROT_READ | PROT_WRITE, MAP_PRIVATE | MAP_ANONYMOUS | MAP_NORESERVE, -1, 0);
    for (int many = 0; many <= most_people; many++) add_actions((struct action){0}, 0, many, &count), actions_of[many] = count;
}

static int between(int low, int value, int high) { return value < low ? low : value > high ? high : value; }
static int pos_of(int place) { return between(1, (place + PLACES_OF_FLOOR / 2) / PLACES_OF_FLOOR + 1, floors); }

/* The floor where the car stands with its door wholly open, or 0. */
static int landing(int car) {
    return game->doors[car] == DOOR_OPEN && game->places[car] % PLACES_OF_FLOOR == 0 ? pos_of(game->places[car]) : 0;
}

static void move_car(int car) {
    int16_t *place = &game->places[car], *door = &game->doors[car];
    int motor = game->motors[car];
    if (game->opens[car] && !motor) *door += *door < DOOR_OPEN && *place % PLACES_OF_FLOOR == 0;
    else *door -= *door > 0;
    if (motor && !*door) *place = between(-PLACES_OF_FLOOR, *place + motor, PLACES_OF_FLOOR * floors);
}

/* The passengers of a round: those of the state, and then the new ones. */
struct people {
    int old, count;
    uint32_t codes[2 * MOST_PEOPLE];
    uint8_t is_done[2 * MOST_PEOPLE];
};

/* Out of the car and into it. */
static void cross(struct people *of, int car, int floor) {
    for (int k = 0; k < of->old; k++) {
        uint32_t it = of->codes[k];
        if (of->is_done[k] || car_of(it) != car) continue;
        if (doing(it) == TOLD && floor_of(it) == floor) of->codes[k] = code(ABOARD, car, slot_of(it), 0, goal_of(it));
        else if (doing(it) == STRAY && goal_of(it) != floor) of->codes[k] = code(AGAIN, 0, 0, floor, goal_of(it));
        else if (doing(it) >= ABOARD && goal_of(it) == floor) of->is_done[k] = 1;
    }
}

/* How many presses of this call wait at the desk. */
static int waiting(const struct people *of, uint32_t call) {
    int found = 0;
    for (int k = 0; k < of->count; k++)
        if (!of->is_done[k] && doing(of->codes[k]) == DESK && (of->codes[k] & 0xffff) == (call & 0xffff) && slot_of(of->codes[k]) >= found) found = slot_of(of->codes[k]) + 1;
    return found;
}

static int slot_with(uint64_t ticket) {
    for (int slot = 1; slot <= slots; slot++)
        if (game->tickets[slot] == ticket) return slot;
    fail(WRONG_MODEL, "a notice names a ticket that no slot has");
    return 0;
}

static void hear(struct people *of, const liftplc_notice *notice) {
    if (notice->kind == LIFTPLC_DENIED) return;
    if (notice->kind == LIFTPLC_ENTERED) game->tickets[notice->slot] = notice->ticket;
    int slot = notice->kind == LIFTPLC_ENTERED ? notice->slot : slot_with(notice->ticket);
    if (notice->kind == LIFTPLC_SERVED) game->tickets[slot] = 0;
    for (int k = 0; k < of->count; k++) {
        uint32_t it = of->codes[k];
        if (of->is_done[k]) continue;
        if (notice->kind == LIFTPLC_ENTERED) {
            if (doing(it) != DESK || floor_of(it) != notice->from || goal_of(it) != notice->to) continue;
            of->codes[k] = slot_of(it) ? it - (1u << AT_SLOT) : code(ENTERED, 0, slot, floor_of(it), goal_of(it));
        } else if (slot_of(it) != slot || doing(it) < ENTERED) continue;
        else if (notice->kind == LIFTPLC_TOLD) of->codes[k] = code(TOLD, notice->car, slot, floor_of(it), goal_of(it));
        else of->codes[k] = doing(it) == ABOARD ? code(STRAY, car_of(it), 0, 0, goal_of(it)) : code(AGAIN, 0, 0, floor_of(it), goal_of(it));
    }
}

static void press_and_round(struct people *of) {
    uint8_t presses[2 * MOST_PEOPLE], is_new[2 * MOST_PEOPLE];
    int pressing = 0;
    for (int k = 0; k < of->count; k++)
        if (!of->is_done[k] && doing(of->codes[k]) == AGAIN) {
            is_new[pressing] = liftplc_press(&game->handle, floor_of(of->codes[k]), goal_of(of->codes[k])) == LIFTPLC_OK;
            presses[pressing++] = k;
        }
    liftplc_fields fields = {.time = game->time, .run_limit = cars, .car_count = cars};
    for (int car = 0; car < cars; car++) {
        int place = game->places[car], door = game->doors[car];
        fields.cars[car] = (liftplc_car){pos_of(place), place % PLACES_OF_FLOOR == 0, place >= PLACES_OF_FLOOR * (floors - 1), place <= 0, door == 0, door == DOOR_OPEN};
    }
    if (liftplc_round(&game->handle, &fields, &outputs) != LIFTPLC_OK) fail(WRONG_MODEL, "the library refuses a round");
    for (int at = 0; at < pressing; at++) {
        uint32_t it = of->codes[presses[at]];
        int before = waiting(of, it);
        of->codes[presses[at]] = code(DESK, 0, is_new[at] || !before ? before : before - 1, floor_of(it), goal_of(it));
    }
    for (int at = 0; at < outputs.notice_count; at++) hear(of, &outputs.notices[at]);
    for (int car = 0; car < cars; car++) game->motors[car] = outputs.cars[car].motor, game->opens[car] = outputs.cars[car].opens;
}

enum { DONE = 7 };

/* Where each passenger of the round is among those of the next state, by rising codes, or DONE. */
struct round {
    int old, count, free; /* of the state, those and the new ones, how many new ones may come */
    uint8_t at[2 * MOST_PEOPLE];
};

static void settle(struct people *of, struct round *to) {
    uint8_t order[2 * MOST_PEOPLE];
    int count = 0;
    for (int k = 0; k < of->count; k++) {
        to->at[k] = DONE;
        if (of->is_done[k]) continue;
        int at = count++;
        for (; at && of->codes[order[at - 1]] > of->codes[k]; at--) order[at] = order[at - 1];
        order[at] = k;
    }
    for (int at = 0; at < count; at++) to->at[order[at]] = at, game->people[at] = of->codes[order[at]];
    for (int at = count; at < MOST_PEOPLE; at++) game->people[at] = 0;
    game->count = count;
}

/* Passengers who are under way, and open calls of those who aren't any more. */
static int open_calls(const struct people *of) {
    int open = 0;
    uint64_t with_people = 0;
    for (int k = 0; k < of->old; k++) {
        if (of->is_done[k]) continue;
        open++;
        if (doing(of->codes[k]) >= ENTERED && doing(of->codes[k]) <= ABOARD) with_people |= (uint64_t)1 << (slot_of(of->codes[k]) - 1);
    }
    for (int slot = 1; slot <= slots && !people_alone; slot++) open += game->tickets[slot] && !(with_people >> (slot - 1) & 1);
    return open;
}

/* One round with this action: cars move, people cross, they press, and the group makes its round. */
static void step(const struct action *action, struct round *to) {
    struct people of = {.old = game->count, .count = game->count};
    memcpy(of.codes, game->people, sizeof game->people);
    game->time += STEP;
    for (int car = 0; car < cars; car++) {
        move_car(car);
        if (landing(car)) cross(&of, car + 1, landing(car));
    }
    to->old = of.old, to->free = most_people - open_calls(&of);
    for (int k = 0; k < action->count; k++) of.codes[of.count++] = code(AGAIN, 0, 0, call_from[action->calls[k]], call_to[action->calls[k]]);
    to->count = of.count;
    press_and_round(&of);
    settle(&of, to);
}

/* -- A state by its text --------------------------------------------------------------------------------------------------------------------------------- */

struct print {
    uint64_t low;
    uint32_t high;
};

static uint64_t mixed(uint64_t word) {
    word = (word ^ word >> 33) * 0xff51afd7ed558ccd;
    word = (word ^ word >> 33) * 0xc4ceb9fe1a85ec53;
    return word ^ word >> 33;
}

static uint64_t turned(uint64_t word, int by) { return word << by | word >> (64 - by); }

/* As in MurmurHash3 for 128 bits. The text is filled up with zeros. */
static struct print hashed(const unsigned char *text, size_t length) {
    uint64_t one = length, two = length;
    for (size_t at = 0; at < length; at += 16) {
        uint64_t words[2];
        memcpy(words, text + at, sizeof words);
        one ^= turned(words[0] * 0x87c37b91114253d5, 31) * 0x4cf5ad432745937f;
        one = (turned(one, 27) + two) * 5 + 0x52dce729;
        two ^= turned(words[1] * 0x4cf5ad432745937f, 33) * 0x87c37b91114253d5;
        two = (turned(two, 31) + one) * 5 + 0x38495ab5;
    }
    one += two, two += one;
    one = mixed(one), two = mixed(two);
    one += two, two += one;
    return (struct print){one ? one : 1, two >> 32}; /* 0 is a number that is not given away */
}

static int begins(const char *line, const char *end, const char *with) {
    size_t length = strlen(with);
    return (size_t)(end - line) >= length && !memcmp(line, with, length);
}

static int ends(const char *line, const char *end, const char *with) {
    size_t length = strlen(with);
    return (size_t)(end - line) >= length && !memcmp(end - length, with, length);
}

static const char *last_dot(const char *line, const char *end) {
    return memrchr(line, '.', end - line);
}

static char *put(char *to, const void *from, size_t length) {
    memcpy(to, from, length);
    return to + length;
}

/* A VAR line. LAST of a timer that doesn't run is left out, and that of one which runs is how long ago it was. */
static char *put_variable(char *to, const char *line, const char *end, const char **running) {
    if (ends(line, end, ".RUN TRUE")) *running = line;
    const char *dot = by_clock ? NULL : last_dot(line, end);
    if (!dot || !begins(dot, end, ".LAST ")) return put(to, line, end + 1 - line);
    if (!*running || memcmp(*running, line, dot - line) || memcmp(*running + (dot - line), ".RUN", 4)) return to;
    uint64_t since = game->time - strtoull(dot + 6, NULL, 10);
    if (longest_ms && since > longest_ms) since = longest_ms;
    return put(put(to, line, dot - line), &since, sizeof since);
}

/* Of a SLOT line all but its ticket. */
static char *put_slot(char *to, const char *line, const char *end) {
    const char *second = memchr(line + 5, ' ', end - line - 5), *third = memchr(second + 1, ' ', end - second - 1);
    if (!third) return put(to, line, end + 1 - line);
    const char *fourth = memchr(third + 1, ' ', end - third - 1);
    return put(put(to, line, third - line), fourth, end + 1 - fourth);
}

/* What liftplc_state writes, without what makes no difference to what comes. It gets no text, since it would take a checksum of all of it, for a line that is left out. */
static struct print print_of_state(void) {
    static char text[1 << 20], bare[1 << 20];
    uint64_t length;
    scratch_used = 0;
    if (liftplc_state(&game->handle, "", 0, text, sizeof text, &length) != LIFTPLC_OK) fail(CANNOT, "the library writes no state");
    char *to = bare;
    const char *running = NULL;
    for (const char *line = text, *end; line < text + length; line = end + 1) {
        end = memchr(line, '\n', text + length - line);
        if (*line == 'V') to = put_variable(to, line, end, &running);
        else if (*line == 'S') to = put_slot(to, line, end);
        else if (!begins(line, end, "LIFTTRACE ") && !begins(line, end, "CONFIGURATION ") && !begins(line, end, "TICKETS ") && (by_clock || !begins(line, end, "NOW ")))
            to = put(to, line, end + 1 - line);
    }
    to = put(to, game->places, cars * sizeof *game->places);
    to = put(to, game->doors, cars * sizeof *game->doors);
    to = put(to, game->people, game->count * sizeof *game->people);
    memset(to, 0, 16);
    return hashed((unsigned char *)bare, to - bare);
}

/* -- What all processes share ---------------------------------------------------------------------------------------------------------------------------- */

/* A layer's states that one process found: their numbers and what was written down of them. */
struct segment {
    uint64_t bytes, count, most_bytes, most_count;
};

static struct shared {
    pthread_barrier_t barrier;
    _Atomic uint64_t states, edges, taken; /* given numbers, from 1 on; kept edges; records of the layer that are taken */
    _Atomic int is_crowded, ends;          /* the table has to grow; why the search ends */
    int bits, depth;
    struct segment segments[MOST_JOBS][2];
} *shared;
static uint64_t *layers; /* the last state of each, and that of the one before the first */

/* Of each state: half of its hash; where its edges begin, and what else is asked of it. */
static uint64_t *prints, *firsts;
enum { AT_JOB = 40, AT_COUNT = 46, AT_FREE = 49, AT_DOORS = 50, AT_IS_LOOKED_AT = 58, AT_MAY_COME = 59 };
static const uint64_t OFFSET = ((uint64_t)1 << AT_JOB) - 1;

/* An edge: the next state, and of each passenger where they are in it, with a bit where they are in a car. */
static uint64_t *edges[MOST_JOBS], edge_counts[MOST_JOBS];
static unsigned char *records[MOST_JOBS][2];
static uint64_t *offsets[MOST_JOBS][2];
static _Atomic uint64_t *tables[40]; /* by how many bits a place has: the other half of a hash, and the state */
enum { AT_PEOPLE = 32, BITS_EACH = 4, IS_ABOARD = 8 };

static int count_of(uint64_t first) { return first >> AT_COUNT & 7; }
static int is_free(uint64_t first) { return first >> AT_FREE & 1; }
static int doors_of(uint64_t first) { return first >> AT_DOORS & 255; }
static int is_looked_at(uint64_t first) { return first >> AT_IS_LOOKED_AT & 1; }
static const uint64_t *edges_of(uint64_t first) { return edges[first >> AT_JOB & 63] + (first & OFFSET); }
static int place_in(uint64_t edge, int passenger) { return edge >> (AT_PEOPLE + BITS_EACH * passenger) & 7; }
static int is_aboard_in(uint64_t edge, int passenger) { return edge >> (AT_PEOPLE + BITS_EACH * passenger) & IS_ABOARD; }

/* How many edges a state has, by how many new passengers may come. */
static uint32_t edge_count(uint64_t first) { return actions_of[first >> AT_MAY_COME & 7]; }

static uint64_t table_bytes(int bits) { return (uint64_t)8 << bits; }

/* What the search has touched, or what the times of its states will take where that is more. */
static uint64_t bytes_used(uint64_t growing) {
    uint64_t states = shared->states, kept = 16 * states + 8 * shared->edges, layer = growing + table_bytes(shared->bits);
    for (int job = 0; job < jobs; job++)
        for (int half = 0; half < 2; half++) {
            struct segment *of = &shared->segments[job][half];
            layer += (of->most_bytes > of->bytes ? of->most_bytes : of->bytes) + 8 * (of->most_count > of->count ? of->most_count : of->count);
        }
    uint64_t times = (2 + 4 * (uint64_t)most_people) * states;
    return kept + (layer > times ? layer : times) + ((uint64_t)jobs << 22);
}

static void make_room(void) {
    shared = shared_room(sizeof *shared);
    layers = shared_room((uint64_t)MOST_DEPTH * sizeof *layers);
    prints = shared_room(most_bytes), firsts = shared_room(most_bytes);
    for (int job = 0; job < jobs; job++) {
        edges[job] = shared_room(most_bytes);
        for (int half = 0; half < 2; half++) records[job][half] = shared_room(2 * most_bytes), offsets[job][half] = shared_room(most_bytes);
    }
    shared->bits = FIRST_BITS;
    while ((uint64_t)4 * jobs * actions_of[most_people] > (uint64_t)1 << shared->bits) shared->bits++;
    for (int bits = shared->bits; bits < 40 && table_bytes(bits) <= 2 * most_bytes; bits++) tables[bits] = shared_room(table_bytes(bits));
    pthread_barrierattr_t how;
    pthread_barrierattr_init(&how);
    pthread_barrierattr_setpshared(&how, PTHREAD_PROCESS_SHARED);
    pthread_barrier_init(&shared->barrier, &how, jobs);
}

/* -- The search ------------------------------------------------------------------------------------------------------------------------------------------ */

static int job, half; /* the number of this process; which half of the segments has the layer that is looked at */
static uint32_t spare; /* a number that was taken for a state which another process found too */
static double begun;

/* The state of this hash, and whether it is a new one. */
static uint32_t entered(struct print print, int *is_new) {
    _Atomic uint64_t *table = tables[shared->bits];
    uint64_t mask = ((uint64_t)1 << shared->bits) - 1;
    for (uint64_t at = print.low & mask;; at = (at + 1) & mask) {
        uint64_t found = atomic_load_explicit(&table[at], memory_order_acquire);
        if (!found) {
            if (!spare) spare = atomic_fetch_add(&shared->states, 1) + 1;
            prints[spare] = print.low;
            uint32_t made = spare;
            if (atomic_compare_exchange_strong(&table[at], &found, (uint64_t)print.high << 32 | made)) {
                spare = 0;
                *is_new = 1;
                return made;
            }
        }
        if (found >> 32 == print.high && prints[(uint32_t)found] == print.low) return (uint32_t)found;
    }
}

static void grow(void) {
    int bits = shared->bits + 1;
    if (bits >= 40 || !tables[bits] || bytes_used(table_bytes(bits)) > most_bytes) {
        shared->ends = NO_MEMORY_LEFT;
        return;
    }
    _Atomic uint64_t *old = tables[bits - 1], *made = tables[bits];
    uint64_t mask = ((uint64_t)1 << bits) - 1;
    for (uint64_t from = 0; from < (uint64_t)1 << (bits - 1); from++) {
        uint64_t entry = old[from];
        if (!entry) continue;
        uint64_t at = prints[(uint32_t)entry] & mask;
        while (atomic_load_explicit(&made[at], memory_order_relaxed)) at = (at + 1) & mask;
        atomic_store_explicit(&made[at], entry, memory_order_relaxed);
    }
    give_back(old, table_bytes(bits - 1));
    shared->bits = bits;
    shared->is_crowded = 0;
}

/* What `firsts` has of the state that the group is in. */
static uint64_t looks(void) {
    uint64_t first = (uint64_t)game->count << AT_COUNT;
    int taken = 0;
    for (int slot = 1; slot <= slots; slot++) taken |= game->tickets[slot] != 0;
    for (int car = 0; car < cars; car++) first |= (uint64_t)(game->doors[car] != 0) << (AT_DOORS + car);
    return first | (uint64_t)!taken << AT_FREE;
}

/* Writes down the state that the group is in, for the next layer. */
static void keep(uint32_t state, int to) {
    struct segment *of = &shared->segments[job][to];
    unsigned char *begin = records[job][to] + of->bytes, *end = put_changes(begin + 8);
    uint32_t length = end - begin;
    memcpy(begin, &state, 4), memcpy(begin + 4, &length, 4);
    offsets[job][to][of->count++] = of->bytes;
    of->bytes += length;
    firsts[state] = looks();
}

static uint64_t edge_of(uint32_t state, const struct round *of) {
    uint64_t edge = state;
    for (int k = 0; k < of->old; k++) {
        uint64_t at = of->at[k];
        if (at != DONE && doing(game->people[at]) >= ABOARD) at |= IS_ABOARD;
        edge |= at << (AT_PEOPLE + BITS_EACH * k);
    }
    return edge;
}

/* All rounds that may follow the state of a record. */
static void look_at(const unsigned char *record) {
    uint32_t state, length, count = 1;
    uint64_t free = 0;
    memcpy(&state, record, 4), memcpy(&length, record + 4, 4);
    uint64_t *to = edges[job] + edge_counts[job];
    for (uint32_t at = 0; at < count; at++) {
        struct round round;
        take_changes(record + 8, record + length);
        step(&actions[at], &round);
        if (!at && round.free > 0) free = round.free, count = actions_of[free];
        int is_new = 0;
        uint32_t next = entered(print_of_state(), &is_new);
        if (is_new) keep(next, !half);
        to[at] = edge_of(next, &round);
    }
    firsts[state] |= edge_counts[job] | (uint64_t)job << AT_JOB | (uint64_t)1 << AT_IS_LOOKED_AT | free << AT_MAY_COME;
    edge_counts[job] += count;
    shared->edges += count;
}

static void check_limits(void) {
    if (shared->states > ((uint64_t)1 << shared->bits) / 10 * 6) shared->is_crowded = 1;
    if (shared->states > MOST_STATES || bytes_used(0) > most_bytes) shared->ends = NO_MEMORY_LEFT;
    if (most_seconds > 0 && seconds() - begun > most_seconds) shared->ends = NO_TIME_LEFT;
}

/* Takes records of the layer, until none is left, the table has to grow, or the search ends. */
static void look_at_layer(void) {
    uint64_t counts[MOST_JOBS], all = 0;
    for (int of = 0; of < jobs; of++) all += counts[of] = shared->segments[of][half].count;
    while (!shared->is_crowded && !shared->ends) {
        uint64_t from = atomic_fetch_add(&shared->taken, CHUNK), of = 0, before = 0;
        if (from >= all) return;
        for (uint64_t number = from; number < all && number < from + CHUNK; number++) {
            while (number >= before + counts[of]) before += counts[of++];
            look_at(records[of][half] + offsets[of][half][number - before]);
        }
        check_limits();
    }
}

static void meet(void) { pthread_barrier_wait(&shared->barrier); }

static void say_progress(void) {
    static double said;
    if (!isatty(2) || seconds() - said < 0.5) return;
    said = seconds();
    fprintf(stderr, "\r\x1b[K%llu states, %d rounds deep, %.1f GB, %.0f s ", (unsigned long long)shared->states, shared->depth, bytes_used(0) / 1e9, said - begun);
}

/* Between two layers, of one process. */
static void end_layer(void) {
    layers[++shared->depth] = shared->states;
    shared->taken = 0;
    if (shared->depth + 2 >= MOST_DEPTH) shared->ends = TOO_DEEP;
    say_progress();
}

static void clear(struct segment *of) {
    if (of->bytes > of->most_bytes) of->most_bytes = of->bytes;
    if (of->count > of->most_count) of->most_count = of->count;
    of->bytes = of->count = 0;
}

static void search(void) {
    for (;;) {
        for (int is_crowded = 1; is_crowded;) {
            look_at_layer();
            meet();
            is_crowded = shared->is_crowded && !shared->ends;
            meet();
            if (is_crowded && !job) grow();
            if (is_crowded) meet();
        }
        if (spare) prints[spare] = 0, spare = 0;
        meet();
        if (!job) end_layer();
        meet();
        if (shared->ends || layers[shared->depth] == layers[shared->depth - 1]) return;
        clear(&shared->segments[job][half]);
        half = !half;
        meet();
    }
}

static pid_t children[MOST_JOBS];

/* A process that ends before the search has ended is killed, or has found a fault: so this one ends too. */
static void child_ends(int number) {
    (void)number;
    int status, saved = errno;
    for (pid_t who; (who = waitpid(-1, &status, WNOHANG)) > 0;)
        if (status) _exit(WIFEXITED(status) ? WEXITSTATUS(status) : KILLED);
    errno = saved;
}

static void search_in_all(void) {
    begun = seconds();
    spare = 0;
    int is_new = 0;
    keep(entered(print_of_state(), &is_new), 0);
    layers[1] = shared->states;
    shared->depth = 1;
    struct sigaction how = {.sa_handler = child_ends, .sa_flags = SA_RESTART};
    sigaction(SIGCHLD, &how, NULL);
    pid_t parent = getpid();
    for (int number = 1; number < jobs; number++) {
        children[number] = fork();
        if (children[number] < 0) fail(CANNOT, "cannot start another process");
        if (children[number]) continue;
        prctl(PR_SET_PDEATHSIG, SIGKILL);
        if (getppid() != parent) _exit(KILLED);
        job = number;
        search();
        _exit(ENDED);
    }
    search();
}

/* -- What follows from the edges ------------------------------------------------------------------------------------------------------------------------- */

/* A passenger of a state. */
struct node {
    uint32_t state, passenger;
};

static int layer_of(uint32_t state) {
    int low = 1, high = shared->depth;
    while (low < high) {
        int middle = (low + high) / 2;
        if (layers[middle] >= state) high = middle;
        else low = middle + 1;
    }
    return low;
}

/* An order that doesn't depend on which process found what: by layer, by hash, by passenger. */
static int is_before(struct node one, struct node two) {
    int layer = layer_of(one.state), other = layer_of(two.state);
    if (layer != other) return layer < other;
    if (one.state != two.state) return prints[one.state] < prints[two.state];
    return one.passenger < two.passenger;
}

static void take_first(struct node *best, struct node other) {
    if (!best->state || is_before(other, *best)) *best = other;
}

static void *private_room(uint64_t bytes) {
    void *made = mmap(NULL, bytes + PAGE, PROT_READ | PROT_WRITE, MAP_PRIVATE | MAP_ANONYMOUS | MAP_NORESERVE, -1, 0);
    if (made == MAP_FAILED) fail(CANNOT, "no address space for what the search found");
    return made;
}

static unsigned char *never; /* of each state the passengers who are never served though nobody else presses, a bit each */
static struct node alone, taken_for_good, open_for_good; /* the first such passenger, and the first states of loops without passengers that fail */

/* A loop in which nobody presses. */
static void judge_loop(const uint32_t *states, uint64_t count) {
    uint64_t doors = 255, is_taken = 0;
    struct node first = {0};
    for (uint64_t at = 0; at < count; at++) {
        uint64_t of = firsts[states[at]];
        doors &= doors_of(of), is_taken |= !is_free(of);
        never[states[at]] = (1u << count_of(of)) - 1;
        take_first(&first, (struct node){states[at], 0});
    }
    if (count_of(firsts[*states])) return;
    if (is_taken) take_first(&taken_for_good, first);
    if (doors) take_first(&open_for_good, first);
}

/* Where each state leads while nobody presses any more. */
static void follow_alone(void) {
    unsigned char *colours = private_room(shared->states + 1); /* 1 of the way that is gone, 2 of others */
    uint32_t *way = private_room(4 * (shared->states + 1));
    never = private_room(shared->states + 1);
    for (uint32_t begin = 1; begin <= shared->states; begin++) {
        uint64_t length = 0, end;
        uint32_t state = begin;
        for (; is_looked_at(firsts[state]) && !colours[state]; state = (uint32_t)*edges_of(firsts[state])) colours[state] = 1, way[length++] = state;
        end = length;
        if (colours[state] == 1) {
            while (way[--end] != state) {}
            judge_loop(way + end, length - end);
        }
        while (end-- > 0) {
            uint64_t edge = *edges_of(firsts[way[end]]);
            for (int k = 0; k < count_of(firsts[way[end]]); k++)
                if (place_in(edge, k) != DONE && never[(uint32_t)edge] >> place_in(edge, k) & 1) never[way[end]] |= 1 << k;
        }
        while (length-- > 0) {
            colours[way[length]] = 2;
            for (int k = 0; k < MOST_PEOPLE; k++)
                if (never[way[length]] >> k & 1) take_first(&alone, (struct node){way[length], k});
        }
    }
    munmap(colours, shared->states + 1 + PAGE);
    munmap(way, 4 * (shared->states + 1) + PAGE);
}

static uint64_t number_of(struct node of) { return (uint64_t)of.state * most_people + of.passenger; }

/* Where an edge leads a passenger; no state where there is no more to come: they are at their destination, in a car if that is what counts, or the next state
   wasn't looked at. */
static struct node next_node(struct node of, uint64_t edge, int until_aboard) {
    int at = place_in(edge, of.passenger);
    if (at == DONE || (until_aboard && is_aboard_in(edge, of.passenger)) || !is_looked_at(firsts[(uint32_t)edge])) return (struct node){0};
    return (struct node){(uint32_t)edge, at};
}

enum { ON_WAY = 65535, LONGEST_TIME = 65000 };

struct frame {
    struct node of;
    uint32_t edge, count;
};

/* The longest time in rounds from each state until the passenger is there. The answer is whether there is a loop on which they never are; then the times say
   nothing. Passengers who are never served though nobody else presses are left out. */
static int find_times(uint16_t *times, int until_aboard) {
    struct frame *stack = private_room(sizeof *stack * (shared->states * most_people + 1));
    for (uint32_t state = 1; state <= shared->states; state++)
        for (int k = 0; is_looked_at(firsts[state]) && k < count_of(firsts[state]); k++) {
            struct node begin = {state, k};
            if (times[number_of(begin)] || never[state] >> k & 1) continue;
            uint64_t depth = 0;
            stack[depth++] = (struct frame){begin, 0, edge_count(firsts[state])};
            times[number_of(begin)] = ON_WAY;
            while (depth) {
                struct frame *top = &stack[depth - 1];
                if (top->edge < top->count) {
                    struct node next = next_node(top->of, edges_of(firsts[top->of.state])[top->edge++], until_aboard);
                    if (!next.state || never[next.state] >> next.passenger & 1) continue;
                    uint16_t time = times[number_of(next)];
                    if (time == ON_WAY) return 1;
                    if (time) continue;
                    times[number_of(next)] = ON_WAY;
                    stack[depth++] = (struct frame){next, 0, edge_count(firsts[next.state])};
                    continue;
                }
                const uint64_t *of = edges_of(firsts[top->of.state]);
                uint16_t most = 1;
                for (uint32_t edge = 0; edge < top->count; edge++) {
                    struct node next = next_node(top->of, of[edge], until_aboard);
                    if (next.state && times[number_of(next)] >= most) most = times[number_of(next)] + 1;
                }
                times[number_of(top->of)] = most < LONGEST_TIME ? most : LONGEST_TIME;
                depth--;
            }
        }
    munmap(stack, sizeof *stack * (shared->states * most_people + 1) + PAGE);
    return 0;
}

/* By Tarjan's way: the first passenger, of the first state, on a loop on which they are never served, though they would be if nobody else pressed. */
static struct node first_on_loop(void) {
    uint64_t nodes = (shared->states + 1) * most_people, kept = 0;
    uint32_t *index = private_room(4 * nodes), *low = private_room(4 * nodes), given = 0;
    struct node *open = private_room(sizeof *open * nodes), best = {0};
    struct frame *stack = private_room(sizeof *stack * nodes);
    enum { CLOSED = 0xffffffff };
    for (uint32_t state = 1; state <= shared->states; state++)
        for (int k = 0; is_looked_at(firsts[state]) && k < count_of(firsts[state]); k++) {
            struct node begin = {state, k};
            if (index[number_of(begin)] || never[state] >> k & 1) continue;
            uint64_t depth = 0;
            struct node next = begin;
            for (;;) {
                if (next.state) {
                    index[number_of(next)] = low[number_of(next)] = ++given;
                    open[kept++] = next;
                    stack[depth++] = (struct frame){next, 0, edge_count(firsts[next.state])};
                    next.state = 0;
                }
                struct frame *top = &stack[depth - 1];
                uint64_t here = number_of(top->of);
                while (top->edge < top->count && !next.state) {
                    struct node other = next_node(top->of, edges_of(firsts[top->of.state])[top->edge++], 0);
                    if (!other.state || never[other.state] >> other.passenger & 1) continue;
                    uint64_t there = number_of(other);
                    if (!index[there]) next = other;
                    else if (low[there] != CLOSED && index[there] < low[here]) low[here] = index[there];
                }
                if (next.state) continue;
                if (low[here] == index[here]) {
                    uint64_t begins = kept;
                    do begins--; while (number_of(open[begins]) != here);
                    for (uint64_t at = begins; at < kept; at++) {
                        low[number_of(open[at])] = CLOSED;
                        if (kept - begins > 1) take_first(&best, open[at]);
                    }
                    kept = begins;
                }
                if (!--depth) break;
                uint64_t below = number_of(stack[depth - 1].of);
                if (low[here] != CLOSED && low[here] < low[below]) low[below] = low[here];
            }
        }
    munmap(index, 4 * nodes + PAGE), munmap(low, 4 * nodes + PAGE);
    munmap(open, sizeof *open * nodes + PAGE), munmap(stack, sizeof *stack * nodes + PAGE);
    return best;
}

/* Edges by their numbers, from the opening on or from a state on. */
struct way {
    uint32_t *edges;
    uint64_t length;
};

/* The shortest one from the opening to a state: backwards, by the first predecessor of the layer before. */
static struct way way_to(uint32_t state) {
    int layer = layer_of(state);
    struct way way = {private_room(4 * (uint64_t)layer), layer - 1};
    for (; layer > 1; layer--) {
        struct node best = {0};
        for (uint64_t from = layers[layer - 2] + 1; from <= layers[layer - 1]; from++)
            for (uint32_t edge = 0; is_looked_at(firsts[from]) && edge < edge_count(firsts[from]); edge++)
                if ((uint32_t)edges_of(firsts[from])[edge] == state) take_first(&best, (struct node){from, edge});
        way.edges[layer - 2] = best.passenger;
        state = best.state;
    }
    return way;
}

static void add(struct way *way, uint32_t edge) {
    uint32_t *more = private_room(4 * (way->length + 1));
    memcpy(more, way->edges, 4 * way->length);
    more[way->length] = edge;
    munmap(way->edges, 4 * way->length + PAGE);
    *way = (struct way){more, way->length + 1};
}

/* Goes on from a node until the passenger is there, on the longest way. */
static void add_longest(struct way *way, struct node of, const uint16_t *times, int until_aboard) {
    while (of.state) {
        const uint64_t *edges = edges_of(firsts[of.state]);
        uint32_t edge = 0;
        uint16_t left = times[number_of(of)];
        for (;; edge++) {
            struct node next = next_node(of, edges[edge], until_aboard);
            if (left == (next.state ? times[number_of(next)] + 1 : 1)) {
                add(way, edge);
                of = next;
                break;
            }
        }
    }
}

/* The shortest way by which a passenger's node leads to itself. */
static void add_loop(struct way *way, struct node of) {
    uint64_t nodes = (shared->states + 1) * most_people, from = 0, to = 0;
    struct node *queue = private_room(sizeof *queue * nodes), end = {0};
    uint32_t *before = private_room(4 * nodes); /* place in the queue, from 1 on */
    queue[to++] = of;
    for (; !end.state; from++) {
        struct node here = queue[from];
        for (uint32_t edge = 0; edge < edge_count(firsts[here.state]) && !end.state; edge++) {
            struct node next = next_node(here, edges_of(firsts[here.state])[edge], 0);
            if (!next.state || never[next.state] >> next.passenger & 1) continue;
            if (number_of(next) == number_of(of)) end = here;
            else if (!before[number_of(next)]) before[number_of(next)] = from + 1, queue[to++] = next;
        }
    }
    uint64_t begin = way->length, length = 1;
    for (struct node at = end; number_of(at) != number_of(of); at = queue[before[number_of(at)] - 1]) length++;
    struct node *nodes_of = private_room(sizeof *nodes_of * (length + 1));
    nodes_of[length] = of;
    for (struct node at = end; length; at = queue[before[number_of(at)] ? before[number_of(at)] - 1 : 0]) nodes_of[--length] = at;
    for (struct node *at = nodes_of; way->length == begin || number_of(*at) != number_of(of); at++) {
        uint32_t edge = 0;
        for (;; edge++) {
            struct node next = next_node(*at, edges_of(firsts[at->state])[edge], 0);
            if (next.state && number_of(next) == number_of(at[1])) break;
        }
        add(way, edge);
    }
    munmap(queue, sizeof *queue * nodes + PAGE), munmap(before, 4 * nodes + PAGE);
}

/* -- What is said ---------------------------------------------------------------------------------------------------------------------------------------- */

/* The press of a passenger: the round, and the call. */
struct press {
    uint32_t round;
    int from, to;
};

/* Goes a way from the opening, and says its presses. `watched` is a passenger of the state after so many rounds, if there is one; the times are those of the way,
   where a loop begins, and how long something takes. Each state has to be the one that was found. */
static void say_way(const char *name, const struct way *way, uint64_t after, int watched, uint64_t loops_from, uint64_t takes) {
    struct press of[MOST_PEOPLE] = {{0}}, then[MOST_PEOPLE], found = {0};
    uint32_t state = 1;
    take_changes(NULL, NULL);
    printf("way %s\n", name);
    for (uint64_t round = 1; round <= way->length; round++) {
        const struct action *action = &actions[way->edges[round - 1]];
        uint64_t edge = edges_of(firsts[state])[way->edges[round - 1]];
        struct round made;
        step(action, &made);
        for (int k = 0; k < made.count; k++) {
            int call = k < made.old ? 0 : action->calls[k - made.old];
            if (k >= made.old) printf("press %llu %d %d\n", (unsigned long long)round, call_from[call], call_to[call]);
            if (made.at[k] != DONE) then[made.at[k]] = k < made.old ? of[k] : (struct press){round, call_from[call], call_to[call]};
        }
        memcpy(of, then, sizeof of);
        state = (uint32_t)edge;
        if (print_of_state().low != prints[state]) fail(WRONG_MODEL, "a way leads to another state the second time");
        if (round == after && watched >= 0) found = of[watched];
    }
    printf("watched %u %d %d\n", found.round, found.from, found.to);
    printf("end %llu %llu %llu\n", (unsigned long long)way->length, (unsigned long long)loops_from, (unsigned long long)takes);
}

/* The press after which it takes longest. */
static void say_longest(const char *name, const uint16_t *times, int until_aboard) {
    struct node best = {0}, pressed = {0};
    uint16_t most = 0;
    for (uint32_t state = 1; state <= shared->states; state++) {
        uint64_t first = firsts[state];
        for (uint32_t edge = 1; is_looked_at(first) && edge < edge_count(first); edge++) {
            uint64_t of = edges_of(first)[edge];
            uint32_t next = (uint32_t)of;
            int olds = 0;
            for (int k = 0; k < count_of(first); k++)
                if (place_in(of, k) != DONE) olds |= 1 << place_in(of, k);
            for (int k = 0; is_looked_at(firsts[next]) && k < count_of(firsts[next]); k++) {
                uint16_t time = times[number_of((struct node){next, k})];
                if (olds >> k & 1 || time < most || (time == most && !is_before((struct node){state, edge}, best))) continue;
                if (time == most && best.state == state && best.passenger == edge) continue;
                most = time, best = (struct node){state, edge}, pressed = (struct node){next, k};
            }
        }
    }
    printf("longest %s %d\n", name, most < LONGEST_TIME ? most : 0);
    if (!best.state || most == LONGEST_TIME) return;
    struct way way = way_to(best.state);
    add(&way, best.passenger);
    uint64_t after = way.length;
    add_longest(&way, pressed, times, until_aboard);
    say_way(name, &way, after, pressed.passenger, 0, most);
}

static void say_loop(const char *name, struct node of, int has_passenger) {
    struct way way = way_to(of.state);
    say_way(name, &way, way.length, has_passenger ? (int)of.passenger : -1, 0, 0);
}

/* Times of both kinds; with several processes at the same time. */
static void say_times(void) {
    uint64_t bytes = 2 * (shared->states + 1) * most_people;
    uint16_t *until_there = shared_room(bytes), *until_aboard = shared_room(bytes);
    fflush(stdout);
    pid_t child = jobs > 1 ? fork() : 0;
    if (!child) find_times(until_aboard, 1);
    if (jobs > 1 && !child) _exit(ENDED);
    int has_loop = find_times(until_there, 0), status = 0;
    if (child > 0 && waitpid(child, &status, 0) == child && status) fail(KILLED, "a process of the search was killed");
    if (has_loop) {
        give_back(until_there, bytes), give_back(until_aboard, bytes);
        struct node best = first_on_loop();
        struct way way = way_to(best.state);
        uint64_t begin = way.length;
        add_loop(&way, best);
        say_way("starves", &way, begin, best.passenger, begin, 0);
    } else if (!shared->ends && !alone.state) {
        say_longest("aboard", until_aboard, 1);
        say_longest("destination", until_there, 0);
    }
}

static void say_found(void) {
    uint64_t holes = 0, states = shared->states, records_kept = 0;
    for (uint32_t state = 1; state <= states; state++) holes += !prints[state];
    for (int of = 0; of < jobs; of++) records_kept += shared->segments[of][0].most_bytes + shared->segments[of][1].most_bytes;
    printf("states %llu\ndepth %d\nends %d\nedges %llu\n", (unsigned long long)(states - holes), shared->depth - 2, shared->ends, (unsigned long long)shared->edges);
    printf("bytes %llu\nrecords %llu\nsearched %.1f\n", (unsigned long long)(16 * states + 8 * shared->edges + table_bytes(shared->bits)), (unsigned long long)records_kept, seconds() - begun);
    give_back(tables[shared->bits], table_bytes(shared->bits));
    for (int of = 0; of < jobs; of++)
        for (int which = 0; which < 2; which++) give_back(records[of][which], 2 * most_bytes);
    follow_alone();
    if (taken_for_good.state) say_loop("slots", taken_for_good, 0);
    if (open_for_good.state) say_loop("shuts", open_for_good, 0);
    if (alone.state) say_loop("served", alone, 1);
    say_times();
    printf("all %.1f\n", seconds() - begun);
}

static void open_group(const char *file) {
    static uint8_t text[1 << 20];
    liftplc_refusal refusal;
    FILE *from = fopen(file, "rb");
    size_t length = from ? fread(text, 1, sizeof text, from) : 0;
    if (!from || fclose(from) || mmap(ARENA, ARENA_BYTES, PROT_READ | PROT_WRITE, MAP_PRIVATE | MAP_ANONYMOUS | MAP_NORESERVE | MAP_FIXED_NOREPLACE, -1, 0) != ARENA)
        fail(CANNOT, "cannot read the text, or there is no address space for it");
    scratch = private_room(SCRATCH_BYTES);
    game = take(sizeof *game);
    if (liftplc_open(&game->handle, text, length, &refusal) != LIFTPLC_OK) fail(REFUSED_TEXT, "the library does not open the text");
    is_opened = 1;
    begin_changes();
}

static uint64_t number(const char *word) { return strtoull(word, NULL, 10); }

int main(int count, char **words) {
    prctl(PR_SET_PDEATHSIG, SIGKILL);
    if (count != 12) fail(CANNOT, "usage: explore TEXT CARS FLOORS SLOTS CALLS ALONE JOBS BYTES SECONDS CLOCK LONGEST");
    cars = number(words[2]), floors = number(words[3]), slots = number(words[4]), most_people = number(words[5]), people_alone = number(words[6]);
    jobs = number(words[7]), most_bytes = number(words[8]), most_seconds = strtod(words[9], NULL), by_clock = number(words[10]), longest_ms = number(words[11]);
    make_actions();
    make_room();
    open_group(words[1]);
    search_in_all();
    say_found();
    return ENDED;
}
