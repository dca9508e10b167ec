/* Measures what bench/natives builds, beside C: memmove, memset and memcmp of as many words, and accesses to components
 * of an object whose place is looked up, as the store does. Nothing is tested there. With WHOLE_CALLS it measures whole
 * calls, beside such in C with the tests that an own array needs: it is there, it is the caller's, and it has the
 * components. */
#include <stdint.h>
#include <stdio.h>
#include <stdlib.h>
#include <string.h>
#include <time.h>

enum { ROUNDS = 40, LENGTH = 2000 };

enum { COPY = 49, FILL = 51, COMPARE = 52, GET = 53, SET = 54 };

struct wanted {
    uint16_t member, source, from, target, to, count, word;
    uint32_t turns;
};

struct ended {
    uint32_t given, left;
};

void natives_run(const struct wanted *wanted, struct ended *ended);

struct head {
    uint16_t start, len, class;
    uint8_t fast;
};

static struct head heads[3];
static uint16_t cells[2 * LENGTH];

static double now(void) {
    struct timespec t;
    clock_gettime(CLOCK_MONOTONIC, &t);
    return t.tv_sec * 1e9 + t.tv_nsec;
}

/* The compiler knows nothing of memory behind it. */
#define FORGET __asm__ volatile("" ::: "memory")

static void reset(void) {
    for (int number = 1; number <= 2; number += 1) {
        heads[number] = (struct head){(uint16_t)((number - 1) * LENGTH), LENGTH, 0, 1};
        for (int at = 0; at < LENGTH; at += 1) {
            cells[heads[number].start + at] = at % 251;
        }
    }
}

static uint16_t *place(uint16_t number, uint32_t index) {
    return cells + heads[number].start + index;
}

__attribute__((noinline)) static uint32_t copy(const struct wanted *w) {
    for (uint32_t turn = 0; turn < w->turns; turn += 1) {
        memmove(place(w->target, w->to), place(w->source, w->from), 2 * (size_t)w->count);
        FORGET;
    }
    return 0;
}

/* It fills with bytes, and so with other words: the time is what is asked for. */
__attribute__((noinline)) static uint32_t fill(const struct wanted *w) {
    for (uint32_t turn = 0; turn < w->turns; turn += 1) {
        memset(place(w->target, w->to), w->word, 2 * (size_t)w->count);
        FORGET;
    }
    return 0;
}

__attribute__((noinline)) static uint32_t compare(const struct wanted *w) {
    uint32_t sum = 0;
    for (uint32_t turn = 0; turn < w->turns; turn += 1) {
        int order = memcmp(place(w->source, w->from), place(w->target, w->to), 2 * (size_t)w->count);
        sum += (uint16_t)((order > 0) - (order < 0));
        FORGET;
    }
    return sum;
}

__attribute__((noinline)) static uint32_t get(const struct wanted *w) {
    uint32_t sum = 0;
    for (uint32_t turn = 0; turn < w->turns; turn += 1) {
        uint32_t at = w->from + (turn & 1023);
        sum += (uint32_t)(*place(w->source, at) & 255) << 8 | (*place(w->source, at + 1) & 255);
        FORGET;
    }
    return sum;
}

__attribute__((noinline)) static uint32_t set(const struct wanted *w) {
    for (uint32_t turn = 0; turn < w->turns; turn += 1) {
        uint32_t at = w->to + (turn & 1023);
        *place(w->target, at) = turn >> 8 & 255;
        *place(w->target, at + 1) = turn & 255;
        FORGET;
    }
    return 0;
}

__attribute__((unused)) static uint32_t work_often(const struct wanted *w) {
    switch (w->member) {
    case COPY:
        return copy(w);
    case FILL:
        return fill(w);
    case COMPARE:
        return compare(w);
    case GET:
        return get(w);
    default:
        return set(w);
    }
}

/* ---- whole calls */

enum { OWNER = 1, BOUNDS = 4, NULL_POINTER = 6, SECURITY = 7 };

struct outcome {
    uint16_t word, thrown;
};

static struct outcome value(uint16_t word) {
    return (struct outcome){word, 0};
}

static uint16_t refused_array(uint16_t number) {
    if (number == 0 || number > 2) {
        return NULL_POINTER;
    }
    return heads[number].fast == OWNER ? 0 : SECURITY;
}

static uint16_t refused_range(uint16_t number, int16_t index, int16_t count) {
    return index >= 0 && count >= 0 && index + count <= heads[number].len ? 0 : BOUNDS;
}

static uint16_t refused_part(uint16_t number, uint16_t index, uint16_t count) {
    uint16_t thrown = refused_array(number);
    return thrown ? thrown : refused_range(number, (int16_t)index, (int16_t)count);
}

static uint16_t refused_parts(const uint16_t *a) {
    uint16_t thrown = refused_array(a[0]);
    thrown = thrown ? thrown : refused_array(a[2]);
    thrown = thrown ? thrown : refused_range(a[0], (int16_t)a[1], (int16_t)a[4]);
    return thrown ? thrown : refused_range(a[2], (int16_t)a[3], (int16_t)a[4]);
}

static struct outcome called_copy(const uint16_t *a) {
    uint16_t thrown = refused_parts(a);
    if (thrown) {
        return (struct outcome){0, thrown};
    }
    memmove(place(a[2], a[3]), place(a[0], a[1]), 2 * (size_t)a[4]);
    return value((uint16_t)(a[3] + a[4]));
}

static struct outcome called_fill(const uint16_t *a) {
    uint16_t thrown = refused_part(a[0], a[1], a[2]);
    if (thrown) {
        return (struct outcome){0, thrown};
    }
    memset(place(a[0], a[1]), a[3], 2 * (size_t)a[2]);
    return value((uint16_t)(a[1] + a[2]));
}

static struct outcome called_compare(const uint16_t *a) {
    uint16_t thrown = refused_parts(a);
    if (thrown) {
        return (struct outcome){0, thrown};
    }
    int order = memcmp(place(a[0], a[1]), place(a[2], a[3]), 2 * (size_t)a[4]);
    return value((uint16_t)((order > 0) - (order < 0)));
}

static struct outcome called_get(const uint16_t *a) {
    uint16_t thrown = refused_part(a[0], a[1], 2);
    if (thrown) {
        return (struct outcome){0, thrown};
    }
    const uint16_t *at = place(a[0], a[1]);
    return value((uint16_t)((at[0] & 255) << 8 | (at[1] & 255)));
}

static struct outcome called_set(const uint16_t *a) {
    uint16_t thrown = refused_part(a[0], a[1], 2);
    if (thrown) {
        return (struct outcome){0, thrown};
    }
    uint16_t *at = place(a[0], a[1]);
    at[0] = a[2] >> 8 & 255;
    at[1] = a[2] & 255;
    return value((uint16_t)(a[1] + 2));
}

__attribute__((noinline)) static struct outcome call(uint16_t member, const uint16_t *arguments) {
    switch (member) {
    case COPY:
        return called_copy(arguments);
    case FILL:
        return called_fill(arguments);
    case COMPARE:
        return called_compare(arguments);
    case GET:
        return called_get(arguments);
    default:
        return called_set(arguments);
    }
}

__attribute__((unused)) static uint32_t call_often(const struct wanted *w) {
    uint16_t arguments[5] = {w->source, w->from, w->target, w->to, w->count};
    if (w->member == FILL || w->member == SET) {
        arguments[0] = w->target;
        arguments[1] = w->to;
        arguments[2] = w->member == FILL ? w->count : w->word;
        arguments[3] = w->word;
    }
    uint32_t sum = 0;
    for (uint32_t turn = 0; turn < w->turns; turn += 1) {
        struct outcome outcome = call(w->member, arguments);
        sum += outcome.thrown ? 40000 + outcome.thrown : outcome.word;
        FORGET;
    }
    return sum;
}

/* ---- both */

#ifdef WHOLE_CALLS
#define limit call_often
#else
#define limit work_often
#endif

static uint32_t sum_of(uint16_t number) {
    uint32_t sum = 0;
    for (int at = 0; at < LENGTH; at += 1) {
        sum = sum * 31 + *place(number, at);
    }
    return sum;
}

/* That both give and leave the same. */
static void check(const struct wanted *w) {
    struct ended ended = {0, 0};
    natives_run(w, &ended);
    reset();
    uint32_t given = limit(w), left = sum_of(1) + sum_of(2);
    if (ended.given != given || ended.left != left) {
        printf("member %d of %d components: %u and %u, and not %u and %u\n", w->member, w->count, ended.given,
               ended.left, given, left);
        exit(1);
    }
}

struct times {
    double ours, limit;
};

static double once(const struct wanted *w, uint32_t turns) {
    struct wanted some = *w;
    struct ended ended = {0, 0};
    some.turns = turns;
    double start = now();
    natives_run(&some, &ended);
    return now() - start;
}

static void take_least(double *least, double time) {
    *least = time < *least ? time : *least;
}

/* Nanoseconds a turn. */
static struct times measure(struct wanted w) {
    double none = 1e18, ours = 1e18, in_c = 1e18;
    for (int round = 0; round < ROUNDS; round += 1) {
        take_least(&none, once(&w, 0));
        take_least(&ours, once(&w, w.turns));
        double start = now();
        limit(&w);
        take_least(&in_c, now() - start);
    }
    return (struct times){(ours - none) / w.turns, in_c / w.turns};
}

static void show(const char *name, struct wanted w, double aim) {
    struct wanted few = w;
    few.turns = 3;
    /* memset fills with bytes, and so with the same words for 0 alone */
    if (w.member != FILL || w.word == 0) {
        check(&few);
    }
    struct times t = measure(w);
    printf("%-28s %5d %8.2f ns %8.2f ns in C %6.2f times, the aim is at most %.1f\n", name, w.count, t.ours, t.limit,
           t.ours / t.limit, aim);
}

int main(void) {
    static const uint16_t counts[] = {8, 32, 128, 255, 1024};
    reset();
    for (int at = 0; at < 5; at += 1) {
        uint16_t count = counts[at];
        uint32_t turns = 20000;
        show("arrayCopy", (struct wanted){COPY, 1, 3, 2, 5, count, 0, turns}, 2.0);
        show(".. one component down", (struct wanted){COPY, 1, 3, 1, 2, count, 0, turns}, 2.0);
        show(".. one component up", (struct wanted){COPY, 1, 3, 1, 4, count, 0, turns}, 2.0);
        show("arrayFill with 7", (struct wanted){FILL, 1, 0, 1, 3, count, 7, turns}, 2.0);
        show(".. with 0", (struct wanted){FILL, 1, 0, 1, 3, count, 0, turns}, 2.0);
        show("arrayCompare, all equal", (struct wanted){COMPARE, 1, 3, 2, 3, count, 0, turns}, 2.0);
        /* these words repeat after 251 */
        show(".. that begin elsewhere", (struct wanted){COMPARE, 1, 3, 2, 254, count, 0, turns}, 2.0);
    }
    show("getShort", (struct wanted){GET, 1, 3, 1, 3, 2, 0, 200000}, 1.5);
    show("setShort", (struct wanted){SET, 1, 3, 1, 3, 2, 4660, 200000}, 1.5);
    return 0;
}
