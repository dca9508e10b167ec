/* Calls the card that bench/calls builds: `card IMAGES FIRST OFFSET ARGUMENT STEPS ROUNDS` calls the method of the
 * first package at the offset FIRST, and then the method of the second package at OFFSET on ARGUMENT, each time on a
 * new card. It prints how the call ended and what it gave, the least nanoseconds of processor time of ROUNDS such
 * calls, and 0, since it doesn't count steps. */
#include <stdint.h>
#include <stdio.h>
#include <stdlib.h>
#include <time.h>

enum { MOST_BYTES = 1 << 17 };

struct call {
    uint8_t first_package, package;
    uint16_t first_offset, offset, argument;
    uint32_t steps;
};

struct ended {
    uint16_t how, word;
};

/* `images` and how many bytes they are: each package behind two bytes that say how long it is. */
void calls_run(const uint8_t *images, size_t size, const struct call *call, struct ended *ended);

static int64_t now(void) {
    struct timespec t;
    clock_gettime(CLOCK_PROCESS_CPUTIME_ID, &t);
    return t.tv_sec * 1000000000LL + t.tv_nsec;
}

int main(int count, char **words) {
    static const char *const ends[] = {"no card", "nothing", "value", "throws", "used up"};
    static uint8_t images[MOST_BYTES];
    FILE *file = count == 7 ? fopen(words[1], "rb") : NULL;
    if (file == NULL) {
        return 2;
    }
    size_t size = fread(images, 1, sizeof images, file);
    struct call call = {1, 2, (uint16_t)atoi(words[2]), (uint16_t)atoi(words[3]), (uint16_t)atoi(words[4]),
                        (uint32_t)strtoul(words[5], NULL, 10)};
    struct ended ended = {0, 0};
    int64_t least = INT64_MAX;
    for (int round = atoi(words[6]); round > 0; round -= 1) {
        int64_t start = now();
        calls_run(images, size, &call, &ended);
        int64_t took = now() - start;
        least = took < least ? took : least;
    }
    printf("%s %d %lld 0\n", ends[ended.how], (int16_t)ended.word, (long long)least);
    fclose(file);
    return 0;
}
