/* Makes the copies that payloads need: each from its place of one segment into a slot, and, as those of `longs` and the chunks of `puts`, from there to the same
 * place of another segment. Its arguments are the number of payloads and of the copies of each, 1 or 2; it prints the CPU time of the copies in milliseconds, the
 * least of some runs. Both segments are written first, as those of a world are: the pages of an array that nothing wrote are all one page of zeros, which never
 * leaves the cache. */
#include <stdio.h>
#include <stdlib.h>
#include <string.h>
#include <time.h>

enum { PAYLOAD = 8192, PLACES = 8192, SEGMENT = PAYLOAD * PLACES, RUNS = 15 };

static double milliseconds(void)
{
    struct timespec now;
    clock_gettime(CLOCK_PROCESS_CPUTIME_ID, &now);
    return now.tv_sec * 1e3 + now.tv_nsec / 1e6;
}

int main(int count, char **words)
{
    long payloads = count == 3 ? atol(words[1]) : 0;
    int lands = count == 3 && atol(words[2]) == 2;
    char *source = malloc(SEGMENT), *target = malloc(SEGMENT), *slot = calloc(1, PAYLOAD);
    if (payloads <= 0 || !source || !target || !slot)
        return 1;
    memset(source, 1, SEGMENT);
    memset(target, 1, SEGMENT);
    double least = 1e300;
    for (int run = 0; run < RUNS; run++) {
        double begin = milliseconds();
        for (long number = 1; number <= payloads; number++) {
            long offset = number % PLACES * PAYLOAD;
            memcpy(slot, source + offset, PAYLOAD);
            __asm__ volatile("" : : "r"(slot) : "memory"); /* both copies are made */
            if (lands)
                memcpy(target + offset, slot, PAYLOAD);
            __asm__ volatile("" : : "r"(target) : "memory");
        }
        double taken = milliseconds() - begin;
        least = taken < least ? taken : least;
    }
    printf("%.3f\n", least);
    return 0;
}
