// How long a read takes whose place the read before it tells, in memory of so many megabytes: nanoseconds, a line each.
#include <stdio.h>
#include <stdlib.h>
#include <time.h>

enum { LINE = 64, READS = 4000000 };

struct line {
    struct line *next;
    char rest[LINE - sizeof(struct line *)];
};

// A random number below a bound: xorshift, since RAND_MAX may be small.
static size_t below(size_t bound) {
    static unsigned long long state = 88172645463325252ULL;
    state ^= state << 13;
    state ^= state >> 7;
    state ^= state << 17;
    return state % bound;
}

int main(int count, char **sizes) {
    for (int at = 1; at < count; at++) {
        size_t lines = strtoul(sizes[at], NULL, 10) * (1 << 20) / LINE;
        struct line *memory = aligned_alloc(LINE, lines * LINE);
        size_t *order = malloc(lines * sizeof *order);
        if (lines == 0 || memory == NULL || order == NULL)
            return 1;
        for (size_t i = 0; i < lines; i++)
            order[i] = i;
        for (size_t i = lines - 1; i > 0; i--) {
            size_t other = below(i + 1), kept = order[i];
            order[i] = order[other];
            order[other] = kept;
        }
        for (size_t i = 0; i < lines; i++)
            memory[order[i]].next = &memory[order[(i + 1) % lines]];
        struct line *volatile place = memory;
        struct timespec start, end;
        for (size_t i = 0; i < lines; i++)
            place = place->next;
        clock_gettime(CLOCK_MONOTONIC, &start);
        struct line *last = place;
        for (size_t i = 0; i < READS; i++)
            last = last->next;
        place = last;
        clock_gettime(CLOCK_MONOTONIC, &end);
        double took = (end.tv_sec - start.tv_sec) * 1e9 + (end.tv_nsec - start.tv_nsec);
        printf("%.1f\n", took / READS);
        free(order);
        free(memory);
    }
}
