// Prints what tells one machine from another where checks of proofs take longer: the nanoseconds of an addition, of a call through a
// pointer that leads to four functions in turn, and of a read at random within 1/2, 4 and 64 MB. Each is the least of five trials.
//
//     cc -O1 -o machine bench/machine.c && ./machine

#include <stdio.h>
#include <stdlib.h>
#include <time.h>

enum { TRIALS = 5, STEPS = 2000000, LINE = 64 / sizeof(size_t) };

typedef size_t (*Function)(size_t);

static size_t one(size_t value) { return value + 1; }
static size_t two(size_t value) { return value + 2; }
static size_t three(size_t value) { return value + 3; }
static size_t four(size_t value) { return value + 4; }

static Function volatile functions[] = {one, two, three, four};

static size_t add(const size_t *table, size_t value) {
    (void)table;
    for (int step = 0; step < STEPS; step++) {
        value += 1;
        __asm__ volatile("" : "+r"(value));
    }
    return value;
}

static size_t call(const size_t *table, size_t value) {
    (void)table;
    for (int step = 0; step < STEPS; step++) {
        value = functions[step % 4](value);
    }
    return value;
}

static size_t read_at_random(const size_t *table, size_t value) {
    for (int step = 0; step < STEPS; step++) {
        value = table[value];
    }
    return value;
}

static double least(size_t (*work)(const size_t *, size_t), const size_t *table) {
    double best = 1e9;
    for (int trial = 0; trial < TRIALS; trial++) {
        clock_t begun = clock();
        size_t came = work(table, 0);
        __asm__ volatile("" : : "r"(came));
        double spent = (double)(clock() - begun) / CLOCKS_PER_SEC / STEPS * 1e9;
        best = spent < best ? spent : best;
    }
    return best;
}

// A table of lines of 64 bytes, each of which names another, so that a walk comes by all of them before it comes to one again.
static size_t *walk_through(size_t bytes) {
    size_t lines = bytes / sizeof(size_t) / LINE;
    size_t *table = malloc(bytes);
    if (!table) {
        exit(1);
    }
    for (size_t line = 0; line < lines; line++) {
        table[line * LINE] = line * LINE;
    }
    for (size_t line = lines - 1; line > 0; line--) {
        size_t other = (size_t)rand() % line;
        size_t next = table[line * LINE];
        table[line * LINE] = table[other * LINE];
        table[other * LINE] = next;
    }
    return table;
}

int main(void) {
    printf("addition: %.1f ns\n", least(add, NULL));
    printf("call through a pointer: %.1f ns\n", least(call, NULL));
    for (size_t kilobytes = 512; kilobytes <= 65536; kilobytes *= kilobytes < 4096 ? 8 : 16) {
        size_t *table = walk_through(kilobytes * 1024);
        printf("read at random within %zu kB: %.0f ns\n", kilobytes, least(read_at_random, table));
        free(table);
    }
    return 0;
}
