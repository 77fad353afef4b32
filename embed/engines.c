/* engines: how long each export that values takes. They all give the same bytes, so that only the time shows which engine
 * worked them. Reads a case file of many members that is accepted; exits 1 where the plain engine takes less than so many
 * times as long as the shared one, as the argument says, or kuyeshan_value more than half of the plain one's time. embed/run builds it; tests/engines.py runs it. */
#define _POSIX_C_SOURCE 199309L
#include <stdio.h>
#include <stdlib.h>
#include <time.h>

#include "exports.h"

enum { ROUNDS = 20 };

static uint8_t bytes[KUYESHAN_LARGEST], out[KUYESHAN_LARGEST];

static double microseconds(void) {
    struct timespec now;
    clock_gettime(CLOCK_MONOTONIC, &now);
    return now.tv_sec * 1e6 + now.tv_nsec / 1e3;
}

static double taken(int export, size_t length) {
    uint64_t line, written;
    double start = microseconds();
    exports[export].value(bytes, length, out, sizeof out, &line, &written);
    return microseconds() - start;
}

/* The least that each takes. They take turns, so that what else the machine does slows all of them, and the first round
 * doesn't count. */
static void time_all(size_t length, double best[EXPORTS]) {
    for (int round = 0; round <= ROUNDS; round++) {
        for (int j = 0; j < EXPORTS; j++) {
            double now = taken(j, length);
            best[j] = round <= 1 || now < best[j] ? now : best[j];
        }
    }
}

int main(int count, char **arguments) {
    uint64_t line, written;
    double least = count == 2 ? atof(arguments[1]) : 0;
    size_t length = fread(bytes, 1, sizeof bytes, stdin);
    if (least <= 0 || kuyeshan_value(bytes, length, out, sizeof out, &line, &written) != 0) {
        puts("there is no argument, or the file is refused");
        return 1;
    }
    double best[EXPORTS];
    time_all(length, best);
    double plain_to_shared = best[VALUE_PLAIN] / best[VALUE_SHARED], value_to_plain = best[VALUE] / best[VALUE_PLAIN];
    for (int j = 0; j < EXPORTS; j++) {
        printf("%s%s %.0f", j > 0 ? ", " : "", exports[j].name, best[j]);
    }
    printf(" microseconds; plain %.1f times shared, value %.2f times plain\n", plain_to_shared, value_to_plain);
    if (plain_to_shared < least) {
        printf("value_plain takes less than %.1f times as long as value_shared\n", least);
    }
    if (value_to_plain > 0.5) {
        puts("value takes more than half as long as value_plain");
    }
    return plain_to_shared < least || value_to_plain > 0.5;
}
