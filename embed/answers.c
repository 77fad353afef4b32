/* answers: what the library answers to each of many cases, which cases.h reads.
 *   f   It prints what reading and accepting answer, a line each; then, of each export that values it, a line with what it
 *       answers, the bytes of the buffer and the 16 after it, which were filled with FILL before.
 *   m   It prints the answer and the figures, which were filled before with what no figure can be.
 *   w   It prints the answer and the count of bytes written, then the bytes of the buffer and the 16 after it. They were
 *       painted before: no byte is like its neighbours, or like one of a text.
 * embed/run builds it; tests/library.py runs it for the tests that hold what it prints to another program. */
#include <inttypes.h>
#include <stdio.h>
#include <string.h>

#include "cases.h"
#include "exports.h"

enum { FILL = 165, AFTER = 16 };

static uint8_t out[ROOM + AFTER];

static int values(int export) {
    uint64_t line = UINT64_MAX, written = UINT64_MAX;
    memset(out, FILL, sizeof out);
    uint64_t number = exports[export].value(bytes, length, out, room, &line, &written);
    printf("%s=%" PRIu64 ",%" PRIu64 ",%" PRIu64 "\n", exports[export].name, number, line, written);
    return fwrite(out, 1, room + AFTER, stdout) == room + AFTER;
}

static int answers_file(void) {
    uint64_t line = UINT64_MAX;
    uint64_t number = kuyeshan_read(bytes, length, &line);
    printf("read=%" PRIu64 ",%" PRIu64 "\n", number, line);
    line = UINT64_MAX;
    number = kuyeshan_accept(bytes, length, &line);
    printf("accept=%" PRIu64 ",%" PRIu64 "\n", number, line);
    int good = 1;
    for (int j = 0; good && j < EXPORTS; j++) {
        good = values(j);
    }
    return good;
}

static int answers_member(void) {
    uint64_t figures[4];
    for (int j = 0; j < 4; j++) {
        figures[j] = UINT64_MAX - j;
    }
    printf("member=%" PRIu64, kuyeshan_value_member(plan, amendments, amendments_count, rows, member, figures));
    for (int j = 0; j < 4; j++) {
        printf(",%" PRIu64, figures[j]);
    }
    return printf("\n") > 0;
}

static int answers_values(void) {
    uint64_t written = UINT64_MAX;
    for (size_t j = 0; j < sizeof out; j++) {
        out[j] = 128 + j % 127;
    }
    uint64_t number = kuyeshan_write_case(plan, amendments, amendments_count, rows, members, members_count, out, room,
                                          &written);
    printf("write=%" PRIu64 ",%" PRIu64 "\n", number, written);
    return fwrite(out, 1, room + AFTER, stdout) == room + AFTER;
}

int main(void) {
    return !give_each(answers_file, answers_member, answers_values) || fflush(stdout) != 0;
}
