/* write: a plan with two members, held as plain numbers, is written as its case file, and the file is valued; printed are
 * the file and then its lines. embed/run builds and runs it. */
#include <stdio.h>

#include "kuyeshan.h"

/* No case file is longer than this, nor are the lines of one. */
static uint8_t file[KUYESHAN_LARGEST], lines[KUYESHAN_LARGEST];

/* The short table: nobody leaves before 65, and nobody lives on. */
static void fill(uint32_t rows[424]) {
    for (int age = 15; age <= 120; age++) {
        uint32_t *row = rows + 4 * (age - 15);
        row[0] = age < 65 ? 0 : 1000000;
        row[1] = row[2] = 0;
        row[3] = age < 64 ? 1000 : 1100;
    }
}

static int printed(const uint8_t *text, size_t length) {
    return fwrite(text, 1, length, stdout) == length && fflush(stdout) == 0;
}

int main(void) {
    /* 10 percent, retirement at 65, paid yearly, 60.00 of yearly benefit a year of service at first, method CD; assets
     * 20.00, 2 years. */
    const uint64_t plan[9] = {1000, 65, 1, 1, 6000, 0, 4, 2000, 2};
    /* What was added to the 60.00 later: 30.00, and 10.00 that rest on them. */
    const uint64_t amendments[2][4] = {{1, 0, 3000, 0}, {4, 1, 1000, 0}};
    /* The ids rise; the last number is the yearly pay in cents. */
    const uint64_t members[2][5] = {{7, 1, 63, 64, 0}, {9, 2, 40, 55, 3125050}};
    uint32_t rows[424];
    uint64_t length, line = 0, written;

    fill(rows);
    uint64_t number = kuyeshan_write_case(plan, amendments, 2, rows, members, 2, file, sizeof file, &length);
    if (number == 0) {
        number = kuyeshan_value(file, length, lines, sizeof lines, &line, &written);
    }
    /* Where the numbers are refused, no file is written, and the refusal, which has line 0, is printed alone. */
    if (number != 0) {
        length = 0;
        kuyeshan_refusal_line(number, line, lines, sizeof lines, &written);
    }
    if (!printed(file, length) || !printed(lines, written)) {
        perror("write");
        return 2;
    }
    return 0;
}
