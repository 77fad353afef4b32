/* member: values the member of examples/short.case as plain numbers, with no case file, and prints the line that the
 * program `value` prints for it. The plan's unit is made by two amendments here. embed/run builds and runs it. */
#include <inttypes.h>
#include <stdio.h>

#include "kuyeshan.h"

int main(void) {
    /* 10 percent, retirement at 65, paid yearly, 60.00 of yearly benefit a year of service at first, method CD; assets
     * 20.00, 2 years. */
    const uint64_t plan[9] = {1000, 65, 1, 1, 6000, 0, 4, 2000, 2};
    /* Amendment 1 adds 30.00 a year of service, and amendment 4, which rests on it, 10.00 more: that makes 100.00. Were 1
     * struck out, both would go. */
    const uint64_t amendments[2][4] = {{1, 0, 3000, 0}, {4, 1, 1000, 0}};
    /* Person 1, who entered at 63 and is 64; a flat plan asks for no salary. */
    const uint64_t member[5] = {7, 1, 63, 64, 0};
    uint32_t rows[424] = {0};
    uint64_t figures[4];

    /* The short table: nobody leaves before 65, and nobody lives on. */
    for (int age = 15; age <= 120; age++) {
        uint32_t *row = rows + 4 * (age - 15);
        row[0] = age < 65 ? 0 : 1000000;
        row[3] = age < 64 ? 1000 : 1100;
    }
    uint64_t number = kuyeshan_value_member(plan, amendments, 2, rows, member, figures);
    if (number != 0) {
        printf("refused=%" PRIu64 ",0\n", number);
        return 0;
    }
    printf("member=%" PRIu64, member[0]);
    for (int j = 0; j < 4; j++) {
        printf(",%" PRIu64 ".%02" PRIu64, figures[j] / 100, figures[j] % 100);
    }
    printf("\n");
    return 0;
}
