/* value: a case file on standard input, the lines of its valuation or of its refusal on standard output; the program
 * `value` again, in C over the library. embed/run builds and runs it. */
#include <stdio.h>

#include "kuyeshan.h"

int main(void) {
    /* One byte more than a case file may have: an input that is too long fills it, and is refused and never cut. */
    static uint8_t bytes[KUYESHAN_LARGEST + 1], out[KUYESHAN_LARGEST];
    uint64_t line, written;

    size_t length = fread(bytes, 1, sizeof bytes, stdin);
    if (ferror(stdin)) {
        perror("value");
        return 2;
    }
    uint64_t number = kuyeshan_value(bytes, length, out, sizeof out, &line, &written);
    if (number != 0) {
        kuyeshan_refusal_line(number, line, out, sizeof out, &written);
    }
    if (fwrite(out, 1, written, stdout) != written || fflush(stdout) != 0) {
        perror("value");
        return 2;
    }
    return 0;
}
