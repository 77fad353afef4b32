/* rooms: what each export that writes lines does with a buffer that just fits, is one byte short, or is empty. Reads a
 * case file that is accepted; exits 1 where an answer or a byte of the buffer is not as promised. embed/run builds and
 * runs it. */
#include <stdio.h>
#include <string.h>

#include "exports.h"

enum { FILL = 0xA5 };

static uint8_t bytes[KUYESHAN_LARGEST], lines[KUYESHAN_LARGEST], out[KUYESHAN_LARGEST];

/* The first `kept` bytes of `out` are the lines', and all others as they were filled. */
static int holds(size_t kept) {
    for (size_t i = kept; i < sizeof out; i++) {
        if (out[i] != FILL) {
            return 0;
        }
    }
    return memcmp(out, lines, kept) == 0;
}

/* A room of so many bytes: what each export answers, and what the buffer holds then. */
static int values(size_t length, size_t room, uint64_t number, size_t wrote) {
    int good = 1;
    for (int j = 0; good && j < EXPORTS; j++) {
        uint64_t line = 1, written = 1;
        memset(out, FILL, sizeof out);
        good = exports[j].value(bytes, length, out, room, &line, &written) == number && line == 0 && written == wrote &&
               holds(wrote);
    }
    return good;
}

static int refuses(size_t room, uint64_t number, size_t wrote) {
    uint64_t written = 1;
    memset(out, FILL, sizeof out);
    memcpy(lines, "refused=27,1116\n", 16);
    return kuyeshan_refusal_line(27, 1116, out, room, &written) == number && written == wrote && holds(wrote);
}

int main(void) {
    uint64_t line, written;
    size_t length = fread(bytes, 1, sizeof bytes, stdin);
    if (kuyeshan_value(bytes, length, lines, sizeof lines, &line, &written) != 0) {
        return 1;
    }
    int good = values(length, written, 0, written) && values(length, written + 1, 0, written) &&
               values(length, written - 1, 30, 0) && values(length, 0, 30, 0);
    good = good && refuses(16, 0, 16) && refuses(17, 0, 16) && refuses(15, 30, 0) && refuses(0, 30, 0);
    puts(good ? "each room as promised" : "a room is not as promised");
    return !good;
}
