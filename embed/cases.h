/* The cases that answers.c and stack.c give to the library. They stand on standard input one after another, a number's
 * little end first, as x86-64 has it:
 *   f   its length and the length of an output buffer, 4 bytes each, then a case file
 *   m   the plan, the count of its amendments in 8 bytes, as many amendments, the rows and the member, as
 *       kuyeshan_value_member takes them
 *   w   the length of an output buffer in 4 bytes; then the plan with its amendments and rows as before, the count of the
 *       members in 8 bytes and as many members, as kuyeshan_write_case takes them */
#ifndef CASES_H
#define CASES_H

#include <stdint.h>
#include <stdio.h>

/* The longest file, the longest buffer and the longest lists, of amendments and of members, that are tried. */
enum { FILE_ROOM = 1 << 20, ROOM = 70000, LISTED = 1000, MEMBERS = 2000 };

/* The case that was read last. */
static uint8_t bytes[FILE_ROOM];
static size_t length, room, amendments_count, members_count;
static uint64_t plan[9], amendments[LISTED][4], member[5], members[MEMBERS][5];
static uint32_t rows[424];

static int got(void *into, size_t size) {
    return fread(into, 1, size, stdin) == size;
}

static int got_file(void) {
    uint32_t lengths[2];
    if (!got(lengths, sizeof lengths)) {
        return 0;
    }
    length = lengths[0];
    room = lengths[1];
    return length <= FILE_ROOM && room <= ROOM && got(bytes, length);
}

/* A count and as many elements of a size. What an earlier case left in the list stays there beyond its end. */
static int got_list(void *list, size_t size, size_t most, size_t *count) {
    uint64_t counted;
    if (!got(&counted, sizeof counted) || counted > most) {
        return 0;
    }
    *count = counted;
    return got(list, counted * size);
}

static int got_plan(void) {
    return got(plan, sizeof plan) && got_list(amendments, sizeof amendments[0], LISTED, &amendments_count) &&
           got(rows, sizeof rows);
}

static int got_member(void) {
    return got_plan() && got(member, sizeof member);
}

static int got_values(void) {
    uint32_t given;
    if (!got(&given, sizeof given) || given > ROOM) {
        return 0;
    }
    room = given;
    return got_plan() && got_list(members, sizeof members[0], MEMBERS, &members_count);
}

/* Reads each case, and gives it to the one for its letter. It ends with 0 where that answers 0, and where a case is cut
 * short or begins with another letter. */
static int give_each(int (*to_file)(void), int (*to_member)(void), int (*to_values)(void)) {
    int letter, good = 1;
    while (good && (letter = getchar()) != EOF) {
        good = letter == 'f'   ? got_file() && to_file()
               : letter == 'm' ? got_member() && to_member()
                               : letter == 'w' && got_values() && to_values();
    }
    return good;
}

#endif
