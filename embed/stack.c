/* stack: how much of its stack each export of kuyeshan.h takes, in bytes. It is called on each of the cases that cases.h
 * reads, in a thread whose stack is painted before. Printed is the most that was changed of it, from the deepest byte on;
 * that is with what the thread takes itself. The argument is what an export has to stay below; exits 1 where one doesn't.
 * embed/run builds it; tests/stack.py runs it. */
#define _POSIX_C_SOURCE 200809L
#include <pthread.h>
#include <stdio.h>
#include <stdlib.h>
#include <string.h>

#include "cases.h"
#include "kuyeshan.h"

/* A call that takes more than is promised has room here too, so that it is measured. */
enum { PAINT = 0xA5, STACK = 1 << 19, OF_FILE = 6, OF_MEMBER = OF_FILE, OF_VALUES, CALLS };

static _Alignas(4096) uint8_t stack[STACK];
static pthread_attr_t painted;

static uint8_t out[ROOM];
static uint64_t line, written, figures[4];

static void reads(void) { kuyeshan_read(bytes, length, &line); }
static void accepts(void) { kuyeshan_accept(bytes, length, &line); }
static void values(void) { kuyeshan_value(bytes, length, out, room, &line, &written); }
static void values_plain(void) { kuyeshan_value_plain(bytes, length, out, room, &line, &written); }
static void values_shared(void) { kuyeshan_value_shared(bytes, length, out, room, &line, &written); }
static void refuses(void) { kuyeshan_refusal_line(UINT64_MAX, UINT64_MAX, out, room, &written); }
static void values_member(void) {
    kuyeshan_value_member(plan, amendments, amendments_count, rows, member, figures);
}
static void writes_case(void) {
    kuyeshan_write_case(plan, amendments, amendments_count, rows, members, members_count, out, room, &written);
}

/* Those that a case file is for, the one for a member in plain values, and the one for all values of a file. */
static struct call {
    const char *name;
    void (*export)(void);
    size_t most;
} calls[CALLS] = {
    {"read", reads, 0},
    {"accept", accepts, 0},
    {"value", values, 0},
    {"value_plain", values_plain, 0},
    {"value_shared", values_shared, 0},
    {"refusal_line", refuses, 0},
    {"value_member", values_member, 0},
    {"write_case", writes_case, 0},
};

static void *run(void *call) {
    ((struct call *)call)->export();
    return NULL;
}

/* 0 where there is no thread. */
static int measure(struct call *call) {
    pthread_t thread;
    memset(stack, PAINT, STACK);
    if (pthread_create(&thread, &painted, run, call) != 0 || pthread_join(thread, NULL) != 0) {
        return 0;
    }
    size_t kept = 0;
    while (kept < STACK && stack[kept] == PAINT) {
        kept++;
    }
    call->most = STACK - kept > call->most ? STACK - kept : call->most;
    return 1;
}

static int measures_file(void) {
    int good = 1;
    for (int j = 0; good && j < OF_FILE; j++) {
        good = measure(&calls[j]);
    }
    return good;
}

static int measures_member(void) {
    return measure(&calls[OF_MEMBER]);
}

static int measures_values(void) {
    return measure(&calls[OF_VALUES]);
}

int main(int count, char **arguments) {
    if (count != 2 || pthread_attr_init(&painted) != 0 || pthread_attr_setstack(&painted, stack, STACK) != 0 ||
        !give_each(measures_file, measures_member, measures_values)) {
        puts("there is no argument, no thread on the painted stack, or no such case");
        return 1;
    }
    size_t promised = strtoull(arguments[1], NULL, 10);
    for (int j = 0; j < CALLS; j++) {
        printf("%s%s %zu", j > 0 ? ", " : "", calls[j].name, calls[j].most);
    }
    printf(" bytes of stack, and less than %zu promised\n", promised);
    int good = 1;
    for (int j = 0; j < CALLS; j++) {
        if (calls[j].most == 0 || calls[j].most >= promised) {
            printf("%s is not called, or takes more than is promised\n", calls[j].name);
            good = 0;
        }
    }
    return !good;
}
