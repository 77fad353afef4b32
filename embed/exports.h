/* The exports that value a case file, by name: what answers.c and rooms.c hold one of them to, they hold all to, and
 * engines.c times each. */
#ifndef EXPORTS_H
#define EXPORTS_H

#include "kuyeshan.h"

enum { VALUE, VALUE_PLAIN, VALUE_SHARED, EXPORTS };

static const struct {
    const char *name;
    uint64_t (*value)(const uint8_t *, size_t, uint8_t *, size_t, uint64_t *, uint64_t *);
} exports[EXPORTS] = {
    [VALUE] = {"value", kuyeshan_value},
    [VALUE_PLAIN] = {"value_plain", kuyeshan_value_plain},
    [VALUE_SHARED] = {"value_shared", kuyeshan_value_shared},
};

#endif
