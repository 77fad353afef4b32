/* Kuyeshan for C: the valuation of defined-benefit pension plans by five cost methods. Link with libkuyeshan.a, which
 * `bin/build kuyeshan` writes to crates/kuyeshan/out/; beside memcpy and memset it needs nothing, and it runs on every
 * x86-64 processor.
 *
 * Promised, and proved on every input: each function meets the contract that crates/kuyeshan/src/lib.rt states, an
 * equation with the definitions of the rules; it always returns, and does nothing undefined. Nothing checks these
 * declarations against that file, nor what a caller passes.
 *
 * Answers: 0, or the number of a refusal (rule 12.3); its line is the line of the case file, or 0 where it has none.
 * What is wrong, in the words of bin/refusals.tsv:
 *   the sender of the file mends:
 *     1   over 65,536 bytes
 *     2   the file ends where a line, or the rest of one, is due
 *     3   there are bytes after the end line
 *     4   the end line's number isn't the count of members
 *   the plan actuary mends:
 *     10  the key, the form, a word or the age of a row is wrong
 *     11  a number is outside its range
 *     12  the average doesn't suit the formula
 *     14  the death rate at age 120 isn't 1000000
 *     15  the weight is out of range, or below that of the age before
 *     53  an amendment's number isn't above the one before, or it is the twenty-first
 *     54  an amendment rests on a number that isn't listed before it
 *     55  the unit with the additions in force is beyond its range
 *   the payroll office mends:
 *     20  neither a member nor an end line, or its form is wrong
 *     21  the id is out of range, or not above the one before
 *     22  the entry age is below 15, or not below the retirement age
 *     23  the age is below the entry age, or above the retirement age
 *     24  the salary is over 1000000.00 a year
 *     25  the benefit is over 1000000.00 a year
 *     27  a member after 1,000 members
 *     28  the person's number isn't between 1 and 999999999
 *     29  the benefits of this person's lines so far sum to over 1000000.00 a year
 *   the calling program mends:
 *     30  what is to be printed or written is longer than the buffer
 * 13 and 26 are retired, and never given again: 13 was for rates that sum to over 1000000, which rates for one cause alone
 * may do, and 26 for a benefit that falls, and none does.
 *
 * Memory: all of it is the caller's. No pointer is null, not even with a length of 0, and what one of them points to
 * overlaps nothing that another one points to. The library keeps no pointer, allocates nothing and has no state, so
 * threads may call it at the same time. A call takes less than 192 KiB of stack, which is measured and not proved; a test
 * holds it.
 */
#ifndef KUYESHAN_H
#define KUYESHAN_H

#include <stddef.h>
#include <stdint.h>

#ifdef __cplusplus
extern "C" {
#endif

/* No case file that is accepted is longer. An output buffer of this size is what the program `value` has. */
#define KUYESHAN_LARGEST 65536

/* Rule 5.1, reads a case file for its form alone: 0, or the first refusal. Sets *line. */
uint64_t kuyeshan_read(const uint8_t *case_bytes, size_t case_length, uint64_t *line);

/* Rule 5.2, accepts a case file, its form and its ranges: 0, or the first refusal. Sets *line. */
uint64_t kuyeshan_accept(const uint8_t *case_bytes, size_t case_length, uint64_t *line);

/* Values a case file. 0: the lines stand in the first *written bytes of `out`, with no 0 after them, and *line is 0.
 * Else the first refusal: *line is its line, *written is 0. Bytes of `out` that no line takes stay as they were. */
uint64_t kuyeshan_value(const uint8_t *case_bytes, size_t case_length, uint8_t *out, size_t out_length, uint64_t *line,
                        uint64_t *written);

/* The same by the plain engine, which works each member's factors anew, and by the shared engine, which works them once
 * for all members; kuyeshan_value takes one of them by the count of members. The answer, *line, *written and every byte of
 * `out` are the same by each, proved. */
uint64_t kuyeshan_value_plain(const uint8_t *case_bytes, size_t case_length, uint8_t *out, size_t out_length,
                              uint64_t *line, uint64_t *written);
uint64_t kuyeshan_value_shared(const uint8_t *case_bytes, size_t case_length, uint8_t *out, size_t out_length,
                               uint64_t *line, uint64_t *written);

/* Writes the line `refused=number,line`, with its byte 10, to the first *written bytes of `out`, and answers 0; or, where
 * it is longer than `out`, changes nothing there, sets *written to 0 and answers 30. 50 bytes are always enough. */
uint64_t kuyeshan_refusal_line(uint64_t number, uint64_t line, uint8_t *out, size_t out_length, uint64_t *written);

/* Values one member of a plan, all as plain numbers.
 *   plan      interest and, but for formula flat, unit in basis points; money in cents:
 *             interest, retire, pay (1 a pension paid by the year, 12 by the month),
 *             formula (1 flat, 2 career, 3 final), unit, average,
 *             method (1 AB, 2 BD, 3 BP, 4 CD, 5 CP), assets, years
 *   amendments, amendments_count
 *             the plan's amendments, up to 20, and how many they are; there may be none. Each is four numbers: its own
 *             number, which is above the one before; the number of an earlier one on which it rests, or 0; what it adds to
 *             the unit; and 1 where it is struck out, or 0. It is in force where it isn't struck and what it rests on, if
 *             anything, is in force (rule 2.12). The unit in `plan` is the heading's; to it what the amendments in force
 *             add is added, and the sum is the unit valued (rule 2.13). In C before C23 a compiler asked for -Wpedantic
 *             may want an array that isn't const cast to `const uint64_t (*)[4]`
 *   rows      for each age from 15 to 120 in turn: death, withdrawal and disability in millionths, each the rate of its
 *             cause alone, and the weight
 *   member    id, person, entry age, age, salary in cents a year
 *   figures   in whole cents, halfway to the even cent (rule 6.1): the yearly benefit, its present value, the
 *             normal cost, the liability
 * 0, or the first refusal, from 10 on, which leaves `figures` as they were: of the plan's numbers, then of the amendments
 * in turn, then of the rows, then of the member (rules 5.3 and 5.6). It is never 29: to a lone member's benefit nothing is
 * added, and 25 asks for it first (rule 5.5).
 *
 * A program that was written before there were amendments must be changed and built again: the function's name is the
 * same, but it takes two arguments more, and a compiler that reads this header notices. That `plan` has nine numbers, eight
 * before there was pay, and `member` five, four before there was person, is no part of a type: no compiler has to notice
 * that. */
uint64_t kuyeshan_value_member(const uint64_t plan[9], const uint64_t (*amendments)[4], size_t amendments_count,
                               const uint32_t rows[424], const uint64_t member[5], uint64_t figures[4]);

/* Writes a plan with its amendments, its rows and its members, all as plain numbers, as their case file. Read again it
 * gives the same numbers, and no other bytes do.
 *   plan, amendments, amendments_count, rows
 *             as for kuyeshan_value_member; the unit stays the heading's, and every amendment is written, in force or not
 *   members, members_count
 *             the members, up to 1,000, and how many they are; there may be none. Each is five numbers, as `member` is for
 *             kuyeshan_value_member, and its id is above the one before. What is said of casting the amendments goes for
 *             them too
 * 0: the file stands in the first *written bytes of `out`, with no 0 after them. Else the first refusal, which has no line:
 * *written is 0. Bytes of `out` that no file takes stay as they were.
 * First come the plan's refusals, as for kuyeshan_value_member; then 27, for more than 1,000 members; then those of the
 * first wrong member, which is judged after the members before it: 21, 28, 22 to 25 and 29; last 30, where the file is
 * longer than `out`. KUYESHAN_LARGEST bytes are always enough. */
uint64_t kuyeshan_write_case(const uint64_t plan[9], const uint64_t (*amendments)[4], size_t amendments_count,
                             const uint32_t rows[424], const uint64_t (*members)[5], size_t members_count, uint8_t *out,
                             size_t out_length, uint64_t *written);

#ifdef __cplusplus
}
#endif

#endif
