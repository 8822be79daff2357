/* Worst-case response times of the tasks of a table text, by the proved library (tools/library.sh).
 *
 * Every function takes every text, number and buffer, and answers one number. Below 2^32 it is the
 * answer; from 2^32 on it is a refusal, whose number and line the functions at the end take out. The
 * refusals of a text are 1 to 11 and 17, 15 and 16 where it has access lines, and 18 where line 1 names
 * the ways; 12 and 13 are those of a method and a position, 19 and 20 those of a partner's list, 21 to 23
 * those of a table that earliest deadline first is not asked of, 21, 22 and 24 those of a replay, and 14 that
 * of a buffer. docs/RULES.md says when each is given.
 *
 * No function keeps anything from one call to the next: the answer, and every byte that is written, come
 * from the text, the numbers and the length of the buffer alone. So calls may be made in any order and by
 * several threads at once, each with a buffer of its own, which need not be cleared.
 */
#ifndef CRPD_H
#define CRPD_H

#include <stddef.h>
#include <stdint.h>

/* No report is longer. */
#define CRPD_REPORT_MOST 2746

/* No explanation is longer. */
#define CRPD_EXPLANATION_MOST 1348

/* No text of what is found of a list is longer. */
#define CRPD_FINDINGS_MOST 640

/* No accepted table text is longer, access lines and all, and neither is that of a scaled table. */
#define CRPD_TABLE_MOST 16384

/* No page of ticks is longer. */
#define CRPD_TICKS_MOST 2000

/* The response, in ticks, of the task at a position (from 0) under a method (0 to 5), or 0 where the
 * task is unschedulable: the largest over the accesses that may block it, if there are any. Method 3 is
 * never larger than 1, 4 never larger than 2, and 5 never larger than 3 and 4, where unschedulable counts as
 * larger than any number. */
uint64_t crpd_answer(const uint8_t *text, size_t text_len, uint64_t method, uint64_t position);

/* The length of the report, which then stands at the start of out. What follows it in out, and all of
 * out where the report is refused, stays as it was. */
uint64_t crpd_report(const uint8_t *text, size_t text_len, uint8_t *out, size_t out_len);

/* The length of the explanation of what crpd_answer gives for the same method and position, which then
 * stands at the start of out: a line `X` with what the task needs, whatever its limit is, and how long it
 * is blocked, and a line `I` for each task above it with what that adds. What follows it in out, and all of out where it is refused,
 * stays as it was. */
uint64_t crpd_explain(const uint8_t *text, size_t text_len, uint64_t method, uint64_t position, uint8_t *out, size_t out_len);

/* Reads the table and writes its text: the length of that text, which then stands at the start of out. A table
 * has just one spelling, so of an accepted text it is the same bytes. What follows it in out, and all of out where
 * it is refused, stays as it was. */
uint64_t crpd_rewrite(const uint8_t *text, size_t text_len, uint8_t *out, size_t out_len);

/* How much growth of execution times is left under a method (0 to 5), in thousandths: the greatest k from 1 to 4000
 * with which the table passes, each C replaced by C * k / 1000, rounded up: its text is accepted, and its verdict is
 * yes. 0 where none passes; 1000 is the table as it is, and at 4000 a larger one might pass, too. */
uint64_t crpd_growth(const uint8_t *text, size_t text_len, uint64_t method);

/* The length of the text of the table with that growth, which then stands at the start of out; where the growth is 0,
 * of the table as it is. CRPD_TABLE_MOST bytes are always enough. What follows it in out, and all of out where it is
 * refused, stays as it was. */
uint64_t crpd_scaled(const uint8_t *text, size_t text_len, uint64_t method, uint8_t *out, size_t out_len);

/* Checks a partner's list of responses, lines `R`, name, number or `-` in the table's order, under a method (0 to 5): the
 * length of what is found, which then stands at the start of out: a line `C` for each task with its name and `ok`, `open`
 * or `bad`. A number that is ok is never below what crpd_answer gives; that number itself is never bad, and ok where at
 * most one access may block the task. What follows it in out, and all of out where it is refused, stays as it was. */
uint64_t crpd_check(const uint8_t *text, size_t text_len, const uint8_t *list, size_t list_len, uint64_t method, uint8_t *out, size_t out_len);

/* Whether the tasks are schedulable by earliest deadline first: 1 for yes, 0 for no. Each job is charged its own C
 * and, for its pre-emptions by each task with a smaller deadline, what it has to reload after them. It is yes exactly
 * if at every whole time the jobs that are released and due within that time ask for no more than it. No task may
 * have a jitter, and the table no access line; and the least common multiple of the periods may not be above
 * 250,000,000. */
uint64_t crpd_edf(const uint8_t *text, size_t text_len);

/* Replays the table tick by tick, without a word of the equation: all tasks release a job at tick 0 and then every
 * period, and each tick runs the highest task that has work. The count of ticks, at most 100000, by which the first job
 * of the task at a position has ended, or 0 where it is unfinished at its deadline. It is what crpd_answer gives under
 * method 0. Refused are a table with a jitter above 0 (21) and one with an access line (22), and, behind 13, a deadline
 * of the task above 100000 (24). */
uint64_t crpd_replay(const uint8_t *text, size_t text_len, uint64_t position);

/* The length of the lines that say which task runs in each of 100 ticks of that replay, from one on, as far as a replay
 * goes, which then stand at the start of out: a tick, and the name of the task, or - where none has work. What follows
 * them in out, and all of out where they are refused, stays as it was. */
uint64_t crpd_ticks(const uint8_t *text, size_t text_len, uint64_t from, uint8_t *out, size_t out_len);

/* As crpd_report, for what the program crpd-report prints: the report, or the line of the text's refusal. Its
 * only refusal is 14, where out is too short. */
uint64_t crpd_print(const uint8_t *text, size_t text_len, uint8_t *out, size_t out_len);

static inline int crpd_is_refusal(uint64_t answer) { return answer >> 32 != 0; }
static inline unsigned crpd_refusal_number(uint64_t answer) { return (unsigned)(answer >> 32); }
static inline unsigned crpd_refusal_line(uint64_t answer) { return (unsigned)(answer & 0xffffffffu); }

#endif
