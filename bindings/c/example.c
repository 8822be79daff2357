/* Prints the response of every task of a table under every method, then the report, and then why combined
 * (method 5) answers for the last task what it does, and after that the table itself, read and written again.
 * Then comes how much growth is left under every method, and the table with the growth that combined leaves.
 * Then comes whether it is schedulable by earliest deadline first, when the first job of the last task ends in
 * a replay, and the last three ticks of it. The table is read from standard input. Then comes the same
 * explanation for a task that an access to a shared device may block, and last what is found of a list of
 * responses of that table. */
#include <stdio.h>

#include "crpd.h"

/* b and c share a device. While c has it, for 2 ticks, b waits, and a may pre-empt c. */
static const char shared[] = "K\t4\t1\n"
                             "T\ta\t1\t20\t20\t0\t0\t0\t3\n"
                             "T\tb\t2\t40\t40\t0\t0\t0\t0\n"
                             "T\tc\t3\t60\t60\t0\t0\t3\t3\n"
                             "A\tc\tb\t2\t3\n";

/* Responses that a partner claims of these tasks: b needs 7 ticks, and so far nothing is said of c. */
static const char claimed[] = "R\ta\t1\n"
                              "R\tb\t6\n"
                              "R\tc\t-\n";

static int refused(uint64_t answer) {
    fprintf(stderr, "refused: number %u, line %u\n", crpd_refusal_number(answer), crpd_refusal_line(answer));
    return 1;
}

int main(void) {
    static uint8_t text[16385], out[CRPD_TABLE_MOST];
    size_t len = fread(text, 1, sizeof text, stdin);
    uint64_t position = 0;
    for (;; position++) {
        uint64_t answer = crpd_answer(text, len, 0, position);
        if (crpd_is_refusal(answer) && crpd_refusal_number(answer) == 13)
            break;
        if (crpd_is_refusal(answer))
            return refused(answer);
        printf("task %u:", (unsigned)position);
        for (uint64_t method = 0; method < 6; method++) {
            answer = crpd_answer(text, len, method, position);
            if (answer == 0)
                printf(" none");
            else
                printf(" %u", (unsigned)answer);
        }
        printf("\n");
    }
    uint64_t written = crpd_report(text, len, out, sizeof out);
    if (crpd_is_refusal(written))
        return refused(written);
    fwrite(out, 1, (size_t)written, stdout);
    written = crpd_explain(text, len, 5, position - 1, out, sizeof out);
    if (crpd_is_refusal(written))
        return refused(written);
    fwrite(out, 1, (size_t)written, stdout);
    written = crpd_rewrite(text, len, out, sizeof out);
    if (crpd_is_refusal(written))
        return refused(written);
    fwrite(out, 1, (size_t)written, stdout);
    printf("growth:");
    for (uint64_t method = 0; method < 6; method++)
        printf(" %u", (unsigned)crpd_growth(text, len, method));
    printf("\n");
    written = crpd_scaled(text, len, 5, out, sizeof out);
    if (crpd_is_refusal(written))
        return refused(written);
    fwrite(out, 1, (size_t)written, stdout);
    uint64_t verdict = crpd_edf(text, len);
    if (crpd_is_refusal(verdict))
        return refused(verdict);
    printf("earliest deadline first: %s\n", verdict == 1 ? "yes" : "no");
    uint64_t end = crpd_replay(text, len, position - 1);
    if (crpd_is_refusal(end))
        return refused(end);
    printf("replay: %u\n", (unsigned)end);
    written = crpd_ticks(text, len, 99997, out, sizeof out);
    if (crpd_is_refusal(written))
        return refused(written);
    fwrite(out, 1, (size_t)written, stdout);
    written = crpd_explain((const uint8_t *)shared, sizeof shared - 1, 5, 1, out, sizeof out);
    if (crpd_is_refusal(written))
        return refused(written);
    fwrite(out, 1, (size_t)written, stdout);
    written = crpd_check((const uint8_t *)shared, sizeof shared - 1, (const uint8_t *)claimed, sizeof claimed - 1, 5, out, sizeof out);
    if (crpd_is_refusal(written))
        return refused(written);
    fwrite(out, 1, (size_t)written, stdout);
    return 0;
}
