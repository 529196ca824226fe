/* A host that shows from whom a right can come to a receiver, and how far: to a firm, and to a visitor
 * from abroad, to whom fewer may pass it on. Then a delegation is revoked, and the firm is looked at
 * again. */
#include <inttypes.h>
#include <stdio.h>
#include <stdlib.h>

#include "seatreg.h"

enum { MAKER = SEATREG_OWNER, EAST, SOUTH, DEALER, NORTH, FIRM, VISITOR, SUBJECTS };

/* A mark is one bit, and what it stands for is the host's choice. */
#define ABROAD 1u

static uint8_t block[SEATREG_BLOCK_SIZE];     /* the register */
static uint8_t out[SEATREG_ORDER_SIZE];       /* subjects and limits, in their order */
static uint8_t answers[SEATREG_ANSWERS_SIZE]; /* of the last call that was accepted */

/* Ends the program if a call didn't return what this host expects. */
static void check(const char *call, uint32_t returned, uint32_t expected)
{
    if (returned == expected)
        return;
    fprintf(stderr, "%s returned %" PRIu32 ", not %" PRIu32 "\n", call, returned, expected);
    exit(EXIT_FAILURE);
}

static void open_and_enrol(void)
{
    check("open", seatreg_open(block, sizeof block, answers, sizeof answers), SEATREG_ACCEPTED);
    for (int subject = EAST; subject < SUBJECTS; subject++) {
        uint32_t marks = subject == VISITOR ? ABROAD : 0;
        check("enrol", seatreg_enrol(block, sizeof block, marks, answers, sizeof answers), SEATREG_ACCEPTED);
    }
}

static void grant(uint32_t giver, uint32_t receiver, uint32_t weight, uint32_t bar)
{
    uint32_t r = seatreg_grant(block, sizeof block, giver, receiver, weight, 0, bar, answers, sizeof answers);
    check("grant", r, SEATREG_ACCEPTED);
    printf("grant %" PRIu32 "-%" PRIu32 " weight %" PRIu32 "%s\n", giver, receiver, weight, bar ? ", not abroad" : "");
}

/* The order under our step table, so the table's text is empty; its pointer is not null even so. */
static uint32_t order(uint32_t receiver)
{
    const uint8_t *ours = (const uint8_t *)"";

    return seatreg_order(block, sizeof block, receiver, ours, 0, out, sizeof out, answers, sizeof answers);
}

/* Reach answers the same number for a giver that isn't the receiver. */
static void check_limit(uint32_t giver, uint32_t receiver, uint32_t limit)
{
    if (giver == receiver)
        return;
    check("reach", seatreg_reach(block, sizeof block, giver, receiver, answers, sizeof answers), SEATREG_ACCEPTED);
    check("limit", (uint32_t)seatreg_answer(answers, 0), limit);
}

static void show_order(uint32_t receiver)
{
    int32_t bytes;

    check("order", order(receiver), SEATREG_ACCEPTED);
    bytes = seatreg_answer(answers, 0);
    printf("order for %" PRIu32 ", %" PRId32 " bytes:\n", receiver, bytes);
    for (int32_t i = 0; i < bytes; i += 2) {
        printf("  %d %d%s\n", out[i], out[i + 1], out[i] == receiver ? ", the receiver" : "");
        check_limit(out[i], receiver, out[i + 1]);
    }
}

int main(void)
{
    uint32_t r;

    open_and_enrol();
    grant(MAKER, NORTH, SEATREG_UNLIMITED, 0);
    grant(NORTH, EAST, SEATREG_UNLIMITED, 0);
    grant(EAST, DEALER, 20, ABROAD); /* the dealer may not pass this on to anyone abroad */
    grant(MAKER, SOUTH, 9, 0);
    grant(SOUTH, DEALER, 7, 0);
    grant(DEALER, FIRM, 6, 0);
    show_order(FIRM);
    show_order(VISITOR); /* to it the dealer can pass on only what came from SOUTH */

    r = seatreg_revoke(block, sizeof block, MAKER, MAKER, NORTH, answers, sizeof answers);
    check("revoke", r, SEATREG_ACCEPTED);
    printf("revoke %d-%d\n", MAKER, NORTH);
    show_order(FIRM);

    check("order", order(MAKER), SEATREG_TO_OWNER);
    printf("order for %d: refused with %d\n", MAKER, SEATREG_TO_OWNER);
    check("order", order(SUBJECTS), SEATREG_NOT_ENROLLED);
    printf("order for %d: refused with %d\n", SUBJECTS, SEATREG_NOT_ENROLLED);
    return EXIT_SUCCESS;
}
