/* A host that lists a register, tries two cuts, each on a copy of it, and says of every delegation
 * what the cut makes of it. */
#include <inttypes.h>
#include <stdio.h>
#include <stdlib.h>
#include <string.h>

#include "seatreg.h"

enum { MAKER = SEATREG_OWNER, NORTH, SOUTH, DEALER, GARAGE, FIRM };

/* A mark is one bit, and what it stands for is the host's choice. */
#define TRAINED 1u
#define ABROAD 2u

static uint8_t block[SEATREG_BLOCK_SIZE];
static uint8_t answers[SEATREG_ANSWERS_SIZE];

/* Ends the program if a call was refused. */
static void accept(const char *call, uint32_t refusal)
{
    if (refusal == SEATREG_ACCEPTED)
        return;
    fprintf(stderr, "%s: %s\n", call, seatreg_refusal_text(refusal));
    exit(EXIT_FAILURE);
}

static void enrol(uint32_t marks)
{
    accept("enrol", seatreg_enrol(block, sizeof block, marks, answers, sizeof answers));
}

static void grant(uint32_t giver, uint32_t receiver, uint32_t weight, uint32_t need, uint32_t bar)
{
    accept("grant", seatreg_grant(block, sizeof block, giver, receiver, weight, need, bar, answers, sizeof answers));
}

static void build(void)
{
    accept("open", seatreg_open(block, sizeof block, answers, sizeof answers));
    enrol(TRAINED);          /* NORTH */
    enrol(0);                /* SOUTH */
    enrol(TRAINED);          /* DEALER */
    enrol(TRAINED | ABROAD); /* GARAGE */
    enrol(TRAINED);          /* FIRM */
    grant(MAKER, NORTH, SEATREG_UNLIMITED, 0, 0);
    grant(MAKER, SOUTH, 3, TRAINED, ABROAD);
    grant(NORTH, DEALER, 9, 0, 0);
    grant(SOUTH, DEALER, 2, 0, 0);
    grant(DEALER, GARAGE, 0, 0, 0);
    grant(DEALER, FIRM, 5, 0, 0);
}

/* The names of these marks, if there are any, after a text. */
static void print_marks(const char *before, uint32_t marks)
{
    if (marks != 0)
        printf("%s%s%s%s", before, marks & TRAINED ? " trained" : "", marks & ABROAD ? " abroad" : "",
               marks & ~(TRAINED | ABROAD) ? " others" : "");
}

static void print_delegation(struct seatreg_delegation d)
{
    printf("  %" PRIu32 "-%" PRIu32 " weight %" PRIu32, d.giver, d.receiver, d.weight);
    print_marks(", needs", d.need);
    print_marks(", bars", d.bar);
}

static void print_register(const uint8_t *b)
{
    printf("subjects: %" PRIu32 "\n", seatreg_subjects(b));
    for (uint32_t s = 0; s < seatreg_subjects(b); s++) {
        printf("  %" PRIu32, s);
        print_marks(":", seatreg_marks(b, s));
        printf("\n");
    }
    printf("delegations: %" PRIu32 "\n", seatreg_delegations(b));
    for (uint32_t i = 0; i < seatreg_delegations(b); i++) {
        print_delegation(seatreg_delegation_at(b, i));
        printf("\n");
    }
}

static int same_pair(struct seatreg_delegation d, struct seatreg_delegation e)
{
    return d.giver == e.giver && d.receiver == e.receiver;
}

/* What a cut made of each delegation of `before`. A cut adds none, and both lists rise by giver and
 * receiver, so one walk through both finds which still stand. */
static void print_difference(const uint8_t *before, const uint8_t *after)
{
    uint32_t left = 0;

    for (uint32_t i = 0; i < seatreg_delegations(before); i++) {
        struct seatreg_delegation d = seatreg_delegation_at(before, i), e = d;
        int stands = left < seatreg_delegations(after);
        if (stands) {
            e = seatreg_delegation_at(after, left);
            stands = same_pair(d, e);
        }
        print_delegation(d);
        if (!stands)
            printf(": gone\n");
        else if (e.weight < d.weight)
            printf(": lowered to %" PRIu32 "\n", e.weight);
        else
            printf(": as it was\n");
        if (stands)
            left++;
    }
}

int main(void)
{
    uint8_t copy[SEATREG_BLOCK_SIZE];

    build();
    print_register(block);

    memcpy(copy, block, sizeof block);
    accept("revoke", seatreg_revoke(copy, sizeof copy, MAKER, MAKER, NORTH, answers, sizeof answers));
    printf("revoking %d-%d would drop %" PRId32 " others and lower %" PRId32 ":\n", MAKER, NORTH,
           seatreg_answer(answers, 0), seatreg_answer(answers, 1));
    print_difference(block, copy);

    memcpy(copy, block, sizeof block);
    accept("downgrade", seatreg_downgrade(copy, sizeof copy, MAKER, NORTH, DEALER, 4, answers, sizeof answers));
    printf("downgrading %d-%d to 4 would drop %" PRId32 " others and lower %" PRId32 ":\n", NORTH, DEALER,
           seatreg_answer(answers, 0), seatreg_answer(answers, 1));
    print_difference(block, copy);
    return EXIT_SUCCESS;
}
