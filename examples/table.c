/* A host whose rights fall by two at each step: it lends a step table of its own with every call that
 * reckons reach. Then it shows which texts are refused, and why one register needs one table. */
#include <stdio.h>
#include <string.h>

#include "seatreg.h"

/* A table's text: the line of names, 12 bytes, and 256 lines of at most 8, such as "255 255". The last
 * byte is for the 0 that snprintf writes, which isn't lent. */
struct table {
    char text[12 + 256 * 8 + 1];
    size_t length;
};

static uint8_t block[SEATREG_BLOCK_SIZE], copy[SEATREG_BLOCK_SIZE], answers[SEATREG_ANSWERS_SIZE];
#define BLOCK block, sizeof block
#define TABLE(t) (const uint8_t *)(t).text, (t).length
#define ANSWERS answers, sizeof answers

static void add_line(struct table *t, int weight, int next)
{
    t->length += (size_t)snprintf(t->text + t->length, sizeof t->text - t->length, "%d %d\n", weight, next);
}

/* 255 keeps 255, and every other weight falls by so many. */
static void write_table(struct table *t, int fall)
{
    t->length = (size_t)snprintf(t->text, sizeof t->text, "weight next\n");
    for (int weight = 0; weight < SEATREG_UNLIMITED; weight++)
        add_line(t, weight, weight < fall ? -1 : weight - fall);
    add_line(t, SEATREG_UNLIMITED, SEATREG_UNLIMITED);
}

static void show(const char *call, uint32_t refusal)
{
    if (refusal == SEATREG_ACCEPTED)
        printf("%s: %d, %d, %d\n", call, (int)seatreg_answer(answers, 0), (int)seatreg_answer(answers, 1),
               (int)seatreg_answer(answers, 2));
    else
        printf("%s: refused with %u, %s\n", call, (unsigned)refusal, seatreg_refusal_text(refusal));
}

static void show_register(void)
{
    printf("  standing:");
    for (uint32_t i = 0; i < seatreg_delegations(block); i++) {
        struct seatreg_delegation d = seatreg_delegation_at(block, i);
        printf(" %u-%u:%u", (unsigned)d.giver, (unsigned)d.receiver, (unsigned)d.weight);
    }
    printf("\n");
}

static void open_and_enrol(void)
{
    uint32_t refusal = seatreg_open(BLOCK, ANSWERS);

    for (int subject = 1; subject <= 4 && refusal == SEATREG_ACCEPTED; subject++)
        refusal = seatreg_enrol(BLOCK, 0, ANSWERS);
    show("open, and enrol four", refusal);
}

int main(void)
{
    static struct table by_two, broken, malformed, empty; /* an empty text stands for our table */

    write_table(&by_two, 2);
    open_and_enrol();
    show("grant 0-1:9 by two", seatreg_grant_table(BLOCK, 0, 1, 9, 0, 0, TABLE(by_two), ANSWERS));
    show("grant 1-2:8 by two", seatreg_grant_table(BLOCK, 1, 2, 8, 0, 0, TABLE(by_two), ANSWERS));
    show("grant 1-2:7 by two", seatreg_grant_table(BLOCK, 1, 2, 7, 0, 0, TABLE(by_two), ANSWERS));
    show("reach 2-3 by two", seatreg_reach_table(BLOCK, 2, 3, TABLE(by_two), ANSWERS));
    show("downgrade 0-1 to 6 by two", seatreg_downgrade_table(BLOCK, 0, 0, 1, 6, TABLE(by_two), ANSWERS));
    show_register();

    write_table(&broken, 0); /* no weight falls */
    show("reach 2-3, broken table", seatreg_reach_table(BLOCK, 2, 3, TABLE(broken), ANSWERS));
    malformed = by_two;
    malformed.length--; /* the last line has no end */
    show("reach 2-3, malformed table", seatreg_reach_table(BLOCK, 2, 3, TABLE(malformed), ANSWERS));

    /* A register made under our table. 0-4 holds nothing up, but a cut under the other table lowers all
     * that this one doesn't support. */
    open_and_enrol();
    show("grant 0-1:9", seatreg_grant(BLOCK, 0, 1, 9, 0, 0, ANSWERS));
    show("grant 1-2:8", seatreg_grant(BLOCK, 1, 2, 8, 0, 0, ANSWERS));
    show("grant 2-3:6", seatreg_grant(BLOCK, 2, 3, 6, 0, 0, ANSWERS));
    show("grant 0-4:1", seatreg_grant(BLOCK, 0, 4, 1, 0, 0, ANSWERS));
    show_register();
    memcpy(copy, block, sizeof copy);
    show("revoke 0-4, on a copy", seatreg_revoke_table(copy, sizeof copy, 0, 0, 4, TABLE(empty), ANSWERS));
    show("revoke 0-4 by two", seatreg_revoke_table(BLOCK, 0, 0, 4, TABLE(by_two), ANSWERS));
    show_register();
    show("reach 2-3 by two", seatreg_reach_table(BLOCK, 2, 3, TABLE(by_two), ANSWERS));
    show("reach 2-3", seatreg_reach(BLOCK, 2, 3, ANSWERS));
    return 0;
}
