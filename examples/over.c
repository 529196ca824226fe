/* A host that stored its register before version 2.0.0, when a block had eight bytes fewer: it brings the
 * stored bytes over, lists them and goes on with them. Then it shows what is refused. */
#include <stdio.h>
#include <string.h>

#include "seatreg.h"

/* As an older host wrote it: the owner and three subjects, the second of them with mark 1, and the
 * delegations 0-1:9, 1-2:8 and 1-3:0. A host has these bytes from a file. */
static const uint8_t stored[SEATREG_OLD_BLOCK_SIZE] = {
    [0] = 4, [2] = 3, [8] = 1,
    [132] = 0, 1, 9, 0, 0, 0, 0, 0,
            1, 2, 8, 0, 0, 0, 0, 0,
            1, 3, 0, 0, 0, 0, 0, 0
};

static uint8_t block[SEATREG_BLOCK_SIZE], saved[SEATREG_BLOCK_SIZE], answers[SEATREG_ANSWERS_SIZE];
#define BLOCK block, sizeof block
#define ANSWERS answers, sizeof answers
#define OUR_TABLE (const uint8_t *)"", 0

/* Takes bytes that were stored, whichever version stored them: the length tells. */
static uint32_t load(const uint8_t *bytes, size_t length)
{
    if (length != SEATREG_BLOCK_SIZE)
        return seatreg_bring_over(bytes, length, BLOCK, ANSWERS);
    memcpy(block, bytes, length);
    return seatreg_use(BLOCK, SEATREG_OWNER, ANSWERS);
}

static void show(const char *what, uint32_t refusal)
{
    if (refusal == SEATREG_ACCEPTED)
        printf("%s: accepted\n", what);
    else
        printf("%s: refused with %u, %s\n", what, (unsigned)refusal, seatreg_refusal_text(refusal));
}

static void show_subjects(void)
{
    for (uint32_t s = 0; s < seatreg_subjects(block); s++)
        printf("  %u: marks %u%s\n", (unsigned)s, (unsigned)seatreg_marks(block, s),
               seatreg_is_retired(block, s) ? ", retired" : "");
}

static void show_delegations(void)
{
    for (uint32_t i = 0; i < seatreg_delegations(block); i++) {
        struct seatreg_delegation d = seatreg_delegation_at(block, i);
        printf("  %u-%u:%u\n", (unsigned)d.giver, (unsigned)d.receiver, (unsigned)d.weight);
    }
}

int main(void)
{
    uint8_t spoiled[SEATREG_OLD_BLOCK_SIZE];

    show("a block of before 2.0.0", load(stored, sizeof stored));
    show_subjects();
    show_delegations();

    /* From here on it is a register like any other: subject 2 leaves, and the block is stored again. */
    show("retire 2", seatreg_retire(BLOCK, SEATREG_OWNER, 2, OUR_TABLE, ANSWERS));
    show_subjects();
    show_delegations();
    memcpy(saved, block, sizeof block);
    show("a block of today", load(saved, sizeof saved));
    show("may 2 use it", seatreg_use(BLOCK, 2, ANSWERS));

    /* A refused call leaves the block as it was. The last line of the stored bytes gets a subject that
     * isn't enrolled as its receiver. */
    memcpy(spoiled, stored, sizeof stored);
    spoiled[132 + 16 + 1] = 4;
    show("an old block that is not well formed", load(spoiled, sizeof spoiled));
    show("an old block without its last byte", load(stored, sizeof stored - 1));
    printf("the block is %s\n", memcmp(block, saved, sizeof block) == 0 ? "as it was" : "another");
    return 0;
}
