/* A host of the seat register: a maker passes a right to two distributors, one of whom never uses it, both
 * pass it to a dealer, the dealer to a firm. Then the wrong distributor is cut off, which is taken back, and
 * then the right one, and the dealer keeps what the other gives. After each cut the host says which delegations
 * fell or were lowered. Then the dealer is raised, his certificate lapses and is renewed, the other distributor
 * leaves, the first one comes back, and at last the register goes to another machine, as text. */
#include <inttypes.h>
#include <stdio.h>
#include <stdlib.h>
#include <string.h>

#include "seatreg.h"

enum { MAKER = SEATREG_OWNER, NORTH, SOUTH, DEALER, FIRM, VISITOR };

/* A mark is one bit, and what it stands for is the host's choice. */
#define TRAINED 1u

static uint8_t block[SEATREG_BLOCK_SIZE];     /* the register */
static uint8_t before[SEATREG_BLOCK_SIZE];    /* the register before a cut, a change of marks or a retirement */
static uint8_t slip[SEATREG_SLIP_SIZE];       /* of the last cut that wrote one; kept as safely as the register */
static uint8_t answers[SEATREG_ANSWERS_SIZE]; /* of the last call that was accepted */
static uint8_t text[SEATREG_TEXT_SIZE];       /* the register as text, a register file */
static uint8_t other[SEATREG_BLOCK_SIZE];     /* the register on the other machine */

/* This register is kept under our step table, so the text that a call is lent is empty; its pointer is
 * not null even so. */
#define OUR_TABLE (const uint8_t *)"", 0

/* Ends the program if a call didn't return what this host expects. */
static void check(const char *call, uint32_t returned, uint32_t expected)
{
    if (returned == expected)
        return;
    fprintf(stderr, "%s returned %" PRIu32 ", not %" PRIu32 "\n", call, returned, expected);
    exit(EXIT_FAILURE);
}

static void open_register(void)
{
    check("open", seatreg_open(block, sizeof block, answers, sizeof answers), SEATREG_ACCEPTED);
    printf("open\n");
}

static void enrol(uint32_t marks)
{
    check("enrol", seatreg_enrol(block, sizeof block, marks, answers, sizeof answers), SEATREG_ACCEPTED);
    printf("enrol with marks %" PRIu32 ": subject %" PRId32 "\n", marks, seatreg_answer(answers, 0));
}

/* Prints what a grant returned. */
static void print_grant(const char *kind, uint32_t giver, uint32_t receiver, uint32_t weight, uint32_t returned)
{
    printf("grant%s %" PRIu32 "-%" PRIu32 " weight %" PRIu32, kind, giver, receiver, weight);
    if (returned == SEATREG_ACCEPTED)
        printf(": delegations standing %" PRId32 "\n", seatreg_answer(answers, 0));
    else
        printf(": refused with %" PRIu32 "\n", returned);
}

static void grant(uint32_t giver, uint32_t receiver, uint32_t weight, uint32_t need)
{
    uint32_t r = seatreg_grant(block, sizeof block, giver, receiver, weight, need, 0, answers, sizeof answers);

    check("grant", r, SEATREG_ACCEPTED);
    print_grant("", giver, receiver, weight, r);
}

/* A grant without a condition that must be refused. */
static void no_grant(uint32_t giver, uint32_t receiver, uint32_t weight, uint32_t expected)
{
    uint32_t r = seatreg_grant(block, sizeof block, giver, receiver, weight, 0, 0, answers, sizeof answers);

    check("grant", r, expected);
    print_grant("", giver, receiver, weight, r);
}

/* For a receiver who hands the right on and never uses it. */
static void grant_pass_only(uint32_t giver, uint32_t receiver, uint32_t weight, uint32_t expected)
{
    uint32_t r = seatreg_grant_kind(block, sizeof block, giver, receiver, weight, 0, 0, SEATREG_PASS_ONLY, OUR_TABLE,
                                    answers, sizeof answers);

    check("grant", r, expected);
    print_grant(" pass-only", giver, receiver, weight, r);
}

static void reach(uint32_t giver, uint32_t receiver)
{
    check("reach", seatreg_reach(block, sizeof block, giver, receiver, answers, sizeof answers), SEATREG_ACCEPTED);
    printf("reach %" PRIu32 "-%" PRIu32 ": %" PRId32 "\n", giver, receiver, seatreg_answer(answers, 0));
}

static void may_use(uint32_t receiver)
{
    check("use", seatreg_use(block, sizeof block, receiver, answers, sizeof answers), SEATREG_ACCEPTED);
    printf("subject %" PRIu32 " may use the right: %s\n", receiver, seatreg_answer(answers, 0) ? "yes" : "no");
}

/* The weight of a pair of the register, or -1 where it doesn't stand. */
static int weight_of(uint32_t giver, uint32_t receiver)
{
    for (uint32_t i = 0; i < seatreg_delegations(block); i++) {
        struct seatreg_delegation d = seatreg_delegation_at(block, i);
        if (d.giver == giver && d.receiver == receiver)
            return (int)d.weight;
    }
    return -1;
}

/* The answers count what else was dropped or lowered; which delegations these are, the register as it
 * was before tells, and so does it of one that was cut. */
static void print_fallen(void)
{
    printf("  dropped %" PRId32 ", lowered %" PRId32 ", rounds %" PRId32 "\n",
           seatreg_answer(answers, 0), seatreg_answer(answers, 1), seatreg_answer(answers, 2));
    for (uint32_t i = 0; i < seatreg_delegations(before); i++) {
        struct seatreg_delegation d = seatreg_delegation_at(before, i);
        int weight = weight_of(d.giver, d.receiver);
        if (weight < 0)
            printf("  %" PRIu32 "-%" PRIu32 " fell\n", d.giver, d.receiver);
        else if (weight < (int)d.weight)
            printf("  %" PRIu32 "-%" PRIu32 " lowered from %" PRIu32 " to %d\n", d.giver, d.receiver, d.weight, weight);
    }
}

/* Hands the slip in. */
static void take_back(uint32_t by, uint32_t expected)
{
    uint32_t r = seatreg_take_back(block, sizeof block, by, OUR_TABLE, slip, sizeof slip, answers, sizeof answers);

    check("take back", r, expected);
    if (r == SEATREG_ACCEPTED)
        printf("take back by %" PRIu32 "\n", by);
    else
        printf("take back by %" PRIu32 ": refused with %" PRIu32 "\n", by, r);
}

/* What the maker gave SOUTH is revoked, the wrong line. Before anything else changes the register, the slip
 * of this cut takes it back. The dealer may not hand it in; and handed in again, it is refused. */
static void wrong_line(void)
{
    uint32_t r = seatreg_revoke_slip(block, sizeof block, MAKER, MAKER, SOUTH, OUR_TABLE,
                                     slip, sizeof slip, answers, sizeof answers);

    check("revoke", r, SEATREG_ACCEPTED);
    printf("revoke %d-%d, the wrong line\n", MAKER, SOUTH);
    memcpy(before, slip, sizeof before); /* a slip begins with the block before the cut */
    print_fallen();
    take_back(DEALER, SEATREG_MAY_NOT);
    take_back(MAKER, SEATREG_ACCEPTED);
    check("memcmp", memcmp(before, block, sizeof block) != 0, 0);
    take_back(MAKER, SEATREG_OTHER_SLIP);
}

/* The giver lowers what it gave. */
static void downgrade(uint32_t giver, uint32_t receiver, uint32_t weight)
{
    uint32_t r;

    memcpy(before, block, sizeof block);
    r = seatreg_downgrade(block, sizeof block, giver, giver, receiver, weight, answers, sizeof answers);
    check("downgrade", r, SEATREG_ACCEPTED);
    printf("downgrade %" PRIu32 "-%" PRIu32 " to %" PRIu32 "\n", giver, receiver, weight);
    print_fallen();
}

/* What the maker gave NORTH is revoked; then what SOUTH gave the dealer is lowered to use alone. */
static void cut(void)
{
    uint32_t r;

    memcpy(before, block, sizeof block);
    r = seatreg_revoke(block, sizeof block, MAKER, MAKER, NORTH, answers, sizeof answers);
    check("revoke", r, SEATREG_ACCEPTED);
    printf("revoke %d-%d\n", MAKER, NORTH);
    print_fallen();
    may_use(FIRM);
    reach(DEALER, FIRM);
    reach(DEALER, VISITOR); /* only SOUTH's chain is left, and the visitor isn't trained */

    downgrade(SOUTH, DEALER, SEATREG_USE_ONLY);
    may_use(DEALER);
    may_use(FIRM);
}

/* The maker changes the marks of a subject: these in place of all that it had. */
static void set_marks(uint32_t subject, uint32_t marks)
{
    uint32_t r;

    memcpy(before, block, sizeof block);
    r = seatreg_set_marks(block, sizeof block, MAKER, subject, marks, OUR_TABLE, answers, sizeof answers);
    check("set marks", r, SEATREG_ACCEPTED);
    printf("set the marks of %" PRIu32 " to %" PRIu32 "\n", subject, marks);
    print_fallen();
}

/* The dealer's certificate lapses: SOUTH may pass the right on to the trained only, so what it gave the
 * dealer falls. With the certificate renewed this doesn't come back by itself: SOUTH grants it again. */
static void lapse(void)
{
    uint32_t r;

    set_marks(DEALER, seatreg_marks(block, DEALER) & ~TRAINED);
    may_use(DEALER);
    r = seatreg_set_marks(block, sizeof block, DEALER, DEALER, TRAINED, OUR_TABLE, answers, sizeof answers);
    check("set marks", r, SEATREG_MAY_NOT);
    printf("set the marks of %d by itself: refused with %" PRIu32 "\n", DEALER, r);
    set_marks(DEALER, seatreg_marks(block, DEALER) | TRAINED);
    may_use(DEALER);
    grant(SOUTH, DEALER, 2, 0);
    may_use(DEALER);
}

/* The maker retires a subject. Nothing takes this back but a copy of the block, such as `before`. */
static void retire(uint32_t subject)
{
    uint32_t r;

    memcpy(before, block, sizeof block);
    r = seatreg_retire(block, sizeof block, MAKER, subject, OUR_TABLE, answers, sizeof answers);
    check("retire", r, SEATREG_ACCEPTED);
    printf("retire %" PRIu32 "\n", subject);
    print_fallen();
}

/* SOUTH leaves. So that the dealer and the firm stay, the maker gives the dealer a right of its own first.
 * What SOUTH was given and what it gave are removed and in no count. From then on every call that names
 * SOUTH gets 19; should it come back, it gets a new number. */
static void leave(void)
{
    uint32_t r;

    grant(DEALER, FIRM, 1, 0);
    grant(MAKER, DEALER, 1, 0);
    r = seatreg_retire(block, sizeof block, SOUTH, SOUTH, OUR_TABLE, answers, sizeof answers);
    check("retire", r, SEATREG_MAY_NOT);
    printf("retire %d by itself: refused with %" PRIu32 "\n", SOUTH, r);
    retire(SOUTH);
    may_use(DEALER);
    may_use(FIRM);
    r = seatreg_use(block, sizeof block, SOUTH, answers, sizeof answers);
    check("use", r, SEATREG_RETIRED);
    printf("may %d use the right: refused with %" PRIu32 "\n", SOUTH, r);
    no_grant(MAKER, SOUTH, 1, SEATREG_RETIRED);
    enrol(0);
}

/* NORTH comes back, pass-only as before, and is put to rest: at weight 0 its delegation gives nothing, and stays.
 * It doesn't become ordinary, whatever the weight, but it can be raised. No grant makes one at weight 0. */
static void come_back(void)
{
    grant_pass_only(MAKER, NORTH, 0, SEATREG_NO_KIND);
    grant_pass_only(MAKER, NORTH, 4, SEATREG_ACCEPTED);
    downgrade(MAKER, NORTH, 0);
    may_use(NORTH);
    reach(NORTH, FIRM);
    no_grant(MAKER, NORTH, 9, SEATREG_PAIR_STANDS);
    grant_pass_only(MAKER, NORTH, 2, SEATREG_ACCEPTED);
    may_use(NORTH);
    reach(NORTH, FIRM);
}

/* Writes the register as text; answers the file's length. It is no string of C: no 0 byte ends it. */
static size_t write_file(void)
{
    size_t length;

    check("write", seatreg_write(block, sizeof block, text, sizeof text, answers, sizeof answers), SEATREG_ACCEPTED);
    length = (size_t)seatreg_answer(answers, 0);
    printf("write: %zu bytes\n", length);
    fwrite(text, 1, length, stdout);
    return length;
}

/* Reads a file of this length into the other block. */
static uint32_t read_file(size_t length)
{
    return seatreg_read(other, sizeof other, text, length, OUR_TABLE, answers, sizeof answers);
}

/* The register leaves as text and comes back as the same bytes. Two mistakes are refused, and change no
 * byte of the other block: the buffer's length in place of the file's, and a weight that nothing
 * carries, written into the file by hand. */
static void move(void)
{
    size_t length = write_file();

    check("read", read_file(length), SEATREG_ACCEPTED);
    printf("read: %s\n", memcmp(other, block, sizeof block) == 0 ? "the same register" : "another register");
    check("read", read_file(sizeof text), SEATREG_MALFORMED);
    printf("read of the whole buffer: refused with %d\n", SEATREG_MALFORMED);
    text[length - 8] = '9'; /* the weight on the last line, "3 4 0 0 0 0" */
    check("read", read_file(length), SEATREG_UNSUPPORTED);
    printf("read with 9 as the last weight: refused with %d\n", SEATREG_UNSUPPORTED);
    check("memcmp", memcmp(other, block, sizeof block) != 0, 0);
}

int main(void)
{
    open_register();
    enrol(TRAINED); /* NORTH */
    enrol(0);       /* SOUTH */
    enrol(TRAINED); /* DEALER */
    enrol(TRAINED); /* FIRM */
    enrol(0);       /* VISITOR */

    grant_pass_only(MAKER, NORTH, 5, SEATREG_ACCEPTED); /* NORTH never uses the right */
    grant(MAKER, SOUTH, 3, TRAINED);                    /* SOUTH may pass it on to the trained only */
    grant(NORTH, DEALER, 4, 0);
    grant(SOUTH, DEALER, 2, 0);
    grant(DEALER, FIRM, 3, 0);
    reach(DEALER, FIRM);
    reach(DEALER, VISITOR);
    may_use(NORTH);
    may_use(DEALER);

    /* A refused call changes nothing: here the weight is more than the dealer has to give. */
    no_grant(DEALER, VISITOR, SEATREG_UNLIMITED, SEATREG_OVERWEIGHT);
    wrong_line();
    cut();

    /* A raise: the pair and the condition that stand, and more weight. Nothing else changes, so what
     * the firm had doesn't come back by itself; but the dealer can pass the right on again. */
    grant(SOUTH, DEALER, 2, 0);
    may_use(FIRM);
    reach(DEALER, FIRM);

    lapse();
    leave();
    come_back();
    move();
    return EXIT_SUCCESS;
}
