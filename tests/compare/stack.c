/* The stack that a call needs, measured on registers on which it has most to do.
 *
 * Each call is made on a thread whose stack is memory painted with one value. The deepest byte that
 * no longer has this value tells how far down the call went. The same is measured for a function
 * that does nothing, and taken off. Two values are painted in turn, since a call may write the one,
 * and the larger result counts. The stack of the C library's memcpy and memset is in the figures;
 * the dynamic loader's is not: the program is linked so that it has done its work before main. */
#define _POSIX_C_SOURCE 200112L
#include <pthread.h>
#include <stdio.h>
#include <stdlib.h>
#include <string.h>

#include "seatreg.h"

/* What a call may need: README.md and include/seatreg.h state it. */
enum { BOUND_KIB = 32 };

/* The start and the end of a thread stay within ROOM; below it is what is measured. */
enum { ROOM = 16 * 1024, STACK = 128 * 1024, PAGE = 4096 };

static uint8_t block[SEATREG_BLOCK_SIZE];
static uint8_t answers[SEATREG_ANSWERS_SIZE];
static char table[12 + 256 * 8 + 1]; /* our table's text, lent to the calls that take one */
static size_t table_len;
static uint8_t out[SEATREG_ORDER_SIZE];
static uint8_t text[SEATREG_TEXT_SIZE]; /* a register file */
static size_t text_len;
static uint8_t slip[SEATREG_SLIP_SIZE];
static uint8_t old[SEATREG_OLD_BLOCK_SIZE]; /* a block as it was before there were retired subjects */
#define BLOCK block, sizeof block
#define NO_TEXT (const uint8_t *)"", 0
#define TABLE (const uint8_t *)table, table_len
#define OUT out, sizeof out
#define SLIP slip, sizeof slip
#define OLD old, sizeof old
#define ANSWERS answers, sizeof answers

/* Ends the program unless this is so. */
static void check(int holds, const char *what, const char *problem)
{
    if (holds)
        return;
    fprintf(stderr, "stack: %s: %s\n", what, problem);
    exit(EXIT_FAILURE);
}

static void add_line(int weight, int next)
{
    table_len += (size_t)snprintf(table + table_len, sizeof table - table_len, "%d %d\n", weight, next);
}

static void write_table(void)
{
    table_len = (size_t)snprintf(table, sizeof table, "weight next\n");
    for (int weight = 0; weight < SEATREG_UNLIMITED; weight++)
        add_line(weight, weight - 1);
    add_line(SEATREG_UNLIMITED, SEATREG_UNLIMITED);
}

static void open_register(void)
{
    check(seatreg_open(BLOCK, ANSWERS) == SEATREG_ACCEPTED, "open", "refused");
}

static void enrol(uint32_t marks)
{
    check(seatreg_enrol(BLOCK, marks, ANSWERS) == SEATREG_ACCEPTED, "enrol", "refused");
}

static void grant(uint32_t giver, uint32_t receiver, uint32_t weight, uint32_t need, uint32_t bar)
{
    uint32_t refusal = seatreg_grant(BLOCK, giver, receiver, weight, need, bar, ANSWERS);
    check(refusal == SEATREG_ACCEPTED, "grant", "refused");
}

/* These subjects, the owner among them, and so many unlimited delegations: from the owner to each,
 * then from each to the one after it, to the second after it, and so on. */
static void build(uint32_t subjects, uint32_t delegations)
{
    uint32_t others = subjects - 1;

    open_register();
    for (uint32_t s = 1; s < subjects; s++)
        enrol(s);
    for (uint32_t i = 0; i < delegations; i++) {
        uint32_t ahead = i / others, at = i % others;
        grant(ahead == 0 ? 0 : at + 1, (at + ahead) % others + 1, SEATREG_UNLIMITED, 0, 0);
    }
}

/* The same, all pass-only. */
static void build_pass_only(void)
{
    build(SEATREG_MOST_SUBJECTS, SEATREG_MOST_DELEGATIONS);
    for (size_t i = 0; i < SEATREG_MOST_DELEGATIONS; i++)
        block[140 + 8 * i + 3] = SEATREG_PASS_ONLY;
}

static void build_full(void)
{
    build(SEATREG_MOST_SUBJECTS, SEATREG_MOST_DELEGATIONS);
}

static void build_before_last_subject(void)
{
    build(SEATREG_MOST_SUBJECTS - 1, SEATREG_MOST_DELEGATIONS);
}

static void build_before_last_grant(void)
{
    build(SEATREG_MOST_SUBJECTS, SEATREG_MOST_DELEGATIONS - 1);
}

/* The last delegation stands, with the least weight. */
static void build_before_raise(void)
{
    build_before_last_grant();
    grant(4, 8, SEATREG_USE_ONLY, 0, 0);
}

/* The same, pass-only. */
static void build_before_pass_only_raise(void)
{
    uint32_t refusal;

    build_before_last_grant();
    refusal = seatreg_grant_kind(BLOCK, 4, 8, 1, 0, 0, SEATREG_PASS_ONLY, NO_TEXT, ANSWERS);
    check(refusal == SEATREG_ACCEPTED, "grant_kind", "refused");
}

/* The register of the deepest cut, as tests/second/generate/rounds.rs explains it: 256 delegations
 * among subjects 0 to 23. A walk of 230 links goes from side to side. In the register of the deepest
 * retirement the walk has 228, and its first link comes from the owner through subject 24. */
enum { SIDE = 11, END = 23, BACK = 2, THROUGH = 24 };
enum { NUMBER = 31, FIRST_SIDE = 32, SECOND_SIDE = 64, START = 128, LAST = 256 };
static uint32_t links = 230;

static uint32_t walk(uint32_t place)
{
    uint32_t turn = place / (2 * SIDE), step = place / 2 % SIDE;

    if (place > links)
        return END;
    return place % 2 == 0 ? 1 + step : 1 + SIDE + (step + turn) % SIDE;
}

/* A grant whose condition is met by the subject of this number alone. */
static void grant_met_by(uint32_t subject, uint32_t giver, uint32_t receiver, uint32_t weight)
{
    grant(giver, receiver, weight, subject, NUMBER & ~subject);
}

static void enrol_deep(void)
{
    open_register();
    for (uint32_t s = 1; s <= END; s++) {
        uint32_t marks = s | (s <= SIDE ? FIRST_SIDE | START : SECOND_SIDE);
        enrol(marks | (s == walk(1) ? START : 0) | (s == END || s == BACK ? LAST : 0));
    }
}

static void grant_sides(void)
{
    for (uint32_t s = 2; s < END; s++)
        grant(0, s, SEATREG_UNLIMITED, s <= SIDE ? FIRST_SIDE : SECOND_SIDE, 0);
}

static void grant_walk(void)
{
    grant_met_by(END, 0, END, 254);
    for (uint32_t place = 1; place <= links; place++)
        grant_met_by(walk(place + 1), walk(place - 1), walk(place), SEATREG_UNLIMITED);
    grant(walk(links), END, SEATREG_UNLIMITED, LAST, 0);
    grant_met_by(END, END, BACK, SEATREG_UNLIMITED);
    grant_met_by(BACK, BACK, END, SEATREG_UNLIMITED);
}

static void build_deep(void)
{
    links = 230;
    enrol_deep();
    grant(0, walk(0), SEATREG_UNLIMITED, START, 0);
    grant_sides();
    grant_walk();
}

/* Once subject 24 is retired, the first link has no chain. */
static void build_deep_through(void)
{
    links = 228;
    enrol_deep();
    enrol(0);
    grant(0, THROUGH, SEATREG_UNLIMITED, START, 0);
    grant(THROUGH, walk(0), SEATREG_UNLIMITED, START, 0);
    grant(0, walk(0), SEATREG_UNLIMITED, FIRST_SIDE, 0);
    grant_sides();
    grant_walk();
}

/* A register after a cut, and the slip of the cut. */
static void build_full_revoked(void)
{
    build_full();
    check(seatreg_revoke_slip(BLOCK, 0, 0, 1, NO_TEXT, SLIP, ANSWERS) == SEATREG_ACCEPTED, "revoke_slip", "refused");
}

static void build_deep_revoked(void)
{
    build_deep();
    check(seatreg_revoke_slip(BLOCK, 0, 1, 12, NO_TEXT, SLIP, ANSWERS) == SEATREG_ACCEPTED, "revoke_slip", "refused");
}

static void build_deep_downgraded(void)
{
    uint32_t refusal;

    build_deep();
    refusal = seatreg_downgrade_slip(BLOCK, 0, 1, 12, 0, NO_TEXT, SLIP, ANSWERS);
    check(refusal == SEATREG_ACCEPTED, "downgrade_slip", "refused");
}

/* The weight on the slip is another than that of the cut. */
static void build_deep_other(void)
{
    build_deep_downgraded();
    slip[SEATREG_BLOCK_SIZE + 4] = 1;
}

/* A register, and its file. */
static void build_file(void (*build_register)(void))
{
    build_register();
    check(seatreg_write(BLOCK, text, sizeof text, ANSWERS) == SEATREG_ACCEPTED, "write", "refused");
    text_len = (size_t)seatreg_answer(answers, 0);
}

static void build_full_file(void) { build_file(build_full); }
static void build_deep_file(void) { build_file(build_deep); }

/* On the last line need and bar share a mark. */
static void build_unformed_file(void)
{
    build_file(build_full);
    text[text_len - 4] = text[text_len - 6] = '1';
}

/* The owner's delegations come first: all have weight 0, so nothing supports the others. */
static void build_unsupported(void)
{
    build_full();
    for (size_t i = 0; i < SEATREG_MOST_SUBJECTS - 1; i++)
        block[140 + 8 * i + 2] = SEATREG_USE_ONLY;
}

static void build_unsupported_file(void) { build_file(build_unsupported); }

/* A register, and the block that it had before there were retired subjects. */
static void build_old(void (*build_register)(void))
{
    build_register();
    memcpy(old, block, 132);
    memcpy(old + 132, block + 140, sizeof old - 132);
}

static void build_old_full(void) { build_old(build_full); }

/* In the last record need and bar share a mark. */
static void build_old_unformed(void)
{
    build_old(build_full);
    old[sizeof old - 2] = old[sizeof old - 4] = 1;
}

/* The calls that are measured. */
static uint32_t returned;

static void nothing(void) { returned = SEATREG_ACCEPTED; }
static void open_anew(void) { returned = seatreg_open(BLOCK, ANSWERS); }
static void enrol_last(void) { returned = seatreg_enrol(BLOCK, SEATREG_MOST_MARKS, ANSWERS); }
static void grant_last(void) { returned = seatreg_grant(BLOCK, 4, 8, SEATREG_UNLIMITED, 0, 0, ANSWERS); }
static void reach_last(void) { returned = seatreg_reach(BLOCK, 63, 62, ANSWERS); }
static void use_last(void) { returned = seatreg_use(BLOCK, 63, ANSWERS); }
static void revoke_first(void) { returned = seatreg_revoke(BLOCK, 0, 0, 1, ANSWERS); }
static void revoke_deep(void) { returned = seatreg_revoke(BLOCK, 0, 1, 12, ANSWERS); }
static void downgrade_first(void) { returned = seatreg_downgrade(BLOCK, 0, 0, 1, 0, ANSWERS); }
static void downgrade_deep(void) { returned = seatreg_downgrade(BLOCK, 0, 1, 12, 0, ANSWERS); }
static void grant_last_table(void)
{
    returned = seatreg_grant_table(BLOCK, 4, 8, SEATREG_UNLIMITED, 0, 0, TABLE, ANSWERS);
}

static void grant_last_kind(void)
{
    returned = seatreg_grant_kind(BLOCK, 4, 8, SEATREG_UNLIMITED, 0, 0, SEATREG_PASS_ONLY, NO_TEXT, ANSWERS);
}

static void grant_last_kind_table(void)
{
    returned = seatreg_grant_kind(BLOCK, 4, 8, SEATREG_UNLIMITED, 0, 0, SEATREG_PASS_ONLY, TABLE, ANSWERS);
}

static void reach_last_table(void) { returned = seatreg_reach_table(BLOCK, 63, 62, TABLE, ANSWERS); }
static void revoke_first_table(void) { returned = seatreg_revoke_table(BLOCK, 0, 0, 1, TABLE, ANSWERS); }
static void revoke_deep_table(void) { returned = seatreg_revoke_table(BLOCK, 0, 1, 12, TABLE, ANSWERS); }
static void downgrade_first_table(void) { returned = seatreg_downgrade_table(BLOCK, 0, 0, 1, 0, TABLE, ANSWERS); }
static void downgrade_deep_table(void) { returned = seatreg_downgrade_table(BLOCK, 0, 1, 12, 0, TABLE, ANSWERS); }

static void set_marks_last(void) { returned = seatreg_set_marks(BLOCK, 0, 63, 0, NO_TEXT, ANSWERS); }
static void set_marks_last_table(void) { returned = seatreg_set_marks(BLOCK, 0, 63, 0, TABLE, ANSWERS); }

/* Subject 12 loses START, which it needs as the receiver of the walk's first link. */
static void set_marks_deep(void) { returned = seatreg_set_marks(BLOCK, 0, 12, 12 | SECOND_SIDE, NO_TEXT, ANSWERS); }
static void set_marks_deep_table(void)
{
    returned = seatreg_set_marks(BLOCK, 0, 12, 12 | SECOND_SIDE, TABLE, ANSWERS);
}

static void retire_last(void) { returned = seatreg_retire(BLOCK, 0, 63, NO_TEXT, ANSWERS); }
static void retire_last_table(void) { returned = seatreg_retire(BLOCK, 0, 63, TABLE, ANSWERS); }
static void retire_through(void) { returned = seatreg_retire(BLOCK, 0, THROUGH, NO_TEXT, ANSWERS); }
static void retire_through_table(void) { returned = seatreg_retire(BLOCK, 0, THROUGH, TABLE, ANSWERS); }

static void revoke_first_slip(void) { returned = seatreg_revoke_slip(BLOCK, 0, 0, 1, NO_TEXT, SLIP, ANSWERS); }
static void revoke_deep_slip(void) { returned = seatreg_revoke_slip(BLOCK, 0, 1, 12, NO_TEXT, SLIP, ANSWERS); }
static void revoke_first_slip_table(void) { returned = seatreg_revoke_slip(BLOCK, 0, 0, 1, TABLE, SLIP, ANSWERS); }
static void revoke_deep_slip_table(void) { returned = seatreg_revoke_slip(BLOCK, 0, 1, 12, TABLE, SLIP, ANSWERS); }
static void downgrade_first_slip(void) { returned = seatreg_downgrade_slip(BLOCK, 0, 0, 1, 0, NO_TEXT, SLIP, ANSWERS); }
static void downgrade_deep_slip(void) { returned = seatreg_downgrade_slip(BLOCK, 0, 1, 12, 0, NO_TEXT, SLIP, ANSWERS); }
static void downgrade_deep_slip_table(void)
{
    returned = seatreg_downgrade_slip(BLOCK, 0, 1, 12, 0, TABLE, SLIP, ANSWERS);
}

static void take_back(void) { returned = seatreg_take_back(BLOCK, 0, NO_TEXT, SLIP, ANSWERS); }
static void take_back_table(void) { returned = seatreg_take_back(BLOCK, 0, TABLE, SLIP, ANSWERS); }

static void order_last(void) { returned = seatreg_order(BLOCK, 63, NO_TEXT, OUT, ANSWERS); }
static void order_last_table(void) { returned = seatreg_order(BLOCK, 63, TABLE, OUT, ANSWERS); }

static void write_file(void) { returned = seatreg_write(BLOCK, text, sizeof text, ANSWERS); }
static void read_file(void) { returned = seatreg_read(BLOCK, text, text_len, TABLE, ANSWERS); }
static void bring_over(void) { returned = seatreg_bring_over(OLD, BLOCK, ANSWERS); }

/* A row: the register, the call, the rounds it must answer, 0 if it has none, and what it must return:
 * for 7 the table's text is lent without its last byte. */
struct row {
    const char *what;
    void (*build)(void);
    void (*make)(void);
    int32_t rounds;
    uint32_t refusal;
};

static const struct row rows[] = {
    {"open", build_full, open_anew, 0, 0},
    {"enrol, the 64th subject", build_before_last_subject, enrol_last, 0, 0},
    {"grant, the 256th delegation", build_before_last_grant, grant_last, 0, 0},
    {"grant, a raise, full register", build_before_raise, grant_last, 0, 0},
    {"reach, full register", build_full, reach_last, 0, 0},
    {"use, full register", build_full, use_last, 0, 0},
    {"  all pass-only", build_pass_only, use_last, 0, 0},
    {"revoke, full register", build_full, revoke_first, 1, 0},
    {"revoke, 485 rounds", build_deep, revoke_deep, 485, 0},
    {"downgrade, full register", build_full, downgrade_first, 1, 0},
    {"downgrade, 485 rounds", build_deep, downgrade_deep, 485, 0},
    {"grant with a table", build_before_last_grant, grant_last_table, 0, 0},
    {"  a raise, full register", build_before_raise, grant_last_table, 0, 0},
    {"  refused with 7", build_before_last_grant, grant_last_table, 0, SEATREG_MALFORMED},
    {"grant_kind, pass-only", build_before_last_grant, grant_last_kind, 0, 0},
    {"  a raise, full register", build_before_pass_only_raise, grant_last_kind, 0, 0},
    {"  the other kind", build_before_raise, grant_last_kind, 0, SEATREG_PAIR_STANDS},
    {"grant_kind with a table", build_before_last_grant, grant_last_kind_table, 0, 0},
    {"  a raise, full register", build_before_pass_only_raise, grant_last_kind_table, 0, 0},
    {"  refused with 7", build_before_last_grant, grant_last_kind_table, 0, SEATREG_MALFORMED},
    {"reach with a table", build_full, reach_last_table, 0, 0},
    {"  refused with 7", build_full, reach_last_table, 0, SEATREG_MALFORMED},
    {"revoke with a table", build_full, revoke_first_table, 1, 0},
    {"  485 rounds", build_deep, revoke_deep_table, 485, 0},
    {"  refused with 7", build_full, revoke_first_table, 0, SEATREG_MALFORMED},
    {"downgrade with a table", build_full, downgrade_first_table, 1, 0},
    {"  485 rounds", build_deep, downgrade_deep_table, 485, 0},
    {"  refused with 7", build_full, downgrade_first_table, 0, SEATREG_MALFORMED},
    {"set_marks, full register", build_full, set_marks_last, 1, 0},
    {"set_marks, 486 rounds", build_deep, set_marks_deep, 486, 0},
    {"set_marks with a table", build_full, set_marks_last_table, 1, 0},
    {"  486 rounds", build_deep, set_marks_deep_table, 486, 0},
    {"  refused with 7", build_full, set_marks_last_table, 0, SEATREG_MALFORMED},
    {"retire, full register", build_full, retire_last, 1, 0},
    {"retire, 484 rounds", build_deep_through, retire_through, 484, 0},
    {"retire with a table", build_full, retire_last_table, 1, 0},
    {"  484 rounds", build_deep_through, retire_through_table, 484, 0},
    {"  refused with 7", build_full, retire_last_table, 0, SEATREG_MALFORMED},
    {"revoke_slip, full register", build_full, revoke_first_slip, 1, 0},
    {"  485 rounds", build_deep, revoke_deep_slip, 485, 0},
    {"revoke_slip with a table", build_full, revoke_first_slip_table, 1, 0},
    {"  485 rounds", build_deep, revoke_deep_slip_table, 485, 0},
    {"  refused with 7", build_full, revoke_first_slip_table, 0, SEATREG_MALFORMED},
    {"downgrade_slip, full register", build_full, downgrade_first_slip, 1, 0},
    {"  485 rounds", build_deep, downgrade_deep_slip, 485, 0},
    {"downgrade_slip with a table", build_deep, downgrade_deep_slip_table, 485, 0},
    {"  refused with 7", build_deep, downgrade_deep_slip_table, 0, SEATREG_MALFORMED},
    {"take_back, full register", build_full_revoked, take_back, 0, 0},
    {"  a revocation of 485 rounds", build_deep_revoked, take_back, 0, 0},
    {"  a downgrade of 485 rounds", build_deep_downgraded, take_back, 0, 0},
    {"  refused with 20", build_deep_other, take_back, 0, SEATREG_OTHER_SLIP},
    {"take_back with a table", build_deep_revoked, take_back_table, 0, 0},
    {"  refused with 7", build_full_revoked, take_back_table, 0, SEATREG_MALFORMED},
    {"order, full register", build_full, order_last, 0, 0},
    {"order with a table", build_full, order_last_table, 0, 0},
    {"  refused with 7", build_full, order_last_table, 0, SEATREG_MALFORMED},
    {"write, full register", build_full, write_file, 0, 0},
    {"  unsupported", build_unsupported, write_file, 0, 0},
    {"read, full register", build_full_file, read_file, 0, 0},
    {"  the register of 485 rounds", build_deep_file, read_file, 0, 0},
    {"  refused with 7", build_full_file, read_file, 0, SEATREG_MALFORMED},
    {"  refused with 8", build_unformed_file, read_file, 0, SEATREG_NOT_WELL_FORMED},
    {"  refused with 18", build_unsupported_file, read_file, 0, SEATREG_UNSUPPORTED},
    {"bring_over, full register", build_old_full, bring_over, 0, 0},
    {"  refused with 8", build_old_unformed, bring_over, 0, SEATREG_NOT_WELL_FORMED},
};

/* The thread: makes a call below ROOM bytes of its own. */
static void *thread(void *row)
{
    volatile uint8_t room[ROOM];

    room[0] = 0;
    ((const struct row *)row)->make();
    room[ROOM - 1] = room[0];
    return NULL;
}

/* How far down the stack a call goes that is made on a stack of this value. */
static size_t depth(const struct row *row, int value)
{
    static void *stack;
    pthread_attr_t attributes;
    pthread_t id;
    size_t free_bytes = 0;

    check(stack != NULL || posix_memalign(&stack, PAGE, STACK) == 0, "posix_memalign", "failed");
    memset(stack, value, STACK);
    row->build();
    table_len = strlen(table) - (row->refusal == SEATREG_MALFORMED);
    check(pthread_attr_init(&attributes) == 0, "pthread_attr_init", "failed");
    check(pthread_attr_setstack(&attributes, stack, STACK) == 0, "pthread_attr_setstack", "failed");
    check(pthread_create(&id, &attributes, thread, (void *)row) == 0, "pthread_create", "failed");
    check(pthread_join(id, NULL) == 0, "pthread_join", "failed");
    pthread_attr_destroy(&attributes);
    check(returned == row->refusal, row->what, "another refusal than expected");
    check(row->rounds == 0 || seatreg_answer(answers, 2) == row->rounds, row->what, "other rounds than expected");
    while (free_bytes < STACK && ((uint8_t *)stack)[free_bytes] == value)
        free_bytes++;
    check(free_bytes > 0, row->what, "the whole stack was used");
    return STACK - free_bytes;
}

static size_t deepest(const struct row *row)
{
    size_t one = depth(row, 0xa5), other = depth(row, 0x5a);

    return one > other ? one : other;
}

int main(void)
{
    const struct row none = {"nothing", open_register, nothing, 0, 0};
    size_t empty = deepest(&none);

    write_table();
    check(empty < 2 * ROOM, none.what, "the thread needs more than its room");
    printf("%-32s %s\n", "call", "bytes of stack");
    for (size_t i = 0; i < sizeof rows / sizeof rows[0]; i++) {
        size_t bytes = deepest(&rows[i]) - empty;
        printf("%-32s %14zu\n", rows[i].what, bytes);
        check(bytes <= (size_t)BOUND_KIB * 1024, rows[i].what, "more stack than the bound");
    }
    printf("at most %d KiB of stack\n", BOUND_KIB);
    return EXIT_SUCCESS;
}
