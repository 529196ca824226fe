/* seatreg.h: the seat register, for C99 and C++. Link with libseatreg.a.
 *
 * A register keeps who passed one right to whom. Subject 0 is the owner of the right; others are
 * enrolled and numbered from 1. A delegation has a giver, a receiver and a weight: how many further
 * steps the right may travel from the receiver. It may have a condition on marks, and it may be pass-only:
 * then it lets the receiver pass the right on and not use it. When a delegation is cut, a subject's marks are
 * changed or a subject is retired, all that can still stand on a chain from the owner stays, as heavy as it
 * can. What every call does is defined in docs/01-scope.md and docs/02-change-requests.md; here is what a host
 * needs.
 *
 * THE BLOCK. A register is 2,188 bytes that the host owns. There is nothing else: no state between
 * calls, no allocation, no file opened, no clock. The bytes mean the same on every machine, so a block may
 * be copied, saved and loaded as it is. Change it by calls only. The readers at the end list what
 * it holds, seatreg_order says from whom the right can come to a receiver, and seatreg_write writes it
 * as text. A block that was stored before version 2.0.0 is shorter, and every call but one refuses it with
 * 1: seatreg_bring_over makes the block of today of it. Blocks and slips of 2.0.0 and later are taken as they
 * are: byte 3 of a record, 0 until 3.0.0, is the delegation's kind, so all of theirs are ordinary.
 *
 * RETIRED SUBJECTS. A subject whom the owner has retired stays enrolled, with its number, but has no
 * marks and no delegation, and every call that names it is refused with 19. Nothing takes this back: no
 * call clears a retirement, and the number is never given to another subject. Only open, read and
 * bring_over, which put another register into the block, leave those retired whom that register has.
 *
 * PASS-ONLY DELEGATIONS are for distributors, who hand the right on and never use it. Every delegation is
 * ordinary or pass-only: this is its kind. seatreg_grant_kind grants either; seatreg_grant and
 * seatreg_grant_table grant ordinary ones.
 *   - Chains take no notice of the kind: reach, orders and support are the same for both, and so is what a
 *     cut, set_marks or retire drops and lowers. Every delegation that stays keeps its kind.
 *   - Who may use the right: the owner, and every subject to which some ordinary delegation stands, of any
 *     weight, whatever else stands. So a subject to which delegations stand need not be one that may use the
 *     right: don't count them, ask seatreg_use, or look at the kind of each.
 *   - Weight 0 is use alone for an ordinary delegation. A pass-only one at weight 0 gives nothing, neither use
 *     nor passing on. No grant makes one: 21. A downgrade to 0 leaves one, and so may the rounds of a cut, of
 *     set_marks or of retire; a register file may have one. It stays until it is revoked or falls, is one of the
 *     256, and may be raised again. So don't read weight 0 as leave to use the right.
 *   - A standing delegation doesn't change its kind. A grant for its pair with the other kind gets 11, whatever
 *     its weight and condition, and a raise passes the kind that stands. To change it, revoke it and grant anew;
 *     the revocation lowers or drops what stood on it, as every one does.
 *   - Pass-only forbids nothing. A subject that has a pass-only delegation may use the right as soon as somebody
 *     else grants it an ordinary one, also somebody to whom it passed the right on itself.
 *
 * SLIPS take a cut back. seatreg_revoke_slip and seatreg_downgrade_slip do what the cuts without a slip do,
 * and write a slip; seatreg_take_back is handed it and puts the block back as it was before the cut, byte for
 * byte. No other call writes one.
 *   - A slip is 4,381 bytes that the host owns: the whole block before the cut (2,188 bytes), five bytes that
 *     say which cut it was (2 for a revocation or 3 for a downgrade, by, giver, receiver, the new weight or 0
 *     for a revocation), and the whole block after it (2,188 bytes). Like a block it may be copied, saved and
 *     loaded as it is. seatreg_slip_cut reads the five bytes.
 *   - It is good only while the register is just what the cut left, and under the table of the cut. After any
 *     other change it gets 20 from who may hand it in, until the register is again what it was then; so does a
 *     slip that was handed in already, and one under another table by which that cut leaves something else. So
 *     hand it in before the next call that changes the register, and lend the same table. Cuts are taken back
 *     the last one first.
 *   - Who may: the owner, and the giver on the slip, also where the owner made the cut. Another caller gets 14.
 *   - Whoever has lost the slip can't take the cut back; a copy of the block from before does the same.
 *   - KEEP SLIPS WHERE THE BLOCK IS KEPT, AND TAKE NONE FROM A SUBJECT. A slip has no signature: the call looks
 *     whether the cut on it leads from the block before to the register, and not whether such a cut was ever
 *     made. So an enrolled subject that isn't retired and gets to write a slip, with or without the right, names
 *     itself as the giver of a delegation that never stood and that the slip revokes, hands it in, and the
 *     delegation stands. Such a slip can add delegations and make standing ones heavier, supported or not: for
 *     instance any that the rounds of its cut would drop again. It can do nothing else: subjects, marks and who
 *     is retired stay, and every delegation that stands stays, of its kind and at least as heavy. So a slip is
 *     worth as much as the block.
 *   - What is restored can be unsupported: after a slip that a cut wrote, where it was so before the cut. The
 *     next cut, set_marks or retire settles it. Until then every slip gets 20 under that table: what a cut
 *     leaves is supported.
 *
 * WHAT A CALL RETURNS. Every call returns a refusal number, 0 when it is accepted.
 *   - Refused: no byte changes, neither of the block nor of the answers nor of any other buffer.
 *   - Accepted: the three answers are written, 12 bytes, each answer signed, four bytes, low byte
 *     first, those that the call doesn't use 0. seatreg_answer reads one.
 * Where several refusals apply, the first in the order given at the call is returned. Every number
 * passed may be any 32-bit number: one that is too large is refused and never cut down. The block
 * may hold any bytes: all calls but open, read and bring_over, which overwrite it, refuse one that is not
 * well formed.
 *
 * THE STEP TABLE has a next for each weight: what a limit falls to at one step, -1 where nothing may
 * follow. In ours 0 gives -1, each other weight one less, and 255 keeps 255. The calls whose names end
 * in _table or _slip, grant_kind, set_marks, retire, take_back, order and read are lent one as text; all others
 * that need a table use ours.
 *   - Its form: the line "weight next", then a line of a weight and its next for each of the weights 0
 *     to 255, in order. Numbers are decimal and at most 4,294,967,295, one space between, no leading
 *     zero, no sign but that of -1, which only a next may be. Every line ends with byte 10, the last
 *     one too, and nothing follows it. A text of another form is refused with 7.
 *   - Its rules: each next is at least -1, not below the next before it, and below its weight, but 255
 *     may keep 255. A text of this form whose entries break a rule is refused with 17.
 *   - An empty text, of length 0, stands for our table; the pointer is not null even then.
 *   - The length is that of the text alone, without a 0 byte that ends a string. It has no limit.
 *   - The text is only read, and nothing of it is kept.
 * A register doesn't know its table: lend the same text with every call on it. A cut lowers or drops
 * all that its own table doesn't support, even what the named delegation didn't hold up; so do
 * set_marks and retire.
 *
 * THE REGISTER FILE is a register as text, to be read by people and moved between machines:
 * seatreg_write writes it and seatreg_read reads it. With three subjects beside the owner, the last of
 * them retired, and the first delegation pass-only, it may be
 *     subject marks retired
 *     0 0 0
 *     1 4 0
 *     2 4 0
 *     3 0 1
 *
 *     giver receiver weight need bar pass
 *     0 1 9 4 0 1
 *     1 2 8 0 0 0
 *   - Its form: the line "subject marks retired"; a line for each enrolled subject, from 0 on, its last
 *     number 1 for a retired one and 0 for another; an empty line; the line "giver receiver weight need
 *     bar pass"; a line for each delegation, rising by giver and, for one giver, by receiver, its last number
 *     the kind, 1 for a pass-only one and 0 for an ordinary one. Numbers and lines are as in a step table's
 *     text, and none has a sign. Nothing follows the last line's byte 10. A text of another form is refused
 *     with 7, an empty one too; so is one whose line ends a program has changed, one of before 3.0.0, which
 *     lacks the column pass, and one of before 2.0.0, which lacks the column retired too (README.md, 'The
 *     block's life', has commands that add them).
 *   - A text of this form that is no well-formed register's file is refused with 8: a subject left
 *     out, a weight above 255, two delegations exchanged; a 2 in the column pass; a 2 in the column retired,
 *     or a 1 for the owner, for a subject with marks or for one that a delegation names.
 *   - A register has one file and a file one register: what seatreg_read accepts is byte for byte what
 *     seatreg_write writes of the block that it left.
 *   - A file doesn't name its table. Read it under the table that is lent with every other call on the
 *     register. Where a delegation in it is unsupported, so that no chain under that table carries its
 *     weight, it is refused with 18. Another table may refuse what the right one supports, and accept
 *     what the next cut under the right one lowers or drops.
 *   - So every register is written, but one that the table doesn't support is not read back: 18. Where
 *     every call from open on was made under the same table, the register is supported by it. Where not,
 *     store the block too.
 *   - A read puts another register in the block: who is retired then is what the file says.
 *
 * WHAT THE HOST MUST SEE TO. Nothing can check these, and what a call does without them is undefined.
 *   - Each pointer is valid for the length passed with it until the call returns: `answers` for
 *     reading and writing, `block` too, but for reach, use, order and write, which only read it, `table`
 *     and `old` for reading, `out` for reading and writing, `text` for reading and writing in write and
 *     for reading in read, `slip` for reading and writing in the cuts and for reading in take_back. No
 *     alignment is needed.
 *   - The buffers of one call, two to four, lie apart: they share no byte. So a text isn't read into
 *     bytes in which it lies itself, nor an old block brought over into its own bytes, and the register is
 *     not one of the two blocks in the slip.
 *   - No pointer is null, not even with a length of 0. With a length of 0 it need not point to
 *     anything: nothing is read or written through it. For a block, old, answers, out or slip of length 0
 *     the call returns 1; a table's text may have length 0, and for a register file of length 0 it returns 7.
 *   - While a call runs, no other thread writes the bytes lent to it, nor reads bytes that it may
 *     write: no two calls at the same time on one block, with one answers buffer, or writing into one
 *     buffer of an order or for text, or one slip. Reach, use, order and write only read the block, so
 *     several of these may run on one block, each with buffers of its own. One table's text may be lent to
 *     any number of calls, and so may one register file to reads, one old block to bring_overs, and one slip
 *     to take_backs on different blocks.
 *   - The thread that calls has enough stack: a call needs at most 32 KiB of stack on x86-64. This
 *     is measured; the proofs know of no stack.
 *
 * WHAT THE REGISTER CAN'T KNOW. Who is calling: that a request really comes from the subject passed
 * as `by`, or as the giver of a grant, is the host's to establish. Who wrote the block, the file or
 * the slip: bytes that were changed and are still well formed are taken as they are, and so is a file that was
 * changed and is still a supported register's, and a slip that no cut wrote and that fits. One register is one
 * block: of two copies that have gone different ways, neither is aware of the other.
 */
#ifndef SEATREG_H
#define SEATREG_H

#include <stddef.h>
#include <stdint.h>

/* The version of this header and of the archive that comes with it, as text and as a number: 10,000
 * times the first part, plus 100 times the second, plus the third. README.md, 'Versions', says which
 * changes raise which part. */
#define SEATREG_VERSION "3.0.1"
#define SEATREG_VERSION_NUMBER 30001

/* Where the compiler has such attributes, it warns of a host that doesn't look at what a call
 * returns, and of a pointer that it can see to be null. */
#if defined(__GNUC__) && __GNUC__ >= 4
#define SEATREG_CALL __attribute__((warn_unused_result, nonnull))
#else
#define SEATREG_CALL
#endif

#ifdef __cplusplus
extern "C" {
#endif

/* Lengths of the block, the answers, the buffer of an order and a slip: pass these and nothing else. */
#define SEATREG_BLOCK_SIZE 2188
#define SEATREG_ANSWERS_SIZE 12
#define SEATREG_ORDER_SIZE 128
#define SEATREG_SLIP_SIZE 4381

/* The length of a block that was stored before version 2.0.0; only seatreg_bring_over takes one. */
#define SEATREG_OLD_BLOCK_SIZE 2180

/* The least length of the buffer for text that seatreg_write is lent: every register file fits. */
#define SEATREG_TEXT_SIZE 8192

/* Subjects are 0 to 63; 0 is the owner. At most 64 are enrolled and 256 delegations stand. */
#define SEATREG_OWNER 0
#define SEATREG_MOST_SUBJECTS 64
#define SEATREG_MOST_DELEGATIONS 256

/* Weights: 0 gives no passing on; 1 to 254 are steps; 255 is unlimited. An ordinary delegation of weight 0
 * gives use of the right alone. A pass-only one of weight 0 gives nothing: no grant makes it, a cut, a change of
 * marks or a retirement may leave it. */
#define SEATREG_USE_ONLY 0
#define SEATREG_UNLIMITED 255

/* The kind of a delegation: an ordinary one gives use of the right, a pass-only one doesn't. */
#define SEATREG_ORDINARY 0
#define SEATREG_PASS_ONLY 1

/* Marks are 16 bits: 0 to 65,535. So are the masks need and bar of a condition. */
#define SEATREG_MOST_MARKS 65535

/* What reach answers where there is no chain. */
#define SEATREG_NO_REACH (-1)

/* Which cut a slip is of. */
#define SEATREG_SLIP_REVOKE 2
#define SEATREG_SLIP_DOWNGRADE 3

/* What a call returns; seatreg_refusal_text says each in words. They are listed in the order in which
 * they apply. 7 is also for the lines of a call file. */
enum seatreg_refusal {
    SEATREG_ACCEPTED = 0,
    /* by what was passed */
    SEATREG_WRONG_LENGTH = 1,
    SEATREG_NO_SUBJECT = 2,
    SEATREG_NO_WEIGHT = 3,
    SEATREG_NO_MARKS = 4,
    SEATREG_EQUAL_PAIR = 5,
    SEATREG_TO_OWNER = 6,
    SEATREG_NO_KIND = 21,
    SEATREG_MALFORMED = 7,
    SEATREG_BAD_TABLE = 17,
    /* by what the register holds */
    SEATREG_NOT_WELL_FORMED = 8,
    SEATREG_NOT_ENROLLED = 9,
    SEATREG_RETIRED = 19,
    SEATREG_ALL_ENROLLED = 10,
    SEATREG_PAIR_STANDS = 11,
    SEATREG_ALL_STAND = 12,
    SEATREG_NO_PAIR = 13,
    SEATREG_MAY_NOT = 14,
    SEATREG_OTHER_SLIP = 20,
    SEATREG_NOT_BELOW = 15,
    SEATREG_OVERWEIGHT = 16,
    /* by what a register file holds */
    SEATREG_UNSUPPORTED = 18
};

/* A short text for what a call returned, never null; for a number above 21, "no such refusal". */
static inline const char *seatreg_refusal_text(uint32_t refusal)
{
    static const char *const texts[] = {
        "accepted",
        "the block is not 2,188 bytes, an old block not of the old length, the answers not 12, the buffer of an order not 128, a slip not 4,381, or the buffer for text under 8,192",
        "a subject number is above 63",
        "the weight is above 255",
        "marks, need or bar above 65,535, or need and bar share a mark",
        "giver and receiver are equal",
        "the receiver is the owner, or the owner's own marks are to be set, or the owner is to be retired",
        "a table's text is of another form, or a line of a call file or a line of a register file is malformed",
        "the block, or an old one, is not well formed, or a register file's lines make no well-formed block",
        "a named subject, by included, isn't enrolled",
        "64 subjects are enrolled",
        "a delegation for this pair stands, and this is no raise: a larger weight with the same need, bar and kind",
        "256 delegations stand and the pair is not among them",
        "no delegation for this pair stands",
        "by is neither the giver, of a slip the giver on it, nor the owner, or, where only the owner may, by is not the owner",
        "the new weight isn't below the present one",
        "no chain from the owner carries the weight",
        "an entry of the step table breaks a rule",
        "a delegation of a register file is unsupported",
        "a named subject, by included, is retired",
        "the slip is not that of a cut which leaves this register under this table",
        "the kind is above 1, or a pass-only grant has weight 0"
    };
    return refusal < sizeof texts / sizeof texts[0] ? texts[refusal] : "no such refusal";
}

/* Writes a fresh register: the owner is enrolled, nobody is retired, no delegation stands.
 *   Overwrites whatever the 2,188 bytes held.
 *   Refusals in order: 1.
 *   Answers: 0, 0, 0. */
SEATREG_CALL uint32_t seatreg_open(uint8_t *block, size_t block_len,
                                   uint8_t *answers, size_t answers_len);

/* Enrols the next subject. A subject stays enrolled; seatreg_set_marks changes its marks. The numbers of
 * retired subjects are not given again, and these count among the 64.
 *   marks: its 16 marks, read as bits.
 *   Refusals in order: 1, 4, 8, 10.
 *   Answers: the new subject's number, 0, 0.
 *   Block: the subject is added. */
SEATREG_CALL uint32_t seatreg_enrol(uint8_t *block, size_t block_len,
                                    uint32_t marks,
                                    uint8_t *answers, size_t answers_len);

/* Grants: adds an ordinary delegation; raises the weight where an ordinary one stands for the pair with the
 * same need and bar and the weight is larger; the count stays. Accepted only where some chain of delegations
 * from the owner to the giver carries the weight, all of whose conditions the receiver meets.
 *   giver, receiver: the pair; at most one delegation stands for it, and where it is pass-only the grant gets
 *     11.
 *   weight: 0 to 255. A grant never lowers: for a pair that stands, an equal or smaller one gets 11.
 *   need, bar: the condition on receivers further on. The marks must have all of need and none of
 *     bar; 0 and 0 is met by all. It doesn't bind this receiver itself. A grant for a pair that stands
 *     with another condition gets 11.
 *   Refusals in order: 1, 2, 3, 4, 5, 6, 8, 9, 19, 11, 12, 16.
 *   Answers: how many delegations stand now, 0, 0.
 *   Block: the delegation is added, or its weight raised. No other delegation changes: what the
 *     receiver passed on keeps its weight. */
SEATREG_CALL uint32_t seatreg_grant(uint8_t *block, size_t block_len,
                                    uint32_t giver, uint32_t receiver, uint32_t weight, uint32_t need, uint32_t bar,
                                    uint8_t *answers, size_t answers_len);

/* Reach: the largest weight that a delegation from giver to receiver can have, whether the pair
 * stands or not.
 *   Refusals in order: 1, 2, 5, 6, 8, 9, 19.
 *   Answers: 0 to 255, or -1 (SEATREG_NO_REACH) where there is no chain; 0, 0.
 *   Block: only read. */
SEATREG_CALL uint32_t seatreg_reach(const uint8_t *block, size_t block_len,
                                    uint32_t giver, uint32_t receiver,
                                    uint8_t *answers, size_t answers_len);

/* Use: whether a subject may use the right. The owner may.
 *   Refusals in order: 1, 2, 8, 9, 19.
 *   Answers: 1 if receiver is the owner or some ordinary delegation to it stands, else 0; 0, 0. Where all that
 *     it was given is pass-only, it is 0. A retired subject gets 19, never 0.
 *   Block: only read. */
SEATREG_CALL uint32_t seatreg_use(const uint8_t *block, size_t block_len,
                                  uint32_t receiver,
                                  uint8_t *answers, size_t answers_len);

/* Revoke, a cut: removes the delegation of a pair, then lowers or drops what it held up.
 *   by: who asks; the giver and the owner may.
 *   Refusals in order: 1, 2, 5, 6, 8, 9, 19, 13, 14.
 *   Answers: how many other delegations were dropped, how many were lowered and stay, the rounds.
 *     The rounds count the last, which changes nothing: 1 to 511 of them.
 *   Block: the best remainder, in which every delegation is supported and as heavy as it can be. */
SEATREG_CALL uint32_t seatreg_revoke(uint8_t *block, size_t block_len,
                                     uint32_t by, uint32_t giver, uint32_t receiver,
                                     uint8_t *answers, size_t answers_len);

/* Downgrade, a cut: gives the delegation of a pair a smaller weight, then as revoke.
 *   by: as for revoke. weight: below the present one; 0 for a pass-only one too, which then gives nothing and
 *     stays.
 *   Refusals in order: 1, 2, 3, 5, 6, 8, 9, 19, 13, 14, 15.
 *   Answers: dropped, lowered, rounds, as for revoke; the pair's own delegation is compared with the
 *     new weight.
 *   Block: the best remainder, as for revoke. */
SEATREG_CALL uint32_t seatreg_downgrade(uint8_t *block, size_t block_len,
                                        uint32_t by, uint32_t giver, uint32_t receiver, uint32_t weight,
                                        uint8_t *answers, size_t answers_len);

/* THE CALLS UNDER A STEP TABLE do what those above do, with every chain judged by the lent table.
 *   table: its text, as THE STEP TABLE says; only read. With table_len 0 it is ours, and the call does
 *     what the one without a table does. */

/* Grants under a table: adds an ordinary delegation, or raises the weight of one that stands.
 *   giver, receiver, weight, need, bar: as for seatreg_grant.
 *   Refusals in order: 1, 2, 3, 4, 5, 6, 7, 17, 8, 9, 19, 11, 12, 16.
 *   Answers: how many delegations stand now, 0, 0.
 *   Block: as for seatreg_grant. */
SEATREG_CALL uint32_t seatreg_grant_table(uint8_t *block, size_t block_len,
                                          uint32_t giver, uint32_t receiver, uint32_t weight, uint32_t need, uint32_t bar,
                                          const uint8_t *table, size_t table_len,
                                          uint8_t *answers, size_t answers_len);

/* Grants a delegation of a kind: what seatreg_grant_table does, and with SEATREG_PASS_ONLY the same for a
 * delegation that gives no use of the right, as PASS-ONLY DELEGATIONS says.
 *   giver, receiver, need, bar: as for seatreg_grant.
 *   weight: as for seatreg_grant, but for a pass-only delegation 1 to 255: 0 gets 21.
 *   kind: SEATREG_ORDINARY or SEATREG_PASS_ONLY; a number above 1 gets 21. For a pair that stands it is that
 *     which stands: another gets 11, whatever the weight and the condition.
 *   Refusals in order: 1, 2, 3, 4, 5, 6, 21, 7, 17, 8, 9, 19, 11, 12, 16.
 *     No other call returns 21.
 *   Answers: how many delegations stand now, 0, 0.
 *   Block: as for seatreg_grant; a delegation that is added has this kind. */
SEATREG_CALL uint32_t seatreg_grant_kind(uint8_t *block, size_t block_len,
                                         uint32_t giver, uint32_t receiver, uint32_t weight, uint32_t need, uint32_t bar,
                                         uint32_t kind,
                                         const uint8_t *table, size_t table_len,
                                         uint8_t *answers, size_t answers_len);

/* Reach under a table.
 *   giver, receiver: as for seatreg_reach.
 *   Refusals in order: 1, 2, 5, 6, 7, 17, 8, 9, 19.
 *   Answers: 0 to 255, or -1 (SEATREG_NO_REACH) where there is no chain; 0, 0.
 *   Block: only read. */
SEATREG_CALL uint32_t seatreg_reach_table(const uint8_t *block, size_t block_len,
                                          uint32_t giver, uint32_t receiver,
                                          const uint8_t *table, size_t table_len,
                                          uint8_t *answers, size_t answers_len);

/* Revoke under a table, a cut.
 *   by, giver, receiver: as for seatreg_revoke.
 *   Refusals in order: 1, 2, 5, 6, 7, 17, 8, 9, 19, 13, 14.
 *   Answers: dropped, lowered, rounds, as for seatreg_revoke. What the table doesn't support is
 *     counted too, whichever table it was granted under.
 *   Block: the best remainder under this table. */
SEATREG_CALL uint32_t seatreg_revoke_table(uint8_t *block, size_t block_len,
                                           uint32_t by, uint32_t giver, uint32_t receiver,
                                           const uint8_t *table, size_t table_len,
                                           uint8_t *answers, size_t answers_len);

/* Downgrade under a table, a cut.
 *   by, giver, receiver, weight: as for seatreg_downgrade.
 *   Refusals in order: 1, 2, 3, 5, 6, 7, 17, 8, 9, 19, 13, 14, 15.
 *   Answers: dropped, lowered, rounds, as for seatreg_downgrade. What the table doesn't support is
 *     counted too, whichever table it was granted under.
 *   Block: the best remainder under this table. */
SEATREG_CALL uint32_t seatreg_downgrade_table(uint8_t *block, size_t block_len,
                                              uint32_t by, uint32_t giver, uint32_t receiver, uint32_t weight,
                                              const uint8_t *table, size_t table_len,
                                              uint8_t *answers, size_t answers_len);

/* Sets the marks of a subject, as when a course is passed or a certificate lapses; then lowers or drops
 * what no longer stands under the new marks.
 *   by: who asks; the owner alone may, not the subject itself.
 *   subject: any enrolled subject but the owner and those retired.
 *   marks: its 16 marks from now on, all of them. To give or take one, begin with what seatreg_marks reads.
 *   table: as for the calls above: the text of the table that is lent with every other call on the
 *     register, or table_len 0 for ours.
 *   Refusals in order: 1, 2, 4, 6, 7, 17, 8, 9, 19, 14.
 *   Answers: dropped, lowered, rounds, as for a cut that names no delegation: how many were dropped, how
 *     many were lowered and stay, together at most 256, and 1 to 512 rounds. Where the subject has these
 *     marks already and the table supports the register, the answers are 0, 0, 1 and no byte changes.
 *   Block: the subject has the new marks, and the delegations are the best remainder under them: each is
 *     supported and as heavy as it can be, but none heavier than before.
 *     A subject's marks count for what is given to it: it must meet the conditions of a chain to its giver.
 *     The condition of a delegation to it binds those further on and not itself. What it gave to others is
 *     judged by their marks, and is lowered or dropped only with what held it up.
 *     Nothing is lifted and nothing comes back: the old marks, set again, undo nothing, and where a
 *     condition bars them they can cost more. What may be heavier now its giver raises, and what may
 *     stand again its giver grants. */
SEATREG_CALL uint32_t seatreg_set_marks(uint8_t *block, size_t block_len,
                                        uint32_t by, uint32_t subject, uint32_t marks,
                                        const uint8_t *table, size_t table_len,
                                        uint8_t *answers, size_t answers_len);

/* Retires a subject, as when a dealer leaves: removes every delegation to it and from it, clears its marks
 * and notes that it is retired; then lowers or drops what those delegations held up.
 *   There is no way back: no call takes a retirement away, and enrolling gives a new number. A host that
 *     may have to go back keeps a copy of the block from before the call.
 *   by: who asks; the owner alone may, not the subject itself.
 *   subject: any enrolled subject but the owner; one that is retired already gets 19.
 *   table: as for the calls above: the text of the table that is lent with every other call on the
 *     register, or table_len 0 for ours.
 *   Refusals in order: 1, 2, 6, 7, 17, 8, 9, 19, 14.
 *   Answers: dropped, lowered, rounds, as for a cut: how many of the other delegations were dropped, how
 *     many were lowered and stay, together at most 256, and 1 to 512 rounds. The subject's own delegations,
 *     to it and from it, are in neither count.
 *   Block: the subject is retired, with marks 0 and no delegation, and stays enrolled. The others are the
 *     best remainder: each is supported and as heavy as it can be, but none heavier than before. */
SEATREG_CALL uint32_t seatreg_retire(uint8_t *block, size_t block_len,
                                     uint32_t by, uint32_t subject,
                                     const uint8_t *table, size_t table_len,
                                     uint8_t *answers, size_t answers_len);

/* Revoke with a slip, a cut: does what seatreg_revoke_table does, and writes the slip that takes it back, as
 * SLIPS says.
 *   by, giver, receiver: as for seatreg_revoke.
 *   table: as for the calls above: the text of the table that is lent with every other call on the
 *     register, or table_len 0 for ours.
 *   slip: the buffer, 4,381 bytes (SEATREG_SLIP_SIZE), neither fewer nor more, of any content.
 *   Refusals in order: 1, 2, 5, 6, 7, 17, 8, 9, 19, 13, 14.
 *   Answers: dropped, lowered, rounds, as for seatreg_revoke_table.
 *   Slip: all 4,381 bytes are written where the call is accepted, and stay where it is refused.
 *   Block: the best remainder under this table. */
SEATREG_CALL uint32_t seatreg_revoke_slip(uint8_t *block, size_t block_len,
                                          uint32_t by, uint32_t giver, uint32_t receiver,
                                          const uint8_t *table, size_t table_len,
                                          uint8_t *slip, size_t slip_len,
                                          uint8_t *answers, size_t answers_len);

/* Downgrade with a slip, a cut: does what seatreg_downgrade_table does, and writes the slip that takes it
 * back, as SLIPS says.
 *   by, giver, receiver, weight: as for seatreg_downgrade. table, slip: as for seatreg_revoke_slip.
 *   Refusals in order: 1, 2, 3, 5, 6, 7, 17, 8, 9, 19, 13, 14, 15.
 *   Answers: dropped, lowered, rounds, as for seatreg_downgrade_table.
 *   Slip: all 4,381 bytes are written where the call is accepted, and stay where it is refused.
 *   Block: the best remainder under this table. */
SEATREG_CALL uint32_t seatreg_downgrade_slip(uint8_t *block, size_t block_len,
                                             uint32_t by, uint32_t giver, uint32_t receiver, uint32_t weight,
                                             const uint8_t *table, size_t table_len,
                                             uint8_t *slip, size_t slip_len,
                                             uint8_t *answers, size_t answers_len);

/* Takes a cut back: puts the block before the cut, which the slip holds, in the place of the register. SLIPS
 * says how long a slip is good, and why none is taken from a subject.
 *   by: who asks; the owner and the giver on the slip may. It need not be who made the cut.
 *   table: the text of the table that the cut was made under, or table_len 0 for ours.
 *   slip: 4,381 bytes (SEATREG_SLIP_SIZE), as the cut wrote them; only read.
 *   Refusals in order: 1, 2, 7, 17, 8, 9, 19, 14, 20.
 *     2, 9 and 19 are for by alone, and 8 for the block alone: the subjects on the slip and the blocks in it
 *     get 20 where something is wrong with them. 14 looks at the giver on the slip, whatever else it holds.
 *     20 is for every slip but one whose block after is the register, byte for byte, and whose cut, made
 *     again on its block before by the by on the slip and under this table, is accepted and writes these same
 *     4,381 bytes. Directly after a cut, the slip that it wrote is always accepted from who made the cut, under
 *     the same table.
 *   Answers: 0, 0, 0.
 *   Block: the block before, byte for byte. Nothing is lowered or dropped in it. */
SEATREG_CALL uint32_t seatreg_take_back(uint8_t *block, size_t block_len,
                                        uint32_t by,
                                        const uint8_t *table, size_t table_len,
                                        const uint8_t *slip, size_t slip_len,
                                        uint8_t *answers, size_t answers_len);

/* Order: from whom the right can come to one receiver, and how far, the heaviest giver first. It writes
 * precisely the subjects whose reach for this receiver isn't -1, each with that reach, its limit.
 *   receiver: any enrolled subject but the owner and those retired.
 *   table: as for the calls above: the text of the table that is lent with every other call on the
 *     register, or table_len 0 for ours.
 *   out: the buffer, 128 bytes (SEATREG_ORDER_SIZE), neither fewer nor more.
 *   Refusals in order: 1, 2, 6, 7, 17, 8, 9, 19.
 *   Answers: how many bytes were written, two for each subject, 2 to 128; 0, 0.
 *   Out: for each subject a byte for its number and a byte for its limit. This prints them:
 *         for (int32_t i = 0; i < seatreg_answer(answers, 0); i += 2)
 *             printf("%d %d\n", out[i], out[i + 1]);
 *     The owner is first, with 255. Then comes always the heaviest unwritten one whose limit comes by
 *     one delegation from a subject already written, of equally heavy ones that of the lowest number.
 *     The bytes after the last limit stay as they were.
 *     A limit, 0 to 255, is how much the subject could pass on to this receiver now: what
 *     seatreg_reach_table, lent the same table, answers for that giver and this receiver, where the two
 *     differ. The receiver itself is among the subjects where a chain from the owner to it, all of whose
 *     conditions it meets, carries a limit; its own is then the largest of these.
 *   Block: only read. */
SEATREG_CALL uint32_t seatreg_order(const uint8_t *block, size_t block_len,
                                    uint32_t receiver,
                                    const uint8_t *table, size_t table_len,
                                    uint8_t *out, size_t out_len,
                                    uint8_t *answers, size_t answers_len);

/* Write: the register as text, a register file, as THE REGISTER FILE says. Every well-formed register
 * is written, supported or not; there is no table.
 *   text: the buffer, 8,192 bytes (SEATREG_TEXT_SIZE) or more; a shorter one gets 1.
 *   Refusals in order: 1, 8.
 *   Answers: how many bytes were written, 0, 0. This is the length of the file, 65 at least.
 *   Text: the file is the front of the buffer. The bytes after it stay as they were: no 0 byte is put
 *     there, so the file is no string of C.
 *   Block: only read. */
SEATREG_CALL uint32_t seatreg_write(const uint8_t *block, size_t block_len,
                                    uint8_t *text, size_t text_len,
                                    uint8_t *answers, size_t answers_len);

/* Read: writes the block of a register file.
 *   text: the file, only read. text_len is its own length, after seatreg_write the first answer, and
 *     not that of a buffer in which it lies: whatever follows its last line gets 7. It has no limit, but
 *     a text longer than SEATREG_TEXT_SIZE is no register's file, and may be turned away unread.
 *   table: as for the calls above: the text of the table that the register is kept under, or table_len
 *     0 for ours. Every delegation of the file must be supported by it, else 18.
 *   Refusals in order: 1, 7, 17, 8, 18.
 *   Answers: 0, 0, 0.
 *   Block: 2,188 bytes of any content. What they held is not looked at, is overwritten where the call
 *     is accepted and stays where it is refused. */
SEATREG_CALL uint32_t seatreg_read(uint8_t *block, size_t block_len,
                                   const uint8_t *text, size_t text_len,
                                   const uint8_t *table, size_t table_len,
                                   uint8_t *answers, size_t answers_len);

/* Brings over: makes the block of a register that was stored before version 2.0.0, when a block had 2,180
 * bytes, nobody could be retired and every delegation was ordinary. The register is the same, with nobody
 * retired.
 *   old: the stored bytes, only read; old_len is SEATREG_OLD_BLOCK_SIZE.
 *   Refusals in order: 1, 8.
 *     8 is for an old block that is not well formed with the eight bytes put in. Byte 3 of a record, 0 in every
 *     block that a call left then, is taken as the kind, so 1 there comes over as pass-only. Whether a table
 *     supports the register is not asked.
 *   Answers: 0, 0, 0.
 *   Block: 2,188 bytes of any content. What they held is not looked at, is overwritten where the call
 *     is accepted and stays where it is refused. */
SEATREG_CALL uint32_t seatreg_bring_over(const uint8_t *old, size_t old_len,
                                         uint8_t *block, size_t block_len,
                                         uint8_t *answers, size_t answers_len);

/* One of the three answers: i is 0, 1 or 2. Only after an accepted call do the bytes hold answers. */
SEATREG_CALL static inline int32_t seatreg_answer(const uint8_t *answers, size_t i)
{
    const uint8_t *four = answers + 4 * i;
    uint32_t low = (uint32_t)four[0] | (uint32_t)four[1] << 8;
    uint32_t bits = low | (uint32_t)four[2] << 16 | (uint32_t)four[3] << 24;
    return bits <= 0x7fffffffu ? (int32_t)bits : -(int32_t)(0xffffffffu - bits) - 1;
}

/* THE READERS list what a register holds. They are for a block that a call accepted and that nobody
 * has written since, but further calls: they test nothing, and on other bytes they may read past the
 * block. After a block was loaded from somewhere, seatreg_use with SEATREG_OWNER tells: it returns 0
 * just where the block is well formed. As during a call, no other thread writes the block meanwhile. */

/* A delegation: receivers further on must have the marks of need and none of bar. Only an ordinary one gives its
 * receiver use of the right. */
struct seatreg_delegation {
    uint32_t giver;    /* 0 to 63, not retired */
    uint32_t receiver; /* 1 to 63, not retired */
    uint32_t weight;   /* 0 to 255 */
    uint32_t need;     /* 0 to 65,535 */
    uint32_t bar;      /* 0 to 65,535 */
    uint32_t kind;     /* SEATREG_ORDINARY or SEATREG_PASS_ONLY */
};

/* How many subjects are enrolled, 1 to 64, the retired ones too: they are 0, the owner, to one less than
 * this. */
SEATREG_CALL static inline uint32_t seatreg_subjects(const uint8_t *block)
{
    return block[0];
}

/* The marks of a subject, which is below seatreg_subjects(block). Those of the owner and of retired
 * subjects are 0. */
SEATREG_CALL static inline uint32_t seatreg_marks(const uint8_t *block, uint32_t subject)
{
    const uint8_t *two = block + 4 + 2 * (size_t)subject;
    return (uint32_t)two[0] | (uint32_t)two[1] << 8;
}

/* 1 where a subject, which is below seatreg_subjects(block), is retired, else 0. */
SEATREG_CALL static inline uint32_t seatreg_is_retired(const uint8_t *block, uint32_t subject)
{
    return ((uint32_t)block[132 + subject / 8] >> (subject % 8)) & 1u;
}

/* How many delegations stand, 0 to 256. */
SEATREG_CALL static inline uint32_t seatreg_delegations(const uint8_t *block)
{
    return (uint32_t)block[2] | (uint32_t)block[3] << 8;
}

/* The i-th delegation, where i is below seatreg_delegations(block). They rise by giver and, for one
 * giver, by receiver, and no pair occurs twice. */
SEATREG_CALL static inline struct seatreg_delegation seatreg_delegation_at(const uint8_t *block, uint32_t i)
{
    const uint8_t *record = block + 140 + 8 * (size_t)i;
    struct seatreg_delegation d;
    d.giver = record[0];
    d.receiver = record[1];
    d.weight = record[2];
    d.need = (uint32_t)record[4] | (uint32_t)record[5] << 8;
    d.bar = (uint32_t)record[6] | (uint32_t)record[7] << 8;
    d.kind = record[3];
    return d;
}

/* The cut on a slip. */
struct seatreg_cut {
    uint32_t kind;     /* SEATREG_SLIP_REVOKE or SEATREG_SLIP_DOWNGRADE */
    uint32_t by;       /* who made it */
    uint32_t giver;    /* this one and the owner may take it back */
    uint32_t receiver;
    uint32_t weight;   /* the new weight; 0 for a revocation */
};

/* Which cut a slip is of: for 4,381 bytes that a cut wrote; of others it gives what they hold. The block before
 * is the slip's first 2,188 bytes, so the readers above list it when they are passed the slip itself. */
SEATREG_CALL static inline struct seatreg_cut seatreg_slip_cut(const uint8_t *slip)
{
    const uint8_t *five = slip + SEATREG_BLOCK_SIZE;
    struct seatreg_cut cut;
    cut.kind = five[0];
    cut.by = five[1];
    cut.giver = five[2];
    cut.receiver = five[3];
    cut.weight = five[4];
    return cut;
}

#ifdef __cplusplus
}
#endif

#endif
