/* The header's inline functions as functions that a program in another language can call. */
#include "seatreg.h"

uint32_t read_subjects(const uint8_t *block) { return seatreg_subjects(block); }
uint32_t read_marks(const uint8_t *block, uint32_t subject) { return seatreg_marks(block, subject); }
uint32_t read_is_retired(const uint8_t *block, uint32_t subject) { return seatreg_is_retired(block, subject); }
uint32_t read_delegations(const uint8_t *block) { return seatreg_delegations(block); }
const char *read_refusal_text(uint32_t refusal) { return seatreg_refusal_text(refusal); }
int32_t read_answer(const uint8_t *answers, size_t i) { return seatreg_answer(answers, i); }

struct seatreg_cut read_slip_cut(const uint8_t *slip) { return seatreg_slip_cut(slip); }

struct seatreg_delegation read_delegation_at(const uint8_t *block, uint32_t i)
{
    return seatreg_delegation_at(block, i);
}
