//! What a comparison counts of the kinds of delegations.

use crate::contents::{Asked, Contents};
use crate::entry::FileCall;
use crate::olds::new_layout;
use crate::report::{absent, Case};
use second::block::{
    decode, word, Delegation, Register, BLOCK_LEN, DELEGATIONS_AT, KIND, MOST_DELEGATIONS, ORDINARY, PASS_ONLY,
    RECORDS_AT, RECORD_LEN,
};
use second::refusal::{Call, NOT_WELL_FORMED, OTHER_SLIP};
use second::regfile::Rows;
use second::slip::AFTER_AT;

/// What became of pass-only delegations in calls that are lent a table.
#[derive(Clone, Copy, Default)]
pub struct Kinds {
    /// How many were granted, how many raised, and of these how many from 0.
    granted: u64,
    raised: u64,
    from_0: u64,
    /// 11 where nothing but the kind is in the way of a raise: to a pass-only delegation, to an ordinary one.
    not_ordinary: u64,
    not_pass_only: u64,
    /// How many a downgrade brought to 0, and how many the rounds did.
    cut_to_0: u64,
    lowered_to_0: u64,
    /// Register files with one: read, and refused with 8 for the column `pass` alone.
    read: u64,
    unread: u64,
    /// Cuts taken back to a register with one, and slips refused with 20 for kinds alone.
    taken_back: u64,
    not_taken: u64,
}

impl Kinds {
    pub fn add(&mut self, case: &Case) {
        self.add_grant(case);
        self.add_lowered(case);
        match case.asked {
            Asked::File(FileCall::Read) => {
                self.read += (case.due == 0 && has_pass_only(&case.left.block)) as u64;
                self.unread += (case.due == NOT_WELL_FORMED && is_register_but_for_pass(&case.left.file)) as u64;
            }
            Asked::TakeBack(_) => {
                self.taken_back += (case.due == 0 && has_pass_only(&case.left.block)) as u64;
                self.not_taken += (case.due == OTHER_SLIP && is_taken_but_for_kinds(case)) as u64;
            }
            _ => (),
        }
    }

    fn add_grant(&mut self, case: &Case) {
        let Asked::Call(n) = case.asked else { return };
        let pass_only = n.kind == PASS_ONLY as u32;
        let Some(standing) = &case.standing else {
            self.granted += (n.call == Call::GrantKind && case.due == 0 && pass_only) as u64;
            return;
        };
        let raised = (case.due == 0 && pass_only) as u64;
        self.raised += raised;
        self.from_0 += raised * (standing.record().weight == 0) as u64;
        let other = !standing.same_kind() && standing.same_condition() && standing.gain() > 0;
        self.not_pass_only += (other && pass_only) as u64;
        self.not_ordinary += (other && !pass_only) as u64;
    }

    /// Looks at the pass-only delegations that a call has brought to 0.
    fn add_lowered(&mut self, case: &Case) {
        let (Asked::Call(n) | Asked::CutSlip(n)) = case.asked else { return };
        if case.due != 0 || !matches!(n.call, Call::Revoke | Call::Downgrade | Call::SetMarks | Call::Retire) {
            return;
        }
        let (Some(before), Some(after)) = (decode(&case.before), decode(&case.left.block)) else { return };
        for d in after.delegations.iter().filter(|d| is_brought_to_0(&before, d)) {
            let named = n.call == Call::Downgrade && (n.giver, n.receiver) == (d.giver as u32, d.receiver as u32);
            self.cut_to_0 += named as u64;
            self.lowered_to_0 += !named as u64;
        }
    }

    pub fn missing(&self) -> Vec<String> {
        let Kinds { granted, raised, from_0, not_ordinary, not_pass_only, .. } = *self;
        let Kinds { cut_to_0, lowered_to_0, read, unread, taken_back, not_taken, .. } = *self;
        absent(&[
            (granted, "a pass-only grant"),
            (raised, "a pass-only delegation raised"),
            (from_0, "a pass-only delegation raised from 0"),
            (not_ordinary, "11 for an ordinary grant where a pass-only delegation stands"),
            (not_pass_only, "11 for a pass-only grant where an ordinary delegation stands"),
            (cut_to_0, "a pass-only delegation downgraded to 0"),
            (lowered_to_0, "a pass-only delegation lowered to 0 by rounds"),
            (read, "a file with a pass-only delegation read"),
            (unread, "8 for the column pass alone"),
            (taken_back, "a cut taken back to a register with a pass-only delegation"),
            (not_taken, "20 for kinds alone"),
        ])
    }

    pub fn print(&self, table: &str) {
        let Kinds { granted, raised, from_0, not_ordinary, not_pass_only, .. } = *self;
        let Kinds { cut_to_0, lowered_to_0, read, unread, taken_back, not_taken, .. } = *self;
        println!("pass-only under {table}: {granted} granted, {raised} raised, {from_0} of them from 0");
        println!("        11 for the other kind: {not_ordinary} for an ordinary grant, {not_pass_only} for a pass-only one");
        println!("        brought to 0: {cut_to_0} by a downgrade, {lowered_to_0} by rounds");
        println!("        register files: {read} read, {unread} with 8 for the column pass alone");
        println!("        slips: {taken_back} taken back, {not_taken} with 20 for kinds alone");
    }
}

/// What became of kinds in calls that are lent no table.
#[derive(Clone, Copy, Default)]
pub struct PlainKinds {
    /// Use answered with 0 where pass-only delegations alone stand, and with 1 where both kinds stand.
    unused: u64,
    used: u64,
    /// Old blocks with a pass-only delegation, brought over, and refused with 8 for kinds alone.
    brought: u64,
    not_brought: u64,
    /// Blocks refused with 8 for kinds alone.
    unformed: u64,
}

impl PlainKinds {
    pub fn add(&mut self, case: &Case) {
        let Contents { block, file, .. } = &case.left;
        match case.asked {
            Asked::Call(n) if n.call == Call::Use && case.due == 0 => self.add_use(case, n.receiver),
            Asked::BringOver if case.due == 0 => self.brought += has_pass_only(block) as u64,
            Asked::BringOver => self.not_brought += (case.due == NOT_WELL_FORMED && is_formed(&new_layout(file))) as u64,
            Asked::File(FileCall::Read) => (),
            _ => self.unformed += (case.due == NOT_WELL_FORMED && is_formed(block)) as u64,
        }
    }

    fn add_use(&mut self, case: &Case, receiver: u32) {
        let register = decode(&case.left.block).expect("the block of an accepted use is well formed");
        let has = |kind: u8| register.delegations.iter().any(|d| d.receiver as u32 == receiver && d.kind == kind);
        let used = case.left.answer() == 1;
        self.unused += (has(PASS_ONLY) && !used) as u64;
        self.used += (has(PASS_ONLY) && has(ORDINARY) && used) as u64;
    }

    pub fn missing(&self) -> Vec<String> {
        let PlainKinds { unused, used, brought, not_brought, unformed } = *self;
        absent(&[
            (unused, "use answered with 0 where pass-only delegations alone stand"),
            (used, "use answered with 1 where both kinds stand"),
            (brought, "an old block with a pass-only delegation brought over"),
            (not_brought, "8 for an old block for kinds alone"),
            (unformed, "8 for kinds alone"),
        ])
    }

    pub fn print(&self) {
        let PlainKinds { unused, used, brought, not_brought, unformed } = *self;
        println!("use: {unused} with 0 where pass-only delegations alone stand, {used} with 1 where both kinds stand");
        println!("old blocks with pass-only delegations: {brought} brought over, {not_brought} with 8 for kinds alone");
        println!("blocks with 8 for kinds alone: {unformed}");
    }
}

/// Makes every used record of a block of the right length ordinary.
pub fn make_ordinary(block: &mut [u8]) {
    let used = (word(block, DELEGATIONS_AT) as usize).min(MOST_DELEGATIONS);
    block[RECORDS_AT..].chunks_mut(RECORD_LEN).take(used).for_each(|record| record[KIND] = ORDINARY);
}

/// The same of both blocks on a slip of the right length.
pub fn make_slip_ordinary(slip: &mut [u8]) {
    make_ordinary(&mut slip[..BLOCK_LEN]);
    make_ordinary(&mut slip[AFTER_AT..]);
}

/// A pass-only delegation at 0 that was heavier before.
fn is_brought_to_0(before: &Register, d: &Delegation) -> bool {
    let heavier = |before: &Delegation| before.weight > 0;
    d.kind == PASS_ONLY && d.weight == 0 && before.standing(d.giver as u32, d.receiver as u32).is_some_and(heavier)
}

/// In a well-formed block.
fn has_pass_only(block: &[u8]) -> bool {
    block[RECORDS_AT..].chunks(RECORD_LEN).any(|record| record[KIND] == PASS_ONLY)
}

/// Well formed if all is made ordinary.
fn is_formed(block: &[u8]) -> bool {
    let mut block = block.to_vec();
    make_ordinary(&mut block);
    decode(&block).is_some()
}

fn is_register_but_for_pass(file: &[u8]) -> bool {
    let Some(mut rows) = Rows::read(file) else { return false };
    rows.delegations.iter_mut().for_each(|row| row[5] = 0);
    rows.register().is_some()
}

/// Taken back if all is made ordinary, in the register and on the slip.
fn is_taken_but_for_kinds(case: &Case) -> bool {
    let mut ordinary = case.left.clone();
    make_ordinary(&mut ordinary.block);
    make_slip_ordinary(&mut ordinary.file);
    ordinary.call(&case.asked) == 0
}
