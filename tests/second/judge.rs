//! A judge of written chains. It shares no code with the searches: each
//! sentence of document 01's definition is one test here.

use crate::block::{decode, Delegation, Register};
use crate::table::Table;

/// Judges the bytes that a chain call wrote for a standing delegation.
pub fn judge(table: &Table, block: &[u8], giver: u32, receiver: u32, written: &[u8]) -> Result<(), String> {
    let register = decode(block).ok_or("the block is not well formed")?;
    let named = find(&register, giver, receiver).ok_or("the pair doesn't stand")?;
    if written.len() % 2 != 0 {
        return Err("half a link".to_string());
    }
    let mut links = Vec::new();
    for pair in written.chunks_exact(2) {
        links.push(find(&register, pair[0] as u32, pair[1] as u32).ok_or("a link doesn't stand")?);
    }
    judge_ends(&links, giver)?;
    judge_subjects(&links)?;
    judge_conditions(&links, register.marks_of(receiver))?;
    if judge_limit(table, &links)? < named.weight as i32 {
        return Err("the limit is below the weight".to_string());
    }
    Ok(())
}

fn find(register: &Register, giver: u32, receiver: u32) -> Option<Delegation> {
    register.delegations.iter().copied().find(|d| (d.giver as u32, d.receiver as u32) == (giver, receiver))
}

/// The first comes from the owner, each later one from the receiver before it,
/// the last ends at the giver.
fn judge_ends(links: &[Delegation], giver: u32) -> Result<(), String> {
    let mut end = 0;
    for link in links {
        if link.giver != end {
            return Err("a link doesn't come from the receiver before it".to_string());
        }
        end = link.receiver;
    }
    if end as u32 == giver {
        return Ok(());
    }
    Err("the last link doesn't end at the giver".to_string())
}

/// No subject, the owner included, occurs twice.
fn judge_subjects(links: &[Delegation]) -> Result<(), String> {
    let mut subjects = vec![0];
    subjects.extend(links.iter().map(|link| link.receiver));
    subjects.sort_unstable();
    if subjects.windows(2).any(|two| two[0] == two[1]) {
        return Err("a subject occurs twice".to_string());
    }
    Ok(())
}

/// The receiver of the pair meets the condition of every link.
fn judge_conditions(links: &[Delegation], marks: u16) -> Result<(), String> {
    for link in links {
        let lacks = link.need & !marks != 0;
        let barred = link.bar & marks != 0;
        if lacks || barred {
            return Err("the receiver doesn't meet a condition".to_string());
        }
    }
    Ok(())
}

/// The limit starts at 255 and becomes, at each link, the table's entry for the
/// smaller of the limit and the link's weight; it never becomes -1.
fn judge_limit(table: &Table, links: &[Delegation]) -> Result<i32, String> {
    let mut limit = 255;
    for link in links {
        let smaller = limit.min(link.weight as i32);
        limit = table.next[smaller as usize] as i32;
        if limit < 0 {
            return Err("the limit becomes -1".to_string());
        }
    }
    Ok(limit)
}
