//! What a comparison counts and prints.

use crate::contents::{Asked, Contents};
use crate::draw::{Kind, KINDS};
use crate::entry::{is_always_lent, Entry, FileCall, ENTRIES};
use crate::kinds::{Kinds, PlainKinds};
use crate::returned::Back;
use crate::standing::{Standing, NUMBERS};
use crate::tables::{Text, TextKind, TEXT_KINDS};
use crate::taken::Taken;
use second::block::{word, BLOCK_LEN, DELEGATIONS_AT, MOST_DELEGATIONS, MOST_SUBJECTS, RECORDS_AT, RETIRED_AT};
use second::host::ANSWERS_LEN;
use second::refusal::{takes_table, tests, Call, NOT_WELL_FORMED, UNSUPPORTED, WRONG_LENGTH};
use second::regfile::{READ_REFUSALS, WRITE_REFUSALS};
use second::slip;
use std::collections::BTreeMap;

/// How many differences are printed.
const SHOWN: u64 = 5;

/// What is compared after a call.
#[derive(Clone, Copy, Debug, PartialEq, Eq)]
pub enum Part {
    Number,
    Block,
    Answers,
    /// The register file that was read, the slip or the old block, or every byte of the buffer that a write or an
    /// order is lent.
    File,
    Table,
    Guards,
    Listed,
    /// The file that was written, when it is read back.
    Back,
}

pub const PARTS: [Part; 8] = [
    Part::Number, Part::Block, Part::Answers, Part::File, Part::Table, Part::Guards, Part::Listed, Part::Back,
];

/// A call that was made on both sides.
pub struct Case {
    pub asked: Asked,
    pub text: Text,
    /// Of a grant for a standing pair.
    pub standing: Option<Standing>,
    /// The block before it, in the right length.
    pub before: Vec<u8>,
    /// What the entry point returned, and what the second implementation did.
    pub number: u32,
    pub due: u32,
    /// The buffers as the second implementation left them.
    pub left: Contents,
    /// Of an accepted write.
    pub back: Option<Back>,
    pub differs: Vec<Part>,
}

impl Case {
    fn entry(&self) -> Entry {
        match self.asked {
            Asked::Call(n) if is_always_lent(n.call) => Entry::Always(n.call),
            Asked::Call(n) if self.text.kind == TextKind::Without => Entry::Without(n.call),
            Asked::Call(n) => Entry::WithTable(n.call),
            Asked::CutSlip(n) => Entry::CutSlip(n.call),
            Asked::TakeBack(_) => Entry::TakeBack,
            Asked::Order(_) => Entry::Order,
            Asked::File(call) => Entry::File(call),
            Asked::BringOver => Entry::BringOver,
        }
    }

    fn takes_table(&self) -> bool {
        match self.asked {
            Asked::Call(n) => takes_table(n.call),
            Asked::CutSlip(_) | Asked::TakeBack(_) | Asked::Order(_) => true,
            Asked::File(call) => call == FileCall::Read,
            Asked::BringOver => false,
        }
    }

    /// Whether 256 delegations stood before it.
    pub fn began_full(&self) -> bool {
        is_full(&self.before)
    }

    /// The call whose numbers were accepted, if it is one that is followed by rounds.
    fn settled(&self) -> Option<Call> {
        let (Asked::Call(n) | Asked::CutSlip(n)) = self.asked else { return None };
        let settles = matches!(n.call, Call::Revoke | Call::Downgrade | Call::SetMarks | Call::Retire);
        (self.due == 0 && settles).then_some(n.call)
    }
}

pub struct Report {
    pub cases: u64,
    different: u64,
    in_part: [u64; PARTS.len()],
    of_kind: [u64; KINDS.len()],
    block_lengths: u64,
    answers_lengths: u64,
    /// What the calls that take a table were lent.
    of_text: [u64; TEXT_KINDS.len()],
    /// Under our table, and under others.
    cuts: [Settled; 2],
    marks: [Settled; 2],
    retired: [Settled; 2],
    taken: [Taken; 2],
    /// Old blocks brought over, and of these the full registers.
    brought: [u64; 2],
    standing: [StandingGrants; 2],
    orders: [Orders; 2],
    files: [Files; 2],
    kinds: [Kinds; 2],
    plain_kinds: PlainKinds,
    /// How often an entry point, by its place in `ENTRIES`, returned a number.
    returned: BTreeMap<(usize, u32), u64>,
    shows: bool,
}

/// What the rounds of accepted calls did.
#[derive(Clone, Copy, Default)]
struct Settled {
    /// How many began with 256 delegations.
    full: u64,
    /// How many left all as it was, dropped something, lowered something, had three rounds or more.
    nothing: u64,
    dropped: u64,
    lowered: u64,
    rounds: u64,
    /// The most rounds of one call.
    most: i32,
}

impl Settled {
    fn add(&mut self, case: &Case) {
        let [dropped, lowered, rounds] = case.left.three_answers();
        self.full += case.began_full() as u64;
        self.nothing += (rounds == 1) as u64;
        self.dropped += (dropped > 0) as u64;
        self.lowered += (lowered > 0) as u64;
        self.rounds += (rounds >= 3) as u64;
        self.most = self.most.max(rounds);
    }

    /// What did not occur of these calls.
    fn missing(&self, calls: &str) -> Vec<String> {
        let Settled { full, nothing, dropped, lowered, rounds, .. } = *self;
        let counts = [
            (full, "in a full register"),
            (nothing, "with no other change"),
            (dropped, "and something dropped"),
            (lowered, "and something lowered"),
            (rounds, "with 3 rounds"),
        ];
        absent(&counts).iter().map(|what| format!("{calls} {what}")).collect()
    }
}

/// What the accepted orders were.
#[derive(Clone, Copy, Default)]
struct Orders {
    /// How many were of full registers, had all 64 subjects, had the receiver and hadn't.
    full: u64,
    all: u64,
    with_receiver: u64,
    without: u64,
    /// How many were not by limit, then number: a subject came after one of the same limit and a larger number.
    unsorted: u64,
}

impl Orders {
    fn add(&mut self, case: &Case) {
        let Asked::Order(receiver) = case.asked else { return };
        if case.due != 0 {
            return;
        }
        let order: Vec<(u8, u8)> = case.left.items().collect();
        let has_receiver = order.iter().any(|&(subject, _)| subject as u32 == receiver);
        self.full += is_full(&case.left.block) as u64;
        self.all += (order.len() == MOST_SUBJECTS) as u64;
        self.with_receiver += has_receiver as u64;
        self.without += !has_receiver as u64;
        self.unsorted += order.windows(2).any(|two| two[0].1 == two[1].1 && two[0].0 > two[1].0) as u64;
    }

    /// What did not occur; orders of all subjects need not occur under each table.
    fn missing(&self) -> Vec<String> {
        let Orders { full, with_receiver, without, unsorted, .. } = *self;
        let counts = [
            (full, "an order of a full register"),
            (with_receiver, "an order with its receiver"),
            (without, "an order without its receiver"),
            (unsorted, "an order that is not by number where limits tie"),
        ];
        absent(&counts)
    }
}

/// What became of the register files.
#[derive(Clone, Copy, Default)]
struct Files {
    /// How many were read, of these full registers and with a retired subject, and refused with 18.
    read: u64,
    full: u64,
    retired: u64,
    unsupported: u64,
    /// Of those that were written, how many came back as the same block, and how many with 18.
    same: u64,
    not_back: u64,
}

impl Files {
    fn add(&mut self, case: &Case) {
        self.same += (case.back == Some(Back::Same)) as u64;
        self.not_back += (case.back == Some(Back::Unsupported)) as u64;
        if !matches!(case.asked, Asked::File(FileCall::Read)) {
            return;
        }
        self.unsupported += (case.due == UNSUPPORTED) as u64;
        if case.due == 0 {
            self.read += 1;
            self.full += is_full(&case.left.block) as u64;
            self.retired += case.left.block[RETIRED_AT..RECORDS_AT].iter().any(|&bits| bits != 0) as u64;
        }
    }

    /// What did not occur.
    fn missing(&self) -> Vec<String> {
        let Files { read, full, retired, unsupported, same, not_back } = *self;
        let counts = [
            (read, "a file read"),
            (full, "a full register's file read"),
            (retired, "a file with a retired subject read"),
            (unsupported, "a file refused with 18"),
            (same, "a file written and read back"),
            (not_back, "a file written and refused with 18"),
        ];
        absent(&counts)
    }
}

/// What the grants for a standing pair returned, each of `NUMBERS` so often.
#[derive(Clone, Copy, Default)]
struct StandingGrants {
    returned: [u64; NUMBERS.len()],
    /// Of these, in a full register.
    full: [u64; NUMBERS.len()],
}

impl StandingGrants {
    fn add(&mut self, standing: &Standing, due: u32) {
        if let Some(place) = NUMBERS.iter().position(|&number| number == due) {
            self.returned[place] += 1;
            self.full[place] += standing.is_full() as u64;
        }
    }

    /// The numbers that were not returned, each with where.
    fn missing(&self) -> Vec<String> {
        let mut missing = Vec::new();
        for (place, &number) in NUMBERS.iter().enumerate() {
            if self.returned[place] == 0 {
                missing.push(format!("{number} for a standing pair, any register"));
            }
            if self.full[place] == 0 {
                missing.push(format!("{number} for a standing pair, a full register"));
            }
        }
        missing
    }
}

/// Whether 256 delegations stand in a block.
pub fn is_full(block: &[u8]) -> bool {
    word(block, DELEGATIONS_AT) as usize == MOST_DELEGATIONS
}

/// What has a count of 0.
pub fn absent(counts: &[(u64, &str)]) -> Vec<String> {
    counts.iter().filter(|(count, _)| *count == 0).map(|(_, what)| what.to_string()).collect()
}

/// The tables by which grants for a standing pair, cuts, settings of marks, retirements, slips, orders, register
/// files and kinds are counted.
const TABLES: [&str; 2] = ["our table", "others"];

impl Report {
    /// An empty one; `shows` prints the first differences as they are added.
    pub fn new(shows: bool) -> Report {
        Report {
            cases: 0,
            different: 0,
            in_part: [0; PARTS.len()],
            of_kind: [0; KINDS.len()],
            block_lengths: 0,
            answers_lengths: 0,
            of_text: [0; TEXT_KINDS.len()],
            cuts: [Settled::default(); 2],
            marks: [Settled::default(); 2],
            retired: [Settled::default(); 2],
            taken: [Taken::default(); 2],
            brought: [0; 2],
            standing: [StandingGrants::default(); 2],
            orders: [Orders::default(); 2],
            files: [Files::default(); 2],
            kinds: [Kinds::default(); 2],
            plain_kinds: PlainKinds::default(),
            returned: BTreeMap::new(),
            shows,
        }
    }

    pub fn add(&mut self, kind: Kind, case: &Case) {
        self.cases += 1;
        self.of_kind[kind as usize] += 1;
        self.block_lengths += (case.left.block.len() != BLOCK_LEN) as u64;
        self.answers_lengths += (case.left.answers.len() != ANSWERS_LEN) as u64;
        self.of_text[case.text.kind as usize] += case.takes_table() as u64;
        if let Some(place) = ENTRIES.iter().position(|&other| other == case.entry()) {
            *self.returned.entry((place, case.due)).or_insert(0) += 1;
        }
        let table = (case.text.kind == TextKind::Other) as usize;
        self.taken[table].add(case);
        self.orders[table].add(case);
        self.files[table].add(case);
        self.kinds[table].add(case);
        self.plain_kinds.add(case);
        match case.settled() {
            Some(Call::SetMarks) => self.marks[table].add(case),
            Some(Call::Retire) => self.retired[table].add(case),
            Some(_) => self.cuts[table].add(case),
            None => (),
        }
        if matches!(case.asked, Asked::BringOver) && case.due == 0 {
            self.brought[0] += 1;
            self.brought[1] += is_full(&case.left.block) as u64;
        }
        if let Some(standing) = &case.standing {
            self.standing[table].add(standing, case.due);
        }
        if case.differs.is_empty() {
            return;
        }
        self.different += 1;
        case.differs.iter().for_each(|&part| self.in_part[part as usize] += 1);
        if self.shows && self.different <= SHOWN {
            self.show(case);
        }
    }

    fn show(&self, case: &Case) {
        println!("case {}: {:?} differ: {:?}", self.cases, case.differs, case.asked);
        let Contents { block, file, answers, .. } = &case.left;
        println!("  block of {} bytes, answers of {}", block.len(), answers.len());
        println!("  register file, slip, old block or buffer of {} bytes", file.len());
        println!("  the table's text: {:?}", case.text.kind);
        println!("  the entry point returned {}, due {}", case.number, case.due);
    }

    /// How many cases differ.
    pub fn differences(&self) -> u64 {
        self.different
    }

    /// How many cases differ in a part.
    pub fn differing(&self, part: Part) -> u64 {
        self.in_part[part as usize]
    }

    pub fn print(&self, seed: u64) {
        println!("call, and how often it returned which number:");
        for (place, entry) in ENTRIES.iter().enumerate() {
            let of_entry = self.returned.range((place, 0)..(place + 1, 0));
            let counts: Vec<String> = of_entry.map(|((_, number), count)| format!("{number}: {count}")).collect();
            println!("  {:15}  {}", name(*entry), counts.join(", "));
        }
        let [fresh, formed, spoiled, noise] = self.of_kind;
        println!("blocks: {fresh} grown from fresh, {formed} well formed, {spoiled} spoiled, {noise} of any bytes");
        let [without, empty, ours, other, broken, malformed] = self.of_text;
        println!("tables: {without} without a text, {empty} empty, {ours} ours, {other} others that pass");
        println!("        {broken} that break a rule, {malformed} of another form");
        self.print_by_table();
        self.plain_kinds.print();
        println!("old blocks brought over: {}, {} of them full registers", self.brought[0], self.brought[1]);
        println!("wrong lengths: {} of the block, {} of the answers", self.block_lengths, self.answers_lengths);
        match self.missing()[..] {
            [] => println!("every refusal that a call can return was returned"),
            ref missing => println!("not returned in this run: {}", missing.join(", ")),
        }
        println!("compare: {} cases, {} differences, seed {seed}", self.cases, self.different);
    }

    fn print_by_table(&self) {
        for (table, grants) in TABLES.iter().zip(self.standing) {
            let texts = |[a, b, c]: [u64; 3]| format!("{a} accepted, {b} with 11, {c} with 16");
            println!("grants for a standing pair under {table}: {}", texts(grants.returned));
            println!("        in a full register: {}", texts(grants.full));
        }
        for (what, by_table) in [("cuts", self.cuts), ("marks set", self.marks), ("subjects retired", self.retired)] {
            for (table, settled) in TABLES.iter().zip(by_table) {
                let Settled { full, nothing, dropped, lowered, rounds, most } = settled;
                println!("{what} under {table}: {dropped} dropped, {lowered} lowered, {nothing} neither");
                println!("        {rounds} had 3 rounds or more, {most} the most, {full} in a full register");
            }
        }
        for (table, taken) in TABLES.iter().zip(self.taken) {
            taken.print(table);
        }
        for (table, orders) in TABLES.iter().zip(self.orders) {
            let Orders { full, all, with_receiver, without, unsorted } = orders;
            println!("orders under {table}: {with_receiver} with the receiver, {without} without it");
            println!("        {full} of full registers, {all} of 64 subjects, {unsorted} not by number where limits tie");
        }
        for (table, files) in TABLES.iter().zip(self.files) {
            let Files { read, full, retired, unsupported, same, not_back } = files;
            println!("register files under {table}: {read} read, {unsupported} with 18");
            println!("        of those read {full} of full registers, {retired} with a retired subject");
            println!("        written and read back: {same} the same, {not_back} with 18");
        }
        for (table, kinds) in TABLES.iter().zip(self.kinds) {
            kinds.print(table);
        }
    }

    /// The numbers that a call can return and did not; of grants for a standing pair, settings of marks, retirements,
    /// slips, orders, register files and kinds also by table and register.
    pub fn missing(&self) -> Vec<String> {
        let rare = [
            (self.brought[1], "a full register brought over"),
            (self.taken[0].to_full + self.taken[1].to_full, "a cut taken back to a full register"),
            (self.orders[0].all + self.orders[1].all, "an order of 64 subjects"),
        ];
        let mut missing = self.not_returned();
        missing.extend(by_table(&self.standing, StandingGrants::missing));
        missing.extend(by_table(&self.marks, |settled| settled.missing("marks set")));
        missing.extend(by_table(&self.retired, |settled| settled.missing("a subject retired")));
        missing.extend(by_table(&self.taken, Taken::missing));
        missing.extend(by_table(&self.orders, Orders::missing));
        missing.extend(by_table(&self.files, Files::missing));
        missing.extend(by_table(&self.kinds, Kinds::missing));
        missing.extend(self.plain_kinds.missing());
        missing.extend(absent(&rare));
        missing
    }

    /// The entry points with the numbers that they can return and did not.
    fn not_returned(&self) -> Vec<String> {
        let mut missing = Vec::new();
        for (place, &entry) in ENTRIES.iter().enumerate() {
            let mut numbers = refusals(entry);
            numbers.push(0);
            numbers.retain(|&number| !self.returned.contains_key(&(place, number)));
            missing.extend(numbers.iter().map(|number| format!("{} {number}", name(entry))));
        }
        missing
    }
}

/// What is missing under each table.
fn by_table<T>(of: &[T; 2], missing: impl Fn(&T) -> Vec<String>) -> Vec<String> {
    let under = |(one, table): (&T, &str)| missing(one).iter().map(|what| format!("{what}, {table}")).collect();
    of.iter().zip(TABLES).map(under).collect::<Vec<Vec<String>>>().concat()
}

pub fn name(entry: Entry) -> String {
    match entry {
        Entry::Without(call) | Entry::Always(call) => call_name(call),
        Entry::WithTable(call) => call_name(call) + "_table",
        Entry::CutSlip(call) => call_name(call) + "_slip",
        Entry::TakeBack => "take_back".to_string(),
        Entry::Order => "order".to_string(),
        Entry::File(call) => format!("{call:?}").to_lowercase(),
        Entry::BringOver => "bring_over".to_string(),
    }
}

fn call_name(call: Call) -> String {
    match call {
        Call::GrantKind => "grant_kind".to_string(),
        Call::SetMarks => "set_marks".to_string(),
        _ => format!("{call:?}").to_lowercase(),
    }
}

/// The refusals of an entry point, in their order.
pub fn refusals(entry: Entry) -> Vec<u32> {
    let (call, table) = match entry {
        Entry::File(FileCall::Write) => return WRITE_REFUSALS.to_vec(),
        Entry::File(FileCall::Read) => return READ_REFUSALS.to_vec(),
        Entry::TakeBack => return slip::TESTS.iter().map(|(number, _)| *number).collect(),
        Entry::Without(call) => (call, false),
        Entry::WithTable(call) | Entry::Always(call) | Entry::CutSlip(call) => (call, true),
        Entry::Order => (Call::Order, true),
        Entry::BringOver => (Call::BringOver, false),
    };
    let tests = tests(call);
    let mut numbers = vec![WRONG_LENGTH];
    numbers.extend(tests.passed.iter().map(|(number, _)| *number));
    if table {
        numbers.extend(tests.table);
    }
    if call != Call::Open {
        numbers.push(NOT_WELL_FORMED);
    }
    numbers.extend(tests.held.iter().map(|(number, _)| *number));
    numbers
}
