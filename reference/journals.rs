//! A generator of journals for comparing two programs: `journals SEED COUNT FOLDER`.
//!
//! It writes COUNT journals into the folder, as `00000-valid.journal` and so on, and counts them by
//! class on standard error. The classes take turns, and the same seed gives the same journals,
//! whatever the count. The program of `settle_two.rs` tells it what a book would make of a line, so
//! that long journals go through and faults stand where they are wanted.
//!
//! `rustc -O --edition 2024 journals.rs` builds it.

#[allow(dead_code)]
#[path = "settle_two.rs"]
mod settle_two;

use settle_two::{Book, Phase, Refusal, Run};
use settle_two::{JOURNAL_LIMIT, JOURNAL_NAMES, LINE_ROOM, MEMBERS, OUTPUT_ROOM};
use settle_two::{LAST_MONTH, REGISTER_LIMIT, START_MONTH};
use std::error::Error;
use std::fs;
use std::path::Path;

/// The line of an issue.
const ISSUE: &str = "ISSUE,-,-,-,-,-,-";
/// The line of a year closing.
const YEAR: &str = "YEAR,-,-,-,-,-,-";
/// The words of the zones.
const ZONES: [&str; 2] = ["DAY", "NIGHT"];
/// The words of the flows.
const FLOWS: [&str; 2] = ["USE", "GIVE"];

/// Makes a journal of a class; the turn counts the journals of this class.
type Maker = fn(&mut Random, usize) -> Vec<u8>;

/// The classes with their makers.
const CLASSES: [(&str, Maker); 15] = [
    ("valid", valid),
    ("decade", decade),
    ("century", century),
    ("room", room),
    ("edge", edge),
    ("book", book),
    ("field", field),
    ("cut", cut),
    ("bytes", bytes),
    ("lines", lines),
    ("size", size),
    ("head", head),
    ("numbers", numbers),
    ("dates", dates),
    ("loose", loose),
];

/// Journals that stand at the edges of the book's refusals, as templates parted by blanks.
///
/// `N*` repeats a template. `M` is a register and `P` its place; `FIRST`, `LAST`, `BEFORE` and
/// `AFTER` are the first and the last day of the open month and the days beside it; `DEC` issues
/// until a December is open; `FLOOD` and `DRY` issue a month of the largest surpluses and of the
/// largest needs.
const EDGES: [&str; 70] = [
    "SWAP,M,0,9999999,LAST READ,M,9999999,-,LAST READ,M,10000000,-,LAST",
    "SWAP,M,0,9999999,FIRST SWAP,M,9999999,0,LAST READ,M,5,-,LAST ISSUE",
    "SWAP,M,0,10000000,LAST",
    "SWAP,M,10000000,0,LAST",
    "SWAP,M,0,999999999,LAST",
    "READ,M,1000000,-,LAST READ,M,1000001,-,LAST",
    "READ,M,1000001,-,FIRST",
    "READ,M,9999999,-,FIRST",
    "READ,M,1000000,-,LAST CORR,M,1,-,-",
    "READ,M,1000000,-,LAST CORR,M,-1,-,- READ,M,1000001,-,LAST READ,M,1000002,-,LAST",
    "CORR,M,-1000000,-,- CORR,M,-1,-,-",
    "CORR,M,1000000,-,- CORR,M,0,-,- READ,M,0,-,FIRST READ,M,1,-,FIRST",
    "CORR,M,-1000000,-,- READ,M,2000000,-,LAST READ,M,2000001,-,LAST",
    "CORR,M,-1000000,-,- SWAP,M,2000000,5,LAST CORR,M,1,-,-",
    "CORR,M,1000000,-,- CORR,M,-2000000,-,-",
    "CORR,M,1000001,-,-",
    "CORR,M,-1000001,-,-",
    "CORR,M,999999999,-,-",
    "CORR,M,-999999999,-,-",
    "10*PAY,P,-,-,100000000,-,- PAY,P,-,-,1,-,-",
    "9*PAY,P,-,-,100000000,-,- PAY,P,-,-,99999999,-,- PAY,P,-,-,2,-,-",
    "9*PAY,P,-,-,100000000,-,- PAY,P,-,-,99999999,-,- 2*PAY,P,-,-,1,-,-",
    "10*PAY,P,-,-,100000000,-,- ISSUE PAY,P,-,-,1,-,-",
    "10*PAY,P,-,-,100000000,-,- ISSUE PAY,P,-,-,0,-,-",
    "10*PAY,0,-,-,100000000,-,- 11*PAY,1,-,-,100000000,-,-",
    "10*PAY,P,-,-,100000000,-,- READ,P,NIGHT,USE,1,-,LAST ISSUE 36*PAY,P,-,-,1,-,-",
    "PAY,P,-,-,0,-,-",
    "PAY,P,-,-,100000001,-,-",
    "PAY,P,-,-,999999999,-,-",
    "1000*CORR,M,0,-,- ISSUE CORR,M,0,-,-",
    "1000*CORR,M,0,-,- CORR,M,0,-,-",
    "1000*CORR,M,0,-,- PAY,P,-,-,0,-,-",
    "1000*CORR,M,0,-,- READ,2,DAY,USE,1,-,AFTER",
    "1000*CORR,M,0,-,- READ,M,1,-,AFTER",
    "999*READ,M,0,-,LAST SWAP,M,0,0,FIRST SWAP,M,0,0,FIRST",
    "1000*PAY,P,-,-,1,-,- YEAR",
    "READ,M,10000000,-,BEFORE",
    "READ,M,1,-,AFTER",
    "SWAP,M,1,0,BEFORE",
    "SWAP,M,1,0,AFTER",
    "READ,M,1,-,FIRST ISSUE READ,M,1,-,BEFORE",
    "READ,M,7,-,FIRST READ,M,6,-,LAST",
    "READ,M,7,-,LAST READ,M,7,-,FIRST SWAP,M,6,0,LAST",
    "READ,M,7,-,FIRST SWAP,M,6,10000000,LAST",
    "READ,M,7,-,FIRST SWAP,M,7,3,LAST READ,M,4,-,FIRST READ,M,3,-,LAST",
    "READ,M,1000000,-,FIRST READ,M,999999,-,LAST",
    "YEAR",
    "DEC YEAR",
    "READ,2,DAY,USE,1,-,LAST",
    "SWAP,3,NIGHT,GIVE,1,1,LAST",
    "CORR,999999999,DAY,USE,9999999,-,-",
    "PAY,2,-,-,0,-,-",
    "DEC ISSUE ISSUE",
    "DEC ISSUE PAY,2,-,-,0,-,-",
    "DEC ISSUE READ,M,1,-,BEFORE",
    "DEC ISSUE YEAR YEAR",
    "DEC ISSUE YEAR ISSUE YEAR",
    "ISSUE ISSUE ISSUE READ,M,5,-,LAST ISSUE YEAR",
    "5*ISSUE",
    "READ,M,1000000,-,LAST ISSUE READ,M,2000000,-,LAST ISSUE READ,M,3000001,-,LAST",
    "READ,P,NIGHT,USE,33,-,LAST ISSUE READ,P,NIGHT,USE,66,-,LAST ISSUE 2*YEAR",
    "READ,0,NIGHT,USE,1,-,LAST DEC CORR,P,NIGHT,GIVE,1,-,- ISSUE YEAR ISSUE",
    "READ,0,NIGHT,USE,33,-,LAST ISSUE DEC CORR,P,DAY,USE,-7,-,- ISSUE YEAR PAY,0,-,-,1,-,- YEAR",
    "36*FLOOD PAY,0,-,-,1,-,-",
    "FLOOD DRY DRY FLOOD ISSUE",
    "3*FLOOD CORR,M,1000000,-,- ISSUE 5*DRY 14*FLOOD DRY",
    "FLOOD CORR,0,DAY,USE,700001,-,- CORR,1,DAY,USE,800003,-,- ISSUE DRY DRY",
    "FLOOD CORR,0,NIGHT,USE,999983,-,- CORR,1,NIGHT,USE,999979,-,- ISSUE 2*DRY FLOOD",
    "CORR,0,DAY,USE,3,-,- CORR,1,DAY,USE,4,-,- CORR,0,DAY,GIVE,5,-,- ISSUE 2*YEAR",
    "CORR,0,DAY,GIVE,5,-,- ISSUE CORR,0,DAY,USE,3,-,- CORR,1,DAY,USE,4,-,- ISSUE 2*YEAR",
];

/// Lines of right form, one of each kind.
const SAMPLES: [&str; 6] = [
    "READ,1,DAY,USE,17,-,2024-01-31",
    "SWAP,0,NIGHT,GIVE,17,4,2024-01-01",
    "CORR,1,NIGHT,USE,-17,-,-",
    "PAY,0,-,-,17,-,-",
    ISSUE,
    YEAR,
];

/// Texts that are wrong in some fields and right in others.
#[rustfmt::skip]
const ODD_TEXTS: [&[u8]; 46] = [
    b"", b" ", b"-", b"--", b"x", b"X", b"0", b"1", b"00", b"01", b"+1", b"-0", b"-1", b"1 ", b" 1",
    b"1\r", b"-\r", b"\r", b"\t", b"\0", b"\x80", b"\xff", b"\xc3\xa9", b"1234567890", b"1e3",
    b"0x1", b"1.0", b"\"1\"", b"DAY", b"NIGHT", b"day", b"DAY ", b"DAYS", b"DA", b"USE", b"GIVE",
    b"Give", b"READ", b"READS", b"read", b"ISSUE ", b"2024-01-31", b"2024-02-30", b"2024-1-031",
    b"2024-01-3", b"4444444444444444444444444444444444444444444444444444444444444444444444",
];

/// Numbers of right and of wrong form, and at the edges of their columns.
#[rustfmt::skip]
const ODD_NUMBERS: [&str; 44] = [
    "0", "00", "007", "+5", "+0", "-0", "-00", "-5", "-05", "--5", "5-", "5 ", " 5", "1e3", "5.0",
    "0x5", "1_000", "1'000", "", "-", "\u{661}", "\u{2212}5", "999999", "1000000", "1000001",
    "-1000000", "-1000001", "9999998", "9999999", "10000000", "09999999", "100000000", "100000001",
    "999999999", "-999999999", "1000000000", "-1000000000", "2147483648", "4294967295",
    "4294967296", "9223372036854775808", "18446744073709551615", "18446744073709551616",
    "00000000000000000000000000000001",
];

/// Dates that are none, and dates at the edges of months and years.
#[rustfmt::skip]
const ODD_DATES: [&str; 50] = [
    "2024-02-29", "2024-02-30", "2023-02-29", "2025-02-28", "2025-02-29", "2028-02-29",
    "2096-02-29", "2096-02-30", "2100-02-29", "2000-02-29", "1999-12-31", "1999-01-01",
    "2000-01-01", "2099-12-31", "2099-12-32", "2100-01-01", "2024-04-30", "2024-04-31",
    "2024-06-31", "2024-09-31", "2024-11-31", "2024-12-31", "2024-12-32", "2024-01-00",
    "2024-00-01", "2024-13-01", "2024-01-99", "0000-00-00", "9999-99-99", "2024-1-31", "2024-01-1",
    "2024-01-031", "2024-1-031", "24-01-31", "02024-01-31", "2024/01/31", "2024.01.31", "20240131",
    "2024-01-31 ", " 2024-01-31", "2024-01-31\r", "-024-01-31", "+024-01-31", "2024--1-31",
    "2024-+1-31", "2024-01--1", "2024-01-3a", "2O24-01-31", "2024-01-3\u{661}", "2024\u{2010}01-31",
];

/// First lines, of which only the first and the second are right.
const ODD_HEADS: [&[u8]; 19] = [
    b"kind,member,zone,flow,value,second,date\n",
    b"kind,member,zone,flow,value,second,date\nkind,member,zone,flow,value,second,date\n",
    b"",
    b"\n",
    b"\nkind,member,zone,flow,value,second,date\n",
    b"kind,member,zone,flow,value,second,date",
    b"kind,member,zone,flow,value,second,date\r\n",
    b"kind,member,zone,flow,value,second,date \n",
    b" kind,member,zone,flow,value,second,date\n",
    b"kind,member,zone,flow,value,second,date,\n",
    b"kind,member,zone,flow,value,second\n",
    b"Kind,member,zone,flow,value,second,date\n",
    b"KIND,MEMBER,ZONE,FLOW,VALUE,SECOND,DATE\n",
    b"kind;member;zone;flow;value;second;date\n",
    b"kind,member,flow,zone,value,second,date\n",
    b"\xef\xbb\xbfkind,member,zone,flow,value,second,date\n",
    b"kind,member,zone,flow,value,second,dat\xe9\n",
    b"line,month,place,dayb,nightb,dayc,nightc,drams,debt\n",
    b"kind,member,zone,flow,value,second,date\0",
];

/// Lengths at and over the limit of a journal.
const SIZES: [usize; 8] = [
    65_535, 65_536, 65_536, 65_537, 65_538, 65_600, 131_072, 200_000,
];

// Chance.

/// A source of numbers that depend on its seed alone (splitmix64).
struct Random(u64);

impl Random {
    /// Gives the next number.
    fn next(&mut self) -> u64 {
        self.0 = self.0.wrapping_add(0x9e37_79b9_7f4a_7c15);
        let mut mixed = self.0;
        mixed = (mixed ^ (mixed >> 30)).wrapping_mul(0xbf58_476d_1ce4_e5b9);
        mixed = (mixed ^ (mixed >> 27)).wrapping_mul(0x94d0_49bb_1331_11eb);
        mixed ^ (mixed >> 31)
    }

    /// Gives a number below this one, or 0 where there is none.
    fn below(&mut self, end: usize) -> usize {
        self.next().checked_rem(end as u64).unwrap_or(0) as usize
    }

    /// Gives a number from the first to the last of these.
    fn between(&mut self, first: i64, last: i64) -> i64 {
        first + self.below((last - first + 1) as usize) as i64
    }

    /// Answers yes so many times out of a hundred.
    fn chance(&mut self, percent: usize) -> bool {
        self.below(100) < percent
    }

    /// Picks one of these.
    fn pick<T: Copy>(&mut self, choices: &[T]) -> T {
        choices[self.below(choices.len())]
    }

    /// Picks a length for a journal, short ones more often than long ones.
    fn length(&mut self) -> usize {
        let most = self.pick(&[400, 400, 2_000, 2_000, 8_000, 30_000, JOURNAL_LIMIT]);
        most / 4 + self.below(most * 3 / 4)
    }
}

// Growing a journal.

/// A journal with the run of its accepted lines.
struct Draft {
    /// The run of the lines so far.
    run: Run,
    /// The journal so far.
    text: Vec<u8>,
    /// The length that offered lines may not pass.
    limit: usize,
}

/// How much happens in the months of a journal.
#[derive(Clone, Copy)]
struct Pace {
    /// About how many entries a month has.
    entries: usize,
    /// About the largest kWh of an entry.
    kwh: i64,
}

impl Draft {
    /// Gives the journal that has its line of names alone.
    fn new() -> Self {
        Draft {
            run: Run::new(),
            text: JOURNAL_NAMES.to_vec(),
            limit: JOURNAL_LIMIT,
        }
    }

    /// Writes a line, whatever the book makes of it.
    fn put(&mut self, line: &str) -> Result<(), Refusal> {
        self.text.extend_from_slice(line.as_bytes());
        self.text.push(b'\n');
        self.run
            .take(&self.text[self.text.len() - line.len() - 1..])
    }

    /// Writes a line if it fits and the book takes it, and tells whether.
    fn offer(&mut self, line: &str) -> bool {
        let length = self.text.len();
        if length + line.len() + 1 > self.limit {
            return false;
        }
        let taken = self.put(line).is_ok();
        if !taken {
            self.text.truncate(length);
        }
        taken
    }

    /// The month that is open, or the last one that was.
    fn month(&self) -> u16 {
        match self.run.book.phase {
            Phase::Open(month) | Phase::YearEnd(month) => month,
            Phase::Over => LAST_MONTH,
        }
    }

    /// The bytes that the output has left.
    fn left(&self) -> usize {
        OUTPUT_ROOM - self.run.output.len()
    }

    /// Issues, or closes the year where that is due.
    fn turn_page(&mut self) -> bool {
        self.offer(ISSUE) || self.offer(YEAR)
    }

    /// Goes on to a month without entries.
    fn skip_to(&mut self, month: u16) {
        while self.run.book.phase != Phase::Open(month) && self.turn_page() {}
    }

    /// Writes accepted lines until the limit or the end of the book or of the output's room.
    fn grow(&mut self, random: &mut Random, pace: Pace) {
        let mut failed = 0;
        while failed < 20 {
            let open = matches!(self.run.book.phase, Phase::Open(_));
            let done = if open && random.below(pace.entries + 1) > 0 {
                let line = random.entry(&self.run.book, self.month(), pace.kwh);
                self.offer(&line)
            } else {
                self.turn_page()
            };
            failed = if done { 0 } else { failed + 1 };
        }
    }

    /// Writes payments of small sums so that the journal gets exactly this length.
    fn fill_to(&mut self, length: usize) {
        self.limit = length;
        if matches!(self.run.book.phase, Phase::YearEnd(_)) || self.run.book.entries > 980 {
            self.turn_page();
        }
        let mut left = length.saturating_sub(self.text.len());
        // A payment takes 16 to 23 bytes, so that 48 bytes and more can be made up of some.
        let mut count = left.div_ceil(23);
        while count > 0 {
            let bytes = left.saturating_sub(16 * (count - 1)).clamp(16, 23);
            self.offer(&format!("PAY,1,-,-,{},-,-", 10_u64.pow(bytes as u32 - 16)));
            left = left.saturating_sub(bytes);
            count -= 1;
        }
    }
}

/// Gives a date's text.
fn date(month: u16, day: u32) -> String {
    format!("{}-{:02}-{:02}", 2000 + month / 12, month % 12 + 1, day)
}

/// How many days a month has.
fn days(month: u16) -> u32 {
    settle_two::days_in(2000 + u32::from(month / 12), u32::from(month % 12 + 1))
}

impl Random {
    /// Gives a day of this month as text, often the first or the last one.
    fn date_in(&mut self, month: u16) -> String {
        let last = days(month);
        let within = self.between(1, i64::from(last)) as u32;
        let day = self.pick(&[1, last, within, within, within]);
        date(month, day)
    }

    /// Gives an entry that the book is likely to take.
    fn entry(&mut self, book: &Book, month: u16, kwh: i64) -> String {
        let (place, zone, flow) = (self.below(MEMBERS), self.below(2), self.below(2));
        let meter = format!("{place},{},{}", ZONES[zone], FLOWS[flow]);
        let register = book.members[place].registers[zone][flow];
        let most = i64::from(REGISTER_LIMIT - register.stand);
        let value = i64::from(register.stand) + self.between(0, kwh.min(most));
        match self.below(20) {
            0 => format!(
                "SWAP,{meter},{value},{},{}",
                self.start_value(),
                self.date_in(month)
            ),
            _ if most < kwh && self.chance(10) => {
                format!("SWAP,{meter},{value},0,{}", self.date_in(month))
            }
            1..=12 => format!("READ,{meter},{value},-,{}", self.date_in(month)),
            13..=16 => format!("CORR,{meter},{},-,-", self.correction(register.tally, kwh)),
            _ => format!(
                "PAY,{place},-,-,{},-,-",
                self.payment(book.members[place].debt)
            ),
        }
    }

    /// Gives what a new meter starts at.
    fn start_value(&mut self) -> i64 {
        let most = self.pick(&[0, 9, 999, i64::from(REGISTER_LIMIT)]);
        self.between(0, most)
    }

    /// Gives a correction, now and then the one that takes the tally back to 0.
    fn correction(&mut self, tally: i32, kwh: i64) -> i64 {
        match self.below(10) {
            0 => -i64::from(tally),
            1 => 0,
            2 | 3 => self.between(-9, 9),
            _ => self.between(-kwh, kwh),
        }
    }

    /// Gives a payment, often of the whole debt.
    fn payment(&mut self, debt: i64) -> i64 {
        let most = debt.clamp(1, 100_000_000);
        let part = self.between(1, most);
        self.pick(&[1, 100, part, most, most])
    }

    /// Gives a line with figures at the edges, which the book is likely to refuse.
    fn wild_line(&mut self, book: &Book, month: u16) -> String {
        let (place, zone, flow) = (self.below(MEMBERS), self.below(2), self.below(2));
        let stand = i64::from(book.members[place].registers[zone][flow].stand);
        let place = if self.chance(5) {
            self.pick(&[2, 32, 999_999_999])
        } else {
            place
        };
        let meter = format!("{place},{},{}", ZONES[zone], FLOWS[flow]);
        let top = i64::from(REGISTER_LIMIT);
        let near = stand + self.between(-3, 2_000);
        let value = self.pick(&[
            0,
            near,
            near,
            stand,
            stand + 1_000_000,
            stand + 1_000_001,
            top,
            top + 1,
        ]);
        let value = value.max(0);
        let start = self.pick(&[0, 5, 5_000, top, top + 1]);
        let kwh = self.pick(&[
            0, 1, -1, 999_999, 1_000_000, 1_000_001, -1_000_000, -1_000_001,
        ]);
        let drams = self.pick(&[0, 1, 5_000_000, 99_999_999, 100_000_000, 100_000_001]);
        let shift = self.pick(&[0, 0, 0, 0, 0, 0, -1, 1]);
        let date = self.date_in(month.saturating_add_signed(shift).min(LAST_MONTH));
        match self.below(10) {
            0..=3 => format!("READ,{meter},{value},-,{date}"),
            4 => format!("SWAP,{meter},{value},{start},{date}"),
            5 | 6 => format!("CORR,{meter},{kwh},-,-"),
            7 | 8 => format!("PAY,{place},-,-,{drams},-,-"),
            _ => self.pick(&[ISSUE, YEAR]).to_string(),
        }
    }
}

/// Gives a journal of accepted lines, up to a length.
fn grown(random: &mut Random, length: usize) -> Draft {
    let mut draft = Draft::new();
    draft.limit = length;
    let pace = Pace {
        entries: random.pick(&[0, 1, 4, 12, 30, 200]),
        kwh: random.pick(&[3, 50, 1_000, 20_000, 300_000]),
    };
    draft.grow(random, pace);
    draft.limit = JOURNAL_LIMIT;
    draft
}

/// Gives the lines of a journal, each with its line feed.
fn split(text: &[u8]) -> Vec<Vec<u8>> {
    text.split_inclusive(|&byte| byte == b'\n')
        .map(<[u8]>::to_vec)
        .collect()
}

// The classes.

/// Journals without a fault.
fn valid(random: &mut Random, turn: usize) -> Vec<u8> {
    let length = if turn % 8 == 0 {
        JOURNAL_LIMIT
    } else {
        random.length()
    };
    grown(random, length).text
}

/// Journals of ten years without a fault, of exactly the longest length.
fn decade(random: &mut Random, _: usize) -> Vec<u8> {
    let mut draft = Draft::new();
    let kwh = random.pick(&[500, 2_000, 10_000]);
    let length = JOURNAL_LIMIT - ISSUE.len() - YEAR.len() - 2;
    for passed in 1..=120 {
        draft.skip_to(START_MONTH + passed - 1);
        draft.limit = length * usize::from(passed) / 120 - 60;
        while draft.text.len() + 60 < draft.limit {
            let line = random.entry(&draft.run.book, draft.month(), kwh);
            draft.offer(&line);
        }
        draft.limit = JOURNAL_LIMIT;
    }
    draft.fill_to(length);
    draft.limit = JOURNAL_LIMIT;
    draft.turn_page();
    draft.turn_page();
    draft.text
}

/// Journals that run until the book is over, with a reading in each month, and go on then.
fn century(random: &mut Random, turn: usize) -> Vec<u8> {
    let mut draft = Draft::new();
    let busy = LAST_MONTH - random.below(100) as u16;
    while draft.run.book.phase != Phase::Over {
        let month = draft.month();
        let meter = (
            random.below(MEMBERS),
            random.pick(&ZONES),
            random.pick(&FLOWS),
        );
        if month >= busy {
            for _ in 0..random.below(4) {
                let line = random.entry(&draft.run.book, month, 50);
                draft.offer(&line);
            }
        } else if turn % 3 > 0 {
            let date = random.date_in(month);
            draft.offer(&format!(
                "READ,{},{},{},0,-,{date}",
                meter.0, meter.1, meter.2
            ));
        }
        if !draft.turn_page() {
            break;
        }
    }
    let ends = [
        ISSUE,
        YEAR,
        "READ,0,DAY,USE,9,-,2099-12-31",
        "PAY,2,-,-,0,-,-",
        "ISSUE,-,-,-,-,-,0",
    ];
    let _ = draft.put(ends[turn % ends.len()]);
    let _ = draft.put(ISSUE);
    draft.text
}

/// Journals whose output runs out of room: anyhow, at a year end, or by or without one byte.
fn room(random: &mut Random, turn: usize) -> Vec<u8> {
    let mut draft = Draft::new();
    draft.limit = JOURNAL_LIMIT - 3_000;
    let mut before = 0;
    while draft.left() >= LINE_ROOM + 1_200 && draft.text.len() > before {
        before = draft.text.len();
        one_month(
            &mut draft,
            random,
            Pace {
                entries: 2,
                kwh: 900_000,
            },
        );
    }
    draft.limit = JOURNAL_LIMIT - 100;
    match turn % 4 {
        0 => {}
        1 => seek(&mut draft, random, |draft| draft.left() == LINE_ROOM),
        2 => seek(&mut draft, random, |draft| draft.left() == LINE_ROOM - 1),
        _ => seek(&mut draft, random, |draft| {
            draft.left() < LINE_ROOM && matches!(draft.run.book.phase, Phase::YearEnd(_))
        }),
    }
    while draft.turn_page() {}
    let _ = draft.put(random.pick(&["PAY,1,-,-,1,-,-", "ISSUE,-,-,-,-,-,", YEAR, ISSUE, ISSUE]));
    let _ = draft.put(ISSUE);
    draft.text
}

/// Writes the entries of a month with its issue, and the year closing after a December.
fn one_month(draft: &mut Draft, random: &mut Random, pace: Pace) {
    for _ in 0..random.below(pace.entries + 2) {
        let line = random.entry(&draft.run.book, draft.month(), pace.kwh);
        draft.offer(&line);
    }
    draft.turn_page();
    if matches!(draft.run.book.phase, Phase::YearEnd(_)) {
        draft.turn_page();
    }
}

/// Tries months until the output has little or no room left and the journal is as it is wanted.
fn seek(draft: &mut Draft, random: &mut Random, wanted: impl Fn(&Draft) -> bool) {
    let (book, written, length) = (draft.run.book, draft.run.output.len(), draft.text.len());
    for _ in 0..4_000 {
        let mut before = 0;
        while draft.left() > LINE_ROOM && draft.text.len() > before {
            before = draft.text.len();
            one_month(
                draft,
                random,
                Pace {
                    entries: 3,
                    kwh: 900_000,
                },
            );
            if wanted(draft) {
                return;
            }
        }
        draft.run.book = book;
        draft.run.output.truncate(written);
        draft.text.truncate(length);
    }
}

/// Journals at the edges of the book's refusals.
fn edge(random: &mut Random, turn: usize) -> Vec<u8> {
    let mut draft = Draft::new();
    let meter = (
        random.below(MEMBERS),
        random.pick(&ZONES),
        random.pick(&FLOWS),
    );
    if turn >= EDGES.len() {
        draft.skip_to(START_MONTH + random.below(60) as u16);
    }
    for template in EDGES[turn % EDGES.len()].split(' ') {
        let (count, line) = template.split_once('*').unwrap_or(("1", template));
        for _ in 0..count.parse().unwrap_or(1) {
            put_template(&mut draft, line, meter);
        }
    }
    if random.chance(50) {
        let _ = draft.put(ISSUE);
    }
    draft.text
}

/// Writes the line or the lines of a template.
fn put_template(draft: &mut Draft, template: &str, meter: (usize, &str, &str)) {
    let (place, zone, flow) = meter;
    let month = draft.month();
    let line = template
        .replace(",M,", &format!(",{place},{zone},{flow},"))
        .replace(",P,", &format!(",{place},"))
        .replace("FIRST", &date(month, 1))
        .replace("LAST", &date(month, days(month)))
        .replace("BEFORE", &date(month - 1, days(month - 1)))
        .replace("AFTER", &date((month + 1).min(LAST_MONTH), 1));
    match line.as_str() {
        "ISSUE" => drop(draft.put(ISSUE)),
        "YEAR" => drop(draft.put(YEAR)),
        "DEC" => draft.skip_to(month + 11 - month % 12),
        "FLOOD" => full_month(draft, ["-1000000", "1000000"]),
        "DRY" => full_month(draft, ["1000000", "-1000000"]),
        _ => drop(draft.put(&line)),
    }
}

/// Issues a month with the same corrections of every register, and closes a year that it ends.
fn full_month(draft: &mut Draft, kwh: [&str; 2]) {
    for (place, zone) in [(0, "DAY"), (0, "NIGHT"), (1, "DAY"), (1, "NIGHT")] {
        draft.offer(&format!("CORR,{place},{zone},USE,{},-,-", kwh[0]));
        draft.offer(&format!("CORR,{place},{zone},GIVE,{},-,-", kwh[1]));
    }
    draft.turn_page();
    if matches!(draft.run.book.phase, Phase::YearEnd(_)) {
        draft.turn_page();
    }
}

/// Journals with a fault of the book somewhere behind accepted lines, of each number in turn.
fn book(random: &mut Random, turn: usize) -> Vec<u8> {
    let wanted = 11 + (turn % 9) as u8;
    let length = random.length() / 2;
    let mut draft = grown(random, length);
    for _ in 0..20_000 {
        let line = random.wild_line(&draft.run.book, draft.month());
        // A month stays open until it has all the entries that it may have.
        if wanted == 14 && line == ISSUE && draft.run.book.entries > 0 {
            continue;
        }
        let before = draft.text.len();
        match draft.put(&line) {
            Err(refusal) if refusal.number() == wanted => break,
            Err(_) => draft.text.truncate(before),
            Ok(()) if draft.text.len() > JOURNAL_LIMIT - 200 => break,
            Ok(()) => {}
        }
    }
    let pace = Pace {
        entries: 5,
        kwh: 1_000,
    };
    draft.limit = (draft.text.len() + random.below(draft.text.len())).min(JOURNAL_LIMIT);
    draft.grow(random, pace);
    draft.text
}

/// Journals with a line that is wrong in a field, of each kind and field in turn.
fn field(random: &mut Random, turn: usize) -> Vec<u8> {
    let kind = SAMPLES[turn % SAMPLES.len()];
    let place = turn / SAMPLES.len() % 7;
    let mut line = Vec::new();
    for _ in 0..1_000 {
        let mut fields: Vec<&[u8]> = kind.as_bytes().split(|&byte| byte == b',').collect();
        fields[place] = random.pick(&ODD_TEXTS);
        if random.chance(30) {
            let later = place + random.below(7 - place);
            fields[later] = random.pick(&ODD_TEXTS);
        }
        line = fields.join(&b',');
        line.push(b'\n');
        if settle_two::read_line(&line) == Err(Refusal::Form(place as u8 + 1)) {
            break;
        }
    }
    let length = random.length();
    let mut lines = split(&grown(random, length).text);
    let at = 1 + random.below(lines.len());
    lines.insert(at, line);
    lines.concat()
}

/// Journals that are cut off.
fn cut(random: &mut Random, turn: usize) -> Vec<u8> {
    let length = random.length();
    let mut text = grown(random, length).text;
    let cut = match turn % 3 {
        0 => 1,
        1 => random.below(60),
        _ => random.below(text.len()),
    };
    text.truncate(text.len().saturating_sub(cut));
    text
}

/// Journals with some bytes altered, added or dropped.
fn bytes(random: &mut Random, _: usize) -> Vec<u8> {
    let length = random.length();
    let mut text = grown(random, length).text;
    for _ in 0..1 + random.below(4) {
        // Most of them behind the line of names, where more can be met.
        let first = if random.chance(90) {
            JOURNAL_NAMES.len()
        } else {
            0
        };
        let at = (first + random.below(text.len() - first)).min(text.len() - 1);
        let any = random.below(256) as u8;
        let byte = random.pick(&[
            any, any, b',', b'-', b'\n', b'\r', b'0', b'9', b' ', 0, 128, 255,
        ]);
        match random.below(4) {
            0 => text.insert(at, byte),
            1 => drop(text.remove(at)),
            _ => text[at] = byte,
        }
    }
    text
}

/// Journals with lines doubled, dropped or swapped.
fn lines(random: &mut Random, turn: usize) -> Vec<u8> {
    let length = random.length();
    let mut lines = split(&grown(random, length).text);
    for _ in 0..1 + random.below(3) {
        // The line of names is among them in a few journals only.
        let first = usize::from(turn % 10 > 0).min(lines.len() - 1);
        let at = first + random.below(lines.len() - first);
        let other = first + random.below(lines.len() - first);
        match random.below(3) {
            0 => lines.insert(other, lines[at].clone()),
            1 if lines.len() > 1 => drop(lines.remove(at)),
            _ => lines.swap(at, other),
        }
    }
    lines.concat()
}

/// Journals of lengths at and over the limit, right ones and such with a fault behind.
fn size(random: &mut Random, turn: usize) -> Vec<u8> {
    let length = SIZES[turn % SIZES.len()];
    let whole = length.min(JOURNAL_LIMIT);
    let mut draft = grown(random, whole - 150);
    if turn / SIZES.len() % 2 == 0 {
        draft.fill_to(whole);
    }
    let rest = random.pick(&[b"PAY,1,-,-,1,-,-\n".as_slice(), b"x", b"\n", b"\0", b"\xff"]);
    while draft.text.len() < length {
        let left = length - draft.text.len();
        draft.text.extend_from_slice(&rest[..rest.len().min(left)]);
    }
    draft.text
}

/// Journals with a first line of their own.
fn head(random: &mut Random, turn: usize) -> Vec<u8> {
    let mut text = ODD_HEADS[turn % ODD_HEADS.len()].to_vec();
    if turn / ODD_HEADS.len() % 2 == 1 {
        let length = random.length();
        text.extend_from_slice(&grown(random, length).text[JOURNAL_NAMES.len()..]);
    }
    text
}

/// Journals with a line that has an odd number.
fn numbers(random: &mut Random, turn: usize) -> Vec<u8> {
    let length = random.length();
    let mut draft = grown(random, length);
    if matches!(draft.run.book.phase, Phase::YearEnd(_)) {
        draft.turn_page();
    }
    let number = ODD_NUMBERS[turn % ODD_NUMBERS.len()];
    let date = random.date_in(draft.month());
    let signed = number.starts_with('-') && random.chance(60);
    let line = match if signed { 6 } else { random.below(7) } {
        0 => format!("READ,{number},DAY,USE,5,-,{date}"),
        1 => format!("READ,0,DAY,GIVE,{number},-,{date}"),
        2 => format!("SWAP,1,NIGHT,USE,{number},0,{date}"),
        3 => format!("SWAP,0,DAY,USE,9999999,{number},{date}"),
        4 => format!("PAY,1,-,-,{number},-,-"),
        _ => format!("CORR,1,NIGHT,GIVE,{number},-,-"),
    };
    let _ = draft.put(&line);
    let _ = draft.put(ISSUE);
    draft.text
}

/// Journals with a line that has an odd date, in the month of that date where it can be.
fn dates(random: &mut Random, turn: usize) -> Vec<u8> {
    let mut draft = Draft::new();
    let text = match turn % 2 {
        0 => ODD_DATES[turn / 2 % ODD_DATES.len()].to_string(),
        _ => {
            let year = random.pick(&[1999, 2000, 2024, 2025, 2028, 2099, 2099, 2100]);
            let month = random.pick(&[0, 1, 2, 3, 4, 5, 6, 7, 8, 9, 10, 11, 12, 13]);
            let last = settle_two::days_in(year, month);
            let day = random.pick(&[0, 1, 31, 32, last, last, last + 1, last + 1]);
            format!("{year:04}-{month:02}-{day:02}")
        }
    };
    let part = |from, to| text.get(from..to).and_then(|part| part.parse::<u16>().ok());
    if let (Some(year @ 2024..=2099), Some(month @ 1..=12)) = (part(0, 4), part(5, 7)) {
        draft.skip_to((year - 2000) * 12 + month - 1);
    }
    let line = match random.below(3) {
        0 => format!("SWAP,1,DAY,GIVE,0,0,{text}"),
        _ => format!("READ,0,NIGHT,USE,5,-,{text}"),
    };
    let _ = draft.put(&line);
    let _ = draft.put(ISSUE);
    draft.text
}

/// Journals of lines put together by chance, and of bytes by chance.
fn loose(random: &mut Random, turn: usize) -> Vec<u8> {
    if turn % 5 == 0 {
        let mut text = if turn % 10 == 0 {
            JOURNAL_NAMES.to_vec()
        } else {
            Vec::new()
        };
        let length = random.below(3_000);
        text.extend((0..length).map(|_| random.next() as u8));
        return text;
    }
    let mut draft = Draft::new();
    for _ in 0..random.below(200) {
        let line = random.wild_line(&draft.run.book, draft.month());
        let before = draft.text.len();
        // Some lines that are refused stay, the others are left out.
        if draft.put(&line).is_err() && !random.chance(10) {
            draft.text.truncate(before);
        }
        if random.chance(1) {
            let fields: Vec<&[u8]> = (0..random.below(9))
                .map(|_| random.pick(&ODD_TEXTS))
                .collect();
            draft.text.extend(fields.join(&b','));
            draft.text.push(b'\n');
        }
    }
    draft.text
}

/// Writes the journals and counts them.
fn write_all(seed: u64, count: usize, folder: &Path) -> std::io::Result<[usize; CLASSES.len()]> {
    let mut counts = [0; CLASSES.len()];
    for index in 0..count {
        let class = index % CLASSES.len();
        let (name, make) = CLASSES[class];
        // Each journal has a source of its own, so that it does not depend on the others.
        let mut random = Random(Random(seed).next() ^ Random(index as u64).next());
        let text = make(&mut random, index / CLASSES.len());
        fs::write(folder.join(format!("{index:05}-{name}.journal")), text)?;
        counts[class] += 1;
    }
    Ok(counts)
}

/// Reads the arguments, writes the journals and tells how many there are of each class.
fn main() -> Result<(), Box<dyn Error>> {
    let arguments: Vec<String> = std::env::args().skip(1).collect();
    let [seed, count, folder] = arguments.as_slice() else {
        return Err("the arguments are a seed, a count and a folder".into());
    };
    let folder = Path::new(folder);
    fs::create_dir_all(folder)?;
    let counts = write_all(seed.parse()?, count.parse()?, folder)?;
    for ((name, _), count) in CLASSES.iter().zip(counts) {
        eprintln!("{count} journals of the class {name}");
    }
    Ok(())
}
