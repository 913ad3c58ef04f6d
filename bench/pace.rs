//! Measures studies against days run alone in plain Rust: the same days, in one run, on one machine.
//! Everything is run many times, and the least time counts, since other work on the machine only adds to a time. Before anything is timed, the journals of both are compared.

mod memory;
mod plain;

use memory::most;
use plain::{Collection, Day, Model, Phold, Start};
use std::hint::black_box;
use std::time::{Duration, Instant};

const END: u32 = 1_000_000;
const ENTRIES: usize = 2048;
const SEED: u32 = 271_828;

/// As the library's `Plan`.
#[repr(C)]
#[derive(Clone, Copy)]
struct Plan {
    buckets: bool,
    summed: bool,
    farms_or_places: u8,
    tankers: u8,
    variants: u8,
    ordered: u8,
    starts: u16,
    steps_before: u32,
    steps_after: u32,
}

/// As the library's `Figures`.
#[repr(C)]
#[derive(Clone, Copy, Default)]
struct Figures {
    steps: u32,
    executions: u32,
    copies: u32,
    entries: usize,
    events: [usize; 16],
    checksum: u64,
}

unsafe extern "C" {
    fn pace_phold(plan: &Plan, told: &mut Figures) -> bool;
    fn pace_collection(plan: &Plan, told: &mut Figures) -> bool;
}

#[derive(Clone, Copy, PartialEq)]
enum Kind {
    Phold,
    Collection,
}

fn study(kind: Kind, plan: Plan) -> Figures {
    let mut told = Figures::default();
    // SAFETY: both structs are laid out as the library's.
    let done = unsafe {
        match kind {
            Kind::Phold => pace_phold(&plan, &mut told),
            Kind::Collection => pace_collection(&plan, &mut told),
        }
    };
    assert!(done, "the study refuses a call");
    told
}

fn starts(kind: Kind, plan: &Plan) -> Vec<Start> {
    let places = u32::from(plan.farms_or_places);
    (0..u32::from(plan.starts))
        .map(|i| match kind {
            Kind::Phold => Start {
                time: i,
                receiver: (i % places) as u8,
                kind: 0,
                data: i,
            },
            Kind::Collection => Start {
                time: 300 * i,
                receiver: 1 + (i % places) as u8,
                kind: 0,
                data: 1000 + 700 * (i % 7),
            },
        })
        .collect()
}

/// The day of variant v, which runs so many events.
fn lone<M: Model>(model: M, starts: &[Start], plan: &Plan, v: usize, events: usize) -> Day<M> {
    let mut day = Day::load(model, starts, END, 512, ENTRIES);
    for _ in 0..events.min(plan.steps_before as usize) {
        day.event();
    }
    if v > 0 && plan.ordered > 0 {
        day.order(v as u8 % plan.ordered, v as u32);
    }
    for _ in plan.steps_before as usize..events {
        day.event();
    }
    day
}

/// Every variant's day alone, as long as in the study. Tells the checksum, if it is asked for.
fn lone_days<M: Model + Copy>(model: M, starts: &[Start], plan: &Plan, told: &Figures) -> u64 {
    let mut sum = 0;
    for v in 0..usize::from(plan.variants) {
        let day = lone(model, starts, plan, v, told.events[v]);
        assert_eq!(day.journal.len(), told.events[v]);
        if plan.summed {
            sum = day.sum_up(sum);
        }
        black_box(&day.journal);
    }
    sum
}

fn lone_days_of(kind: Kind, plan: &Plan, told: &Figures) -> u64 {
    let starts = starts(kind, plan);
    match kind {
        Kind::Phold => {
            let model = Phold {
                places: plan.farms_or_places,
                seed: SEED,
                replication: 0,
            };
            lone_days(model, &starts, plan, told)
        }
        Kind::Collection => {
            let model = Collection {
                farms: plan.farms_or_places,
                tankers: plan.tankers,
            };
            lone_days(model, &starts, plan, told)
        }
    }
}

/// Everything is measured in so many passes, some time apart, and in so many rounds of each.
const PASSES: usize = 8;
const ROUNDS: usize = 15;

/// The least time of some rounds.
fn least(mut run: impl FnMut()) -> Duration {
    (0..ROUNDS)
        .map(|_| {
            let begun = Instant::now();
            run();
            begun.elapsed()
        })
        .min()
        .unwrap_or_default()
}

/// What was measured of one plan.
#[derive(Clone, Copy)]
struct Row {
    told: Figures,
    study: Duration,
    /// making and loading alone
    made: Duration,
    rust: Duration,
    rust_made: Duration,
}

impl Row {
    /// The lesser times of both.
    fn least(self, other: Row) -> Row {
        Row {
            told: self.told,
            study: self.study.min(other.study),
            made: self.made.min(other.made),
            rust: self.rust.min(other.rust),
            rust_made: self.rust_made.min(other.rust_made),
        }
    }
}

/// Refuses to measure days that differ.
fn compare(kind: Kind, plan: Plan) -> Figures {
    let summed = Plan {
        summed: true,
        ..plan
    };
    let told = study(kind, summed);
    let alone = lone_days_of(kind, &summed, &told);
    assert_eq!(told.checksum, alone, "the journals differ");
    told
}

fn measure(kind: Kind, plan: Plan) -> Row {
    let told = compare(kind, plan);
    let none = Plan {
        steps_before: 0,
        steps_after: 0,
        ..plan
    };
    let nothing = Figures::default();
    Row {
        told,
        study: least(|| {
            black_box(study(kind, plan));
        }),
        made: least(|| {
            black_box(study(kind, none));
        }),
        rust: least(|| {
            black_box(lone_days_of(kind, &plan, &told));
        }),
        rust_made: least(|| {
            black_box(lone_days_of(kind, &none, &nothing));
        }),
    }
}

/// The rows of all passes, in the sequence in which they are measured. Only the last pass is printed.
struct Book {
    rows: Vec<Row>,
    next: usize,
    last: bool,
}

impl Book {
    fn measure(&mut self, kind: Kind, plan: Plan) -> Row {
        let row = measure(kind, plan);
        let row = match self.rows.get(self.next) {
            Some(before) => {
                let least = before.least(row);
                self.rows[self.next] = least;
                least
            }
            None => {
                self.rows.push(row);
                row
            }
        };
        self.next += 1;
        row
    }

    fn say(&self, line: String) {
        if self.last {
            println!("{line}");
        }
    }
}

fn micros(time: Duration) -> f64 {
    time.as_nanos() as f64 / 1000.0
}

/// The time of a step of the study, and of an event in Rust, in nanoseconds; the making and the branching are taken off.
fn per_step(row: &Row) -> (f64, f64) {
    let events = row.told.events.iter().sum::<usize>() as u32;
    let study = micros(row.study) - micros(row.made);
    let rust = micros(row.rust) - micros(row.rust_made);
    (
        1000.0 * study / f64::from(row.told.steps),
        1000.0 * rust / f64::from(events),
    )
}

const NAMES: [(&str, bool); 2] = [("heap", false), ("buckets", true)];

const PHOLD: Plan = Plan {
    buckets: false,
    summed: false,
    farms_or_places: 32,
    tankers: 0,
    variants: 1,
    ordered: 0,
    starts: 256,
    steps_before: 2000,
    steps_after: 0,
};

fn never_branched(book: &mut Book) {
    book.say(format!("PHOLD, 32 places, 256 starting messages, 2,000 events, never branched"));
    book.say(format!("calendar   study us  (making us)   ns/step   Rust us  ns/event   events/s   study/Rust"));
    for (name, buckets) in NAMES {
        let row = book.measure(Kind::Phold, Plan { buckets, ..PHOLD });
        let (step, event) = per_step(&row);
        book.say(format!(
            "{name:8} {:10.1} {:12.1} {step:9.0} {:9.1} {event:9.0} {:10.0} {:12.2}",
            micros(row.study),
            micros(row.made),
            micros(row.rust),
            1e9 / step,
            micros(row.study) / micros(row.rust),
        ));
    }
}

fn branched(book: &mut Book) {
    book.say(format!("PHOLD, 8 places, variants with one order each, run on up to 2,048 entries"));
    book.say(format!("calendar variants after  steps executions  events  study us   Rust us   Rust/study  events/execution"));
    for (name, buckets) in NAMES {
        for variants in [2, 4, 8, 16] {
            for steps_before in [500, 1000, 1500] {
                let plan = Plan {
                    buckets,
                    farms_or_places: 8,
                    variants,
                    ordered: 8,
                    starts: 8,
                    steps_before,
                    steps_after: 2048,
                    ..PHOLD
                };
                let row = book.measure(Kind::Phold, plan);
                let events = row.told.events.iter().sum::<usize>() as u32;
                book.say(format!(
                    "{name:8} {variants:8} {steps_before:5} {:6} {:10} {events:7} {:9.1} {:9.1} {:12.2} {:17.2}",
                    row.told.steps,
                    row.told.executions,
                    micros(row.study),
                    micros(row.rust),
                    micros(row.rust) / micros(row.study),
                    f64::from(events) / f64::from(row.told.executions),
                ));
            }
        }
    }
}

fn collection(book: &mut Book) {
    book.say(format!("collection day, 10 farms, 6 tankers, three orders"));
    book.say(format!("calendar after  steps executions  events  study us   Rust us   Rust/study"));
    for (name, buckets) in NAMES {
        for steps_before in [1, 50, 100] {
            let plan = Plan {
                buckets,
                farms_or_places: 10,
                tankers: 6,
                variants: 3,
                ordered: 1,
                starts: 60,
                steps_before,
                steps_after: 2048,
                ..PHOLD
            };
            let row = book.measure(Kind::Collection, plan);
            let events = row.told.events.iter().sum::<usize>() as u32;
            book.say(format!(
                "{name:8} {steps_before:5} {:6} {:10} {events:7} {:9.1} {:9.1} {:12.2}",
                row.told.steps,
                row.told.executions,
                micros(row.study),
                micros(row.rust),
                micros(row.rust) / micros(row.study),
            ));
        }
    }
}

fn growth(book: &mut Book) {
    book.say(format!("one step, by the messages held (32 places, one variant)"));
    book.say(format!("calendar  held   ns/step   Rust ns/event"));
    for (name, buckets) in NAMES {
        for starts in [16, 32, 64, 128, 256, 510] {
            let row = book.measure(
                Kind::Phold,
                Plan {
                    buckets,
                    starts,
                    ..PHOLD
                },
            );
            let (step, event) = per_step(&row);
            book.say(format!("{name:8} {starts:5} {step:9.0} {event:15.0}"));
        }
    }
    book.say(format!("one step, by the variants that are live and share every place (32 places, 256 messages)"));
    book.say(format!("calendar  live   ns/step"));
    for (name, buckets) in NAMES {
        for variants in [1, 2, 4, 8, 16] {
            let plan = Plan {
                buckets,
                variants,
                steps_before: 0,
                steps_after: 2000,
                ..PHOLD
            };
            let row = book.measure(Kind::Phold, plan);
            let (step, _) = per_step(&row);
            book.say(format!("{name:8} {variants:5} {step:9.0}"));
        }
    }
}

fn memory() {
    println!("memory of one study or of Rust's day, PHOLD, 32 places, 256 starting messages, 2,000 events");
    println!("              bytes  calls for memory");
    for (name, buckets) in NAMES {
        let plan = Plan { buckets, ..PHOLD };
        let (bytes, calls) = most(|| {
            black_box(study(Kind::Phold, plan));
        });
        println!("{name:10} {bytes:8} {calls:6}");
    }
    let told = compare(Kind::Phold, PHOLD);
    let (bytes, calls) = most(|| {
        black_box(lone_days_of(Kind::Phold, &PHOLD, &told));
    });
    println!("Rust       {bytes:8} {calls:6}");
}

/// One plan on the study alone, for a profile: calendar or `rust`, places, starting messages, variants, places with orders, steps before and after the branches, rounds.
fn one(words: &[String]) {
    let number = |i: usize| words[i].parse::<u32>().expect("a number");
    let plan = Plan {
        buckets: words[0] == "buckets",
        farms_or_places: number(1) as u8,
        starts: number(2) as u16,
        variants: number(3) as u8,
        ordered: number(4) as u8,
        steps_before: number(5),
        steps_after: number(6),
        ..PHOLD
    };
    let told = compare(Kind::Phold, plan);
    for _ in 0..number(7) {
        if words[0] == "rust" {
            black_box(lone_days_of(Kind::Phold, &plan, &told));
        } else {
            black_box(study(Kind::Phold, plan));
        }
    }
}

fn main() {
    let words: Vec<String> = std::env::args().skip(1).collect();
    if !words.is_empty() {
        return one(&words);
    }
    let mut book = Book {
        rows: Vec::new(),
        next: 0,
        last: false,
    };
    for pass in 1..=PASSES {
        book.next = 0;
        book.last = pass == PASSES;
        never_branched(&mut book);
        branched(&mut book);
        collection(&mut book);
        growth(&mut book);
    }
    memory();
}
