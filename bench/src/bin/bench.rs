//! Prints, in one run on the same inputs, how fast the plain and the proved machine are.
//!
//! Without the feature `proved` the plain one is timed alone. The tables are markdown.

use cetomuhi_bench::costs::Machines;
use cetomuhi_bench::plain;
use cetomuhi_bench::proved::{self, LINES_LIMIT};
use cetomuhi_bench::queries::{Query, Reply, Version, LOOPS, PROVED};
use cetomuhi_bench::tally::Tally;
use cetomuhi_bench::timing::{fastest, ticks_a_second};
use cetomuhi_bench::workloads::{claimed, kinds, kinds_by_difference, mix, small_calls};
use cetomuhi_bench::workloads::{queries, sweep, Cells, SWEPT_CELLS};
use std::hint::black_box;
use std::time::Duration;

fn main() {
    if !proved::LINKED {
        println!("Built without the feature `proved`: the plain implementation alone.\n");
    }
    print_mix();
    print_kinds();
    print_kinds_by_difference();
    print_sweeps();
    print_growth();
    print_costs();
    print_queries();
}

/// Seconds of both machines for the same sessions, each the fastest of many runs.
struct Both {
    plain: f64,
    proved: Option<f64>,
}

impl Both {
    fn map(&self, change: impl Fn(f64) -> f64) -> Both {
        Both { plain: change(self.plain), proved: self.proved.map(change) }
    }

    fn less(&self, other: &Both) -> Both {
        let proved = self.proved.zip(other.proved).map(|(a, b)| a - b);
        Both { plain: self.plain - other.plain, proved }
    }
}

type Plain = fn(&[u8], &mut Vec<u8>);
type Proved = fn(&[u8], &mut [u8]) -> Option<usize>;

const UNCHECKED: (Plain, Proved) = (plain::session_into, proved::session);
const CHECKED: (Plain, Proved) = (plain::session_checked, proved::session_checked);

/// Times each group of sessions; all groups and both machines take turns. Both must print the same.
fn time(groups: &[&[Vec<u8>]], (plain, proved): (Plain, Proved), budget: u64) -> Vec<Both> {
    if proved::LINKED {
        groups.iter().copied().flatten().for_each(|input| agree(input, plain, proved));
    }
    let run_plain = |group: &[Vec<u8>], lines: &mut Vec<u8>| {
        for input in group {
            lines.clear();
            plain(black_box(input), lines);
            black_box(&lines);
        }
    };
    let run_proved = |group: &[Vec<u8>], buffer: &mut Vec<u8>| {
        for input in group {
            black_box(proved(black_box(input), buffer)).expect("the buffer holds all lines");
        }
    };
    let mut runs: Vec<Box<dyn FnMut()>> = Vec::new();
    for group in groups {
        let mut lines = Vec::with_capacity(LINES_LIMIT);
        runs.push(Box::new(move || run_plain(group, &mut lines)));
        if proved::LINKED {
            let mut buffer = vec![0; LINES_LIMIT];
            runs.push(Box::new(move || run_proved(group, &mut buffer)));
        }
    }
    let mut borrowed: Vec<&mut dyn FnMut()> =
        runs.iter_mut().map(|run| run.as_mut() as _).collect();
    let best = fastest(&mut borrowed, Duration::from_millis(budget));
    let each = best.chunks(if proved::LINKED { 2 } else { 1 });
    each.map(|pair| Both { plain: pair[0], proved: pair.get(1).copied() }).collect()
}

fn agree(input: &[u8], plain: Plain, proved: Proved) {
    let (mut lines, mut buffer) = (Vec::new(), vec![0; LINES_LIMIT]);
    plain(input, &mut lines);
    let written = proved(input, &mut buffer).unwrap_or(0);
    assert!(buffer[..written] == lines, "the two print different lines: run compare");
}

fn calls(group: &[Vec<u8>]) -> f64 {
    let mut tally = Tally::default();
    group.iter().for_each(|input| tally.add(input));
    tally.commands as f64
}

fn print_mix() {
    let sessions = mix();
    let calls = calls(&sessions);
    println!("Million calls a second, {} generated sessions, {calls} calls:\n", sessions.len());
    println!("| | plain | proved | ratio |");
    println!("|---|---:|---:|---:|");
    for (name, variant) in [("mix of calls", UNCHECKED), ("state tested at every call", CHECKED)] {
        let rate = time(&[&sessions], variant, 1_000)[0].map(|seconds| calls / seconds / 1e6);
        println!("| {name} |{}", rates(&rate));
    }
    println!();
}

fn print_kinds() {
    println!("Nanoseconds a call, one or a few kinds over and over, V 16 and F 16:\n");
    println!("| | plain | proved | ratio |");
    println!("|---|---:|---:|---:|");
    for (name, input) in kinds() {
        let sessions = [input];
        let calls = calls(&sessions);
        let cost = time(&[&sessions], UNCHECKED, 300)[0].map(|seconds| seconds * 1e9 / calls);
        println!("| {name} |{}", costs(&cost));
    }
    println!();
}

fn print_kinds_by_difference() {
    println!("Nanoseconds a call of kinds that cannot be repeated alone, V 256 and F 128: a");
    println!("session with the calls less the same session without them.\n");
    println!("| | plain | proved | ratio |");
    println!("|---|---:|---:|---:|");
    for (name, shorter, longer) in kinds_by_difference() {
        let (without, with) = ([shorter], [longer]);
        let calls = calls(&with) - calls(&without);
        let both = time(&[&with, &without], UNCHECKED, 600);
        let cost = both[0].less(&both[1]).map(|seconds| seconds * 1e9 / calls);
        println!("| {name} |{}", costs(&cost));
    }
    println!();
}

/// Three columns: both costs, and plain over proved.
fn costs(cost: &Both) -> String {
    match cost.proved {
        Some(proved) => format!(" {:.2} | {proved:.2} | {:.2} |", cost.plain, cost.plain / proved),
        None => format!(" {:.2} | – | – |", cost.plain),
    }
}

/// Three columns: both rates, and proved over plain.
fn rates(rate: &Both) -> String {
    match rate.proved {
        Some(proved) => format!(" {:.2} | {proved:.2} | {:.2} |", rate.plain, proved / rate.plain),
        None => format!(" {:.2} | – | – |", rate.plain),
    }
}

fn print_sweeps() {
    let ticks = ticks_a_second();
    println!("A sweep's cost a cell, {SWEPT_CELLS} Mapped cells in one call: a session with the");
    println!("sweep less the same session with a sweep of 0 cells.");
    if let Some(ticks) = ticks {
        println!("Cycles are ticks of the time stamp counter, {:.2} GHz.", ticks / 1e9);
    }
    println!("TR-961's are cycles a 16-byte granule on its own processor (its table 4.1).\n");
    println!("| cells | plain ns | proved ns | plain cycles | proved cycles | TR-961 cycles |");
    println!("|---|---:|---:|---:|---:|---:|");
    let rows = [
        ("untagged", Cells::Untagged, 2.5),
        ("tagged", Cells::Tagged, 64.0),
        ("dying", Cells::Dying, 87.0),
    ];
    for (name, cells, report) in rows {
        let (with, without) = ([sweep(cells, SWEPT_CELLS)], [sweep(cells, 0)]);
        let both = time(&[&with, &without], UNCHECKED, 1_500);
        let nanoseconds = both[0].less(&both[1]).map(|s| s * 1e9 / f64::from(SWEPT_CELLS));
        let cycles = ticks.map(|ticks| nanoseconds.map(|ns| ns * ticks / 1e9));
        let column = |number: Option<f64>| number.map_or("–".into(), |n| format!("{n:.2}"));
        println!(
            "| {name} | {} | {} | {} | {} | {report} |",
            column(Some(nanoseconds.plain)),
            column(nanoseconds.proved),
            column(cycles.as_ref().map(|both| both.plain)),
            column(cycles.as_ref().and_then(|both| both.proved)),
        );
    }
    println!();
}

fn print_growth() {
    println!("Growth: million calls a second of the same small calls at other sizes.\n");
    println!("| V | F | plain | proved | ratio | plain, tested | proved, tested | ratio |");
    println!("|---:|---:|---:|---:|---:|---:|---:|---:|");
    for (v, f) in [(16, 1), (16, 16), (16, 128), (1, 16), (16, 16), (256, 16)] {
        let sessions = [small_calls(v, f)];
        let calls = calls(&sessions);
        let rate = |variant| time(&[&sessions], variant, 300)[0].map(|s| calls / s / 1e6);
        println!("| {v} | {f} |{}{}", rates(&rate(UNCHECKED)), rates(&rate(CHECKED)));
    }
    println!();
}

fn print_costs() {
    println!("Nanoseconds to ask what a page costs, the state tested each time, and for that test");
    println!("alone.\n");
    println!("| V | F | claimants | plain | proved | ratio | plain, test | proved, test | ratio |");
    println!("|---:|---:|---:|---:|---:|---:|---:|---:|---:|");
    for (v, f) in [(16, 16), (256, 128)] {
        for claimants in [0, 1, 3, 32] {
            let session = claimed(v, f, claimants);
            let (mut machines, commands) = Machines::start(&session).expect("V and F are in range");
            machines.make(commands, usize::MAX);
            let page = || black_box(1);
            let cost = time_question(&machines, |m| m.page_cost(page()), |m| m.page_cost(page()));
            let test = time_question(&machines, |m| m.is_well_formed(), |m| m.is_well_formed());
            println!("| {v} | {f} | {claimants} |{}{}", costs(&cost), costs(&test));
        }
    }
    println!();
}

/// How often a run asks its question.
const TIMES: usize = 1_000;

/// Nanoseconds of a question, to which both must give the same answer.
fn time_question<T: PartialEq>(
    machines: &Machines,
    plain: impl Fn(&plain::State) -> T,
    proved: impl Fn(&proved::Machine) -> T,
) -> Both {
    if proved::LINKED {
        let same = plain(&machines.plain) == proved(&machines.proved);
        assert!(same, "the two answer differently: run compare");
    }
    time_runs([
        &mut || (0..TIMES).for_each(|_| _ = black_box(plain(black_box(&machines.plain)))),
        &mut || (0..TIMES).for_each(|_| _ = black_box(proved(black_box(&machines.proved)))),
    ])
}

/// Nanoseconds of one question, of a run by the plain version and one by the proved.
fn time_runs(mut runs: [&mut dyn FnMut(); 2]) -> Both {
    let linked = if proved::LINKED { 2 } else { 1 };
    let best = fastest(&mut runs[..linked], Duration::from_millis(400));
    let both = Both { plain: best[0], proved: best.get(1).copied() };
    both.map(|seconds| seconds * 1e9 / TIMES as f64)
}

fn print_queries() {
    println!("Nanoseconds a query over so many records, all Open and of equal length, up to cell");
    println!("4,096, which are tested each time.\n");
    println!("| records | query | plain | proved | ratio |");
    println!("|---:|---|---:|---:|---:|");
    for records in [1, 8, 64] {
        for (name, query) in queries(records) {
            println!("| {records} | {name} |{}", costs(&time_query(&query)));
        }
    }
}

fn time_query(query: &Query) -> Both {
    let (mut by_plain, mut by_proved) = (query.reply(&LOOPS), Reply::unwritten(query.room));
    if proved::LINKED {
        query.ask(&PROVED, &mut by_proved);
        assert!(by_plain == by_proved, "the two answer differently: run compare_maps");
    }
    let run = |version: &Version, reply: &mut Reply| {
        for _ in 0..TIMES {
            black_box(query).ask(black_box(version), reply);
            black_box(&reply);
        }
    };
    time_runs([&mut || run(&LOOPS, &mut by_plain), &mut || run(&PROVED, &mut by_proved)])
}
