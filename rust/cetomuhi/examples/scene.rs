//! The customer's scene, a step a line: a manager and three houses work in ranges of their own and
//! pass an entry on; the manager takes the entries back from the loader, with a sweep in slices
//! between the houses' calls; the loader tries to write with its old capability; and two houses share
//! a page, which stays until both have let go.
//!
//! `cargo run --example scene` prints `code number tag` of each answer, the step, and the answer in
//! words. `examples/scene.c` prints the same lines, which are stored in `tests/examples.out`.

use cetomuhi::{Answer, Call, Capability, Done, Frame, Machine, Refusal, VirtualPage, Word};
use std::process::ExitCode;

const MANAGER: u8 = 0;
const EXPANDER: u8 = 1;
const HYPHENATOR: u8 = 2;
const FIT_CHECK: u8 = 3;
const LOADER: u8 = 4;

/// A call, and what it is for.
struct Step {
    told: String,
    call: Call,
}

fn step(told: impl Into<String>, call: Call) -> Step {
    Step { told: told.into(), call }
}

fn main() -> ExitCode {
    match play() {
        Ok(machine) if machine.is_well_formed() => ExitCode::SUCCESS,
        Ok(_) => {
            eprintln!("scene: the state is not well formed");
            ExitCode::FAILURE
        }
        Err(refusal) => {
            eprintln!("scene: {refusal}");
            ExitCode::FAILURE
        }
    }
}

fn play() -> Result<Machine, Refusal> {
    let mut machine = Machine::start(5, 5)?;
    println!("{:<15}  The machine starts with 5 pages and 5 frames: granted", "0 0 0");
    queue(&mut machine, &opening());
    let work = [taking(), raw_entry(), expanded_entry()].into_iter().flatten();
    let revocation = [revoking(), sweeping()].into_iter().flatten();
    let afterwards = [approving(), old_capabilities(), shared_page()].into_iter().flatten();
    for Step { told, call } in work.chain(revocation).chain(afterwards) {
        tell(&told, &call, machine.call(&call));
    }
    Ok(machine)
}

/// Steps that nobody waits for go into a queue and are done in one run.
fn queue(machine: &mut Machine, steps: &[Step]) {
    let mut bytes = Vec::new();
    steps.iter().for_each(|step| step.call.append(&mut bytes));
    let run = machine.commands(&bytes);
    for (Step { told, call }, Done { answer, .. }) in steps.iter().zip(run.answers) {
        tell(told, call, answer);
    }
}

fn tell(told: &str, call: &Call, answer: Answer) {
    let line = format!("{} {} {}", answer.code(), answer.number(), u8::from(answer.tag()));
    println!("{line:<15}  {told}: {}", words(call, answer));
}

/// The answer, with its number where the call has one.
fn words(call: &Call, answer: Answer) -> String {
    match (call, answer) {
        (_, Answer::Refused(refusal)) => format!("refused, {refusal}"),
        (Call::Take { .. } | Call::TakeMasked { .. }, Answer::Granted(Word { number, .. })) => {
            format!("granted, {number} cells")
        }
        (Call::Sweep { .. }, Answer::Granted(Word { number, .. })) => {
            format!("granted, {number} cells left")
        }
        (Call::Load { .. } | Call::Receive { .. }, Answer::Granted(word)) => {
            format!("granted, {word}")
        }
        _ => "granted".into(),
    }
}

/// The manager lays out five pages and gives each range to a house.
fn opening() -> Vec<Step> {
    let mut steps = Vec::new();
    for n in 0..5 {
        let zero = Call::Zero { party: MANAGER, frame: Frame(n) };
        steps.push(step(format!("The manager zeroes frame {n}"), zero));
    }
    for n in 0..5 {
        let map = Call::Map { party: MANAGER, page: VirtualPage(n), frame: Frame(n) };
        steps.push(step(format!("The manager maps page {n} to frame {n}"), map));
    }
    for base in [0, 16, 32, 48] {
        let split = Call::Split { party: MANAGER, base, len: 16 };
        steps.push(step(format!("The manager cuts off cells {base} to {}", base + 15), split));
    }
    let gifts = [
        (0, LOADER, "The manager gives cells 0 to 15 to the loader, for notes of its own"),
        (16, EXPANDER, "The manager gives cells 16 to 31 to the expander"),
        (32, HYPHENATOR, "The manager gives cells 32 to 47 to the hyphenator"),
        (48, FIT_CHECK, "The manager gives cells 48 to 63 to the fit check"),
        (64, LOADER, "The manager gives cells 64 to 79, the entries, to the loader"),
    ];
    for (base, to, told) in gifts {
        steps.push(step(told, Call::Give { party: MANAGER, base, to }));
    }
    steps
}

/// Each house takes its range, and nobody else's. The loader and the expander may keep capabilities
/// in theirs and take them with all permissions; the others store only text.
fn taking() -> Vec<Step> {
    let whole = |party, base, reg| Call::TakeMasked { party, base, reg, mask: Capability::ALL };
    vec![
        step("The loader takes its notes", whole(LOADER, 0, 0)),
        step("The loader takes the entries", whole(LOADER, 64, 1)),
        step("The expander takes its range", whole(EXPANDER, 16, 0)),
        step("The hyphenator takes its range", Call::Take { party: HYPHENATOR, base: 32, reg: 0 }),
        step("The fit check takes its range", Call::Take { party: FIT_CHECK, base: 48, reg: 0 }),
        step(
            "The hyphenator tries to take the range of the expander",
            Call::Take { party: HYPHENATOR, base: 16, reg: 1 },
        ),
    ]
}

/// The loader shows the expander a raw entry, with no more rights than it needs.
fn raw_entry() -> Vec<Step> {
    vec![
        step(
            "The loader sets a register to 77, a raw entry",
            Call::Number { party: LOADER, d: 2, value: 77 },
        ),
        step("The loader stores the raw entry", Call::Store { party: LOADER, a: 1, off: 0, s: 2 }),
        step(
            "The loader narrows its capability to eight entries, to load only",
            Call::Narrow { party: LOADER, s: 1, off: 0, len: 8, mask: Capability::LOAD, d: 3 },
        ),
        step(
            "The loader grants it to the expander",
            Call::Grant { party: LOADER, s: 3, to: EXPANDER },
        ),
        step("The expander receives it", Call::Receive { party: EXPANDER, d: 1 }),
        step(
            "The expander loads the raw entry",
            Call::Load { party: EXPANDER, a: 1, off: 0, d: 2 },
        ),
        step(
            "The expander tries to store through it",
            Call::Store { party: EXPANDER, a: 1, off: 0, s: 2 },
        ),
        step(
            "The expander tries to load the ninth entry",
            Call::Load { party: EXPANDER, a: 1, off: 8, d: 3 },
        ),
    ]
}

/// The expander shows the hyphenator what it made of it.
fn expanded_entry() -> Vec<Step> {
    vec![
        step(
            "The expander sets a register to 7700, the expanded entry",
            Call::Number { party: EXPANDER, d: 3, value: 7700 },
        ),
        step(
            "The expander stores it in its own range",
            Call::Store { party: EXPANDER, a: 0, off: 0, s: 3 },
        ),
        step(
            "The expander narrows its own capability to that cell, to load only",
            Call::Narrow { party: EXPANDER, s: 0, off: 0, len: 1, mask: Capability::LOAD, d: 4 },
        ),
        step(
            "The expander grants it to the hyphenator",
            Call::Grant { party: EXPANDER, s: 4, to: HYPHENATOR },
        ),
        step("The hyphenator receives it", Call::Receive { party: HYPHENATOR, d: 1 }),
        step("The hyphenator looks for more", Call::Receive { party: HYPHENATOR, d: 2 }),
        step(
            "The hyphenator loads the expanded entry",
            Call::Load { party: HYPHENATOR, a: 1, off: 0, d: 2 },
        ),
    ]
}

/// The manager takes the entries back from the loader.
fn revoking() -> Vec<Step> {
    vec![
        step(
            "The hyphenator tries to take the entries back from the loader",
            Call::Revoke { party: HYPHENATOR, base: 64 },
        ),
        step(
            "The manager tries to revoke the entries while they are shown",
            Call::Revoke { party: MANAGER, base: 64 },
        ),
        step(
            "The manager unmaps page 4, the entries",
            Call::Unmap { party: MANAGER, page: VirtualPage(4) },
        ),
        step(
            "The loader tries to store another raw entry",
            Call::Store { party: LOADER, a: 1, off: 1, s: 2 },
        ),
        step("The manager revokes the entries", Call::Revoke { party: MANAGER, base: 64 }),
    ]
}

/// A sweep in slices, between which the houses go on; then the collect.
fn sweeping() -> Vec<Step> {
    vec![
        step("The manager sweeps a first slice of 20 cells", Call::Sweep { party: MANAGER, n: 20 }),
        step(
            "The loader stores its old capability in its notes, behind the sweep place",
            Call::Store { party: LOADER, a: 0, off: 3, s: 1 },
        ),
        step(
            "The expander goes on and loads its entry",
            Call::Load { party: EXPANDER, a: 0, off: 0, d: 2 },
        ),
        step(
            "The manager sweeps a second slice of 30 cells",
            Call::Sweep { party: MANAGER, n: 30 },
        ),
        step(
            "The hyphenator goes on and stores the entry in its own range",
            Call::Store { party: HYPHENATOR, a: 0, off: 0, s: 2 },
        ),
        step("The manager tries to collect too early", Call::Collect { party: MANAGER }),
        step(
            "The manager sweeps the last slice of 30 cells",
            Call::Sweep { party: MANAGER, n: 30 },
        ),
        step(
            "The manager tries to show the entries again before the collect",
            Call::Map { party: MANAGER, page: VirtualPage(4), frame: Frame(4) },
        ),
        step("The manager collects", Call::Collect { party: MANAGER }),
    ]
}

/// The fit check gets the entries, of which nothing is left.
fn approving() -> Vec<Step> {
    vec![
        step(
            "The manager tries to map page 4 to the frame that the loader wrote",
            Call::Map { party: MANAGER, page: VirtualPage(4), frame: Frame(4) },
        ),
        step("The manager zeroes frame 4", Call::Zero { party: MANAGER, frame: Frame(4) }),
        step(
            "The manager maps page 4 to frame 4",
            Call::Map { party: MANAGER, page: VirtualPage(4), frame: Frame(4) },
        ),
        step(
            "The manager gives the entries to the fit check",
            Call::Give { party: MANAGER, base: 64, to: FIT_CHECK },
        ),
        step("The fit check takes the entries", Call::Take { party: FIT_CHECK, base: 64, reg: 1 }),
        step(
            "The fit check loads the first entry, of which nothing is left",
            Call::Load { party: FIT_CHECK, a: 1, off: 0, d: 2 },
        ),
        step(
            "The fit check sets a register to 7701, the approved entry",
            Call::Number { party: FIT_CHECK, d: 3, value: 7701 },
        ),
        step("The fit check stores it", Call::Store { party: FIT_CHECK, a: 1, off: 0, s: 3 }),
    ]
}

/// No old capability reaches what the fit check approved.
fn old_capabilities() -> Vec<Step> {
    vec![
        step(
            "The loader tries to store its raw entry with its old capability",
            Call::Store { party: LOADER, a: 1, off: 0, s: 2 },
        ),
        step(
            "The loader loads what it kept in its notes, a number without its tag",
            Call::Load { party: LOADER, a: 0, off: 3, d: 4 },
        ),
        step(
            "The loader tries to store its raw entry with that",
            Call::Store { party: LOADER, a: 4, off: 0, s: 2 },
        ),
        step(
            "The expander tries to load a raw entry with what the loader granted",
            Call::Load { party: EXPANDER, a: 1, off: 0, d: 2 },
        ),
        step(
            "The fit check loads the entry as it approved it",
            Call::Load { party: FIT_CHECK, a: 1, off: 0, d: 2 },
        ),
    ]
}

/// A page that two houses need is claimed by a principal of each.
fn shared_page() -> Vec<Step> {
    let create = |child, limit, holder| {
        let (party, parent) = (MANAGER, 0);
        Call::Create { party, parent, child, limit, holder }
    };
    let claim = |party, principal, page| Call::Claim { party, principal, page: VirtualPage(page) };
    let (page, off) = (VirtualPage(1), 0);
    let unmap = Call::Unmap { party: MANAGER, page };
    let release = Call::Release { party: EXPANDER, principal: 1, page };
    let load = Call::Load { party: HYPHENATOR, a: 1, off, d: 2 };
    let destroy = |party| Call::Destroy { party, principal: 2 };
    vec![
        step(
            "The manager creates principal 1 with limit 2 for the expander",
            create(1, 2, EXPANDER),
        ),
        step(
            "The manager creates principal 2 with limit 1 for the hyphenator",
            create(2, 1, HYPHENATOR),
        ),
        step("The expander claims page 1, its own range", claim(EXPANDER, 1, 1)),
        step("The hyphenator, which reads there, claims page 1 too", claim(HYPHENATOR, 2, 1)),
        step("The hyphenator tries to claim page 2, beyond its limit", claim(HYPHENATOR, 2, 2)),
        step("The manager tries to unmap page 1, which both claim", unmap),
        step("The expander lets go of page 1", release),
        step("The manager tries to unmap page 1, which one still claims", unmap),
        step("The hyphenator loads the expanded entry, which is still there", load),
        step("The expander tries to destroy the principal of the hyphenator", destroy(EXPANDER)),
        step("The manager destroys principal 2", destroy(MANAGER)),
        step("The manager unmaps page 1, which nobody claims now", unmap),
    ]
}
