//! Holds the firmware against the second implementation on random cases.
//!
//!     soak [--calls N | --minutes M] [--seed S] [--case SEED]
//!
//! Cases are numbered from the seed on. A case that fails is printed with its number and bytes; `--case` runs that one again.
use harness::cases::{run, Enquired, Imported, Listed, Mirrored, Signed, Tally, Trayed, Weighed};
use second::outcome::outcomes;
use std::process::ExitCode;
use std::sync::atomic::{AtomicBool, AtomicU64, AtomicUsize, Ordering};
use std::sync::Mutex;
use std::time::{Duration, Instant};

struct Plan {
    calls: usize,
    minutes: u64,
    seed: u64,
    case: Option<u64>,
}

fn plan() -> Result<Plan, String> {
    let mut plan = Plan { calls: 200_000, minutes: 0, seed: 1, case: None };
    let mut arguments = std::env::args().skip(1);
    while let Some(flag) = arguments.next() {
        let value = arguments.next().ok_or(format!("{flag} wants a number"))?;
        let number: u64 = value.parse().map_err(|_| format!("{value} is no number"))?;
        match flag.as_str() {
            "--calls" => plan.calls = number as usize,
            "--minutes" => plan.minutes = number,
            "--seed" => plan.seed = number,
            "--case" => plan.case = Some(number),
            _ => return Err(format!("{flag} is no flag of this program")),
        }
    }
    Ok(plan)
}

/// The results that a run must have met, so that a change of the cases can't leave a service or a refusal untried.
fn met(tally: &Tally) -> Vec<String> {
    let mut missing = Vec::new();
    for (call, result, value) in outcomes() {
        if !tally.results.contains_key(&(call, result, value)) {
            missing.push(format!("{call} never gave {result} with first value {value}"));
        }
    }
    if tally.listings.contains(&0) {
        missing.push("no listing was held against that of a joined word, or none had words of different lengths".into());
    }
    if tally.beds.contains(&0) {
        missing.push("no bed was held against that of a joined program, of a fraction or of a full twist".into());
    }
    if tally.orders.0 == 0 || tally.orders.1 == 0 {
        missing.push("no other order was held against an answer, or none against an open pair".into());
    }
    for what in Weighed::ALL.iter().filter(|what| !tally.weighed.contains_key(what)) {
        missing.push(format!("weights never led to {what:?}"));
    }
    for what in Listed::ALL.iter().filter(|what| !tally.listed.contains_key(what)) {
        missing.push(format!("the lengths of chains and areas never came to {what:?}"));
    }
    if tally.backward.contains(&0) {
        missing.push("no answer, open pair or stop of left reversing was held against right reversing under the mirror".into());
    }
    for what in Mirrored::ALL.iter().filter(|what| !tally.mirrored.contains_key(what)) {
        missing.push(format!("tables and mirrors never led to {what:?}"));
    }
    if tally.committed.contains(&0) {
        missing.push("no answer, open pair, stop or 18 of commit was held against reverse".into());
    }
    for what in Enquired::ALL.iter().filter(|what| !tally.enquired.contains_key(what)) {
        missing.push(format!("enquiries and numbers handed in never led to {what:?}"));
    }
    if tally.imports.contains(&0) {
        missing.push("no import was held against that of its moves one by one, or of its text under a minus".into());
    }
    for what in Imported::ALL.iter().filter(|what| !tally.imported.contains_key(what)) {
        missing.push(format!("texts never led to {what:?}"));
    }
    for what in Signed::ALL.iter().filter(|what| !tally.signed.contains_key(what)) {
        missing.push(format!("programs of any signs never led to {what:?}"));
    }
    if tally.logs.contains(&0) {
        missing.push("no verdict on a log, or no refusal of one, was held against compare".into());
    }
    for what in Trayed::ALL.iter().filter(|what| !tally.trayed.contains_key(what)) {
        missing.push(format!("trays never led to {what:?}"));
    }
    missing
}

/// Runs cases on every processor until the plan is met or one fails.
fn soak(plan: &Plan) -> (Tally, Vec<String>) {
    let (total, failures) = (Mutex::new(Tally::default()), Mutex::new(Vec::new()));
    let (next, calls, stop) = (AtomicU64::new(plan.seed), AtomicUsize::new(0), AtomicBool::new(false));
    let end = Instant::now() + Duration::from_secs(60 * plan.minutes);
    let done = || if plan.minutes > 0 { Instant::now() >= end } else { calls.load(Ordering::Relaxed) >= plan.calls };
    std::thread::scope(|scope| {
        for _ in 0..std::thread::available_parallelism().map_or(1, |n| n.get()) {
            scope.spawn(|| {
                let mut own = Tally::default();
                while !stop.load(Ordering::Relaxed) && !done() {
                    let before = own.calls;
                    if let Err(what) = run(next.fetch_add(1, Ordering::Relaxed), &mut own) {
                        failures.lock().unwrap().push(what);
                        stop.store(true, Ordering::Relaxed);
                    }
                    calls.fetch_add(own.calls - before, Ordering::Relaxed);
                }
                total.lock().unwrap().add(&own);
            });
        }
    });
    (total.into_inner().unwrap(), failures.into_inner().unwrap())
}

fn main() -> ExitCode {
    let plan = match plan() {
        Ok(plan) => plan,
        Err(what) => {
            eprintln!("{what}");
            return ExitCode::from(2);
        }
    };
    if let Some(case) = plan.case {
        let held = run(case, &mut Tally::default());
        println!("{}", held.as_ref().map_or_else(String::clone, |()| format!("case {case} holds")));
        return if held.is_ok() { ExitCode::SUCCESS } else { ExitCode::FAILURE };
    }
    let began = Instant::now();
    let (tally, failures) = soak(&plan);
    for ((service, result, value), count) in &tally.results {
        println!("{service:14} {result:2} {value} {count:9}");
    }
    for (what, count) in &tally.weighed {
        println!("{what:?} {count}");
    }
    for (what, count) in &tally.listed {
        println!("{what:?} {count}");
    }
    for (what, count) in &tally.mirrored {
        println!("{what:?} {count}");
    }
    for (what, count) in &tally.enquired {
        println!("{what:?} {count}");
    }
    for (what, count) in &tally.imported {
        println!("{what:?} {count}");
    }
    for (what, count) in &tally.signed {
        println!("{what:?} {count}");
    }
    for (what, count) in &tally.trayed {
        println!("{what:?} {count}");
    }
    for failure in &failures {
        println!("DIFFERENCE in {failure}");
    }
    let missing = met(&tally);
    for what in &missing {
        println!("{what}");
    }
    let seconds = began.elapsed().as_secs();
    println!("{} calls, {} verdicts also by search, seed {}, {seconds} s", tally.calls, tally.searched, plan.seed);
    println!("beds: {} of joined programs, {} of fractions, {} full twists", tally.beds[0], tally.beds[1], tally.beds[2]);
    println!("listings: {} from two words, {} with words of different lengths", tally.listings[0], tally.listings[1]);
    println!("other orders of steps: {} that finished alike, {} beside an open pair", tally.orders.0, tally.orders.1);
    let [answers, open, stops] = tally.backward;
    println!("left reversings read backward under the mirror: {answers} answers, {open} open pairs, {stops} stops");
    let [answers, open, stops, others] = tally.committed;
    println!("commits beside reverse: {answers} answers, {open} open pairs, {stops} stops, {others} with other numbers");
    println!("logs of trays beside compare: {} verdicts, {} refusals", tally.logs[0], tally.logs[1]);
    println!("imports: {} beside their moves one by one, {} beside their undoing", tally.imports[0], tally.imports[1]);
    if failures.is_empty() && missing.is_empty() {
        ExitCode::SUCCESS
    } else {
        ExitCode::FAILURE
    }
}
