//! Compares the library with the model on random calls; the crate says how.
//!
//! `cargo run --release -p second -- --seed 1 --calls 200000` compares.

use second::arguments::{self, Arguments};
use second::calls::{answers_of, code_of, Answers, LentCall, StoreList};
use second::compare::{judge_lent, judge_list, see_lent, see_list, Seen};
use second::fault::{self, Fault};
use second::model::{Model, SOUND};
use second::rng::Rng;
use second::shrink::shrink;
use second::{
    days, describe, doors, files, formulas, full_rows, generate_lent, generate_store, merges, program, revisions,
};
use std::collections::{BTreeMap, BTreeSet};
use std::process::ExitCode;
use std::time::Instant;

/// The grammar of formulas is enumerated to this length; in a run of fewer lists than these, to the shorter one.
const TEXT_BYTES: usize = 7;
const SHORT_TEXT_BYTES: usize = 4;
const FEW_LISTS: u64 = 1000;

const USAGE: &str = "\
second [--seed N] [--calls N] [--lists N] [--faults] [--fault N] [--program PATH]

Compares the library with a model on each cell of some rows, on random calls, and on sheets merged in several orders and
carried in files.
  --seed N    the seed of all random choices (1)
  --calls N   calls on lent sheets (200000; 40000 with --faults)
  --lists N   lists of calls on a store, of about 15 calls (a twentieth of the calls)
  --faults    plants each fault in the model and demands that it is noticed
  --fault N   plants one fault, and shows the shrunk case that notices it
  --program PATH   runs the program that prints a file of standard input, and nothing else";

/// What is to be compared.
struct Run {
    seed: u64,
    calls: u64,
    lists: u64,
    fault: Fault,
}

impl Run {
    fn new(arguments: &Arguments) -> Result<Run, String> {
        let default_calls = if arguments.has("--faults") { 40_000 } else { 200_000 };
        let calls = arguments.number("--calls")?.unwrap_or(default_calls);
        Ok(Run {
            seed: arguments.number("--seed")?.unwrap_or(1),
            calls,
            lists: arguments.number("--lists")?.unwrap_or(calls / 20),
            fault: arguments.number("--fault")?.map_or(Ok(Fault::None), numbered_fault)?,
        })
    }
}

/// The faults are numbered from 1.
fn numbered_fault(number: usize) -> Result<Fault, String> {
    let entry = number.checked_sub(1).and_then(|position| fault::ALL.get(position));
    Ok(entry.ok_or(format!("faults go from 1 to {}", fault::ALL.len()))?.0)
}

fn main() -> ExitCode {
    arguments::run(USAGE, |arguments| {
        let run = Run::new(arguments)?;
        Ok(match arguments.text("--program") {
            Some(program) => run_program(program, run.seed),
            None if arguments.has("--faults") => plant_faults(&run),
            None => compare_all(&run),
        })
    })
}

/// The program that prints a file.
fn run_program(path: &str, seed: u64) -> ExitCode {
    match program::judge(path, seed, 200) {
        Ok(count) => {
            println!("{path}: {count} inputs, each printed as it should be");
            ExitCode::SUCCESS
        }
        Err(text) => {
            println!("{text}");
            ExitCode::FAILURE
        }
    }
}

/// The generators of the calls and the lists of a run, by their number.
fn call_rng(seed: u64, number: u64) -> Rng {
    Rng::of_case(seed, 1, number)
}

fn list_rng(seed: u64, number: u64) -> Rng {
    Rng::of_case(seed, 2, number)
}

/// What was seen of one function of the library.
#[derive(Default)]
struct Count {
    codes: BTreeMap<u32, u64>,
    accepted_flags: BTreeSet<u32>,
    accepted_numbers: BTreeSet<(u32, u32)>,
}

/// How often each answer was given, by function.
#[derive(Default)]
struct Counts(BTreeMap<&'static str, Count>);

impl Counts {
    fn add(&mut self, seen: &Seen) {
        let code = match answers_of(seen.name) {
            Answers::Part => 0,
            _ => code_of(seen.outcome.answer),
        };
        let count = self.0.entry(seen.name).or_default();
        *count.codes.entry(code).or_default() += 1;
        if let (0, Some((flags, numbers))) = (code, seen.chosen) {
            count.accepted_flags.insert(flags);
            count.accepted_numbers.insert(numbers);
        }
    }

    fn total(&self) -> u64 {
        self.0.values().flat_map(|count| count.codes.values()).sum()
    }

    fn print(&self) {
        for (name, count) in &self.0 {
            let accepted = count.codes.get(&0).copied().unwrap_or(0);
            let refused = count.codes.iter().filter(|(code, _)| **code != 0);
            let refused: Vec<String> = refused.map(|(code, count)| format!("{code}: {count}")).collect();
            let (flags, numbers) = (count.accepted_flags.len(), count.accepted_numbers.len());
            let chosen = match flags {
                0 => String::new(),
                _ => format!(" ({flags} sums of flags, {numbers} choices of operators)"),
            };
            let refused = if refused.is_empty() { "none".to_string() } else { refused.join(", ") };
            println!("  {name}: accepted {accepted}{chosen}; refused {refused}");
        }
    }
}

/// Compares calls and lists with a model, counting the answers. A disagreement is shown, and is the error.
struct Comparison {
    model: Model,
    counts: Counts,
}

struct Disagreement;

impl Comparison {
    /// The call that is made by the generator.
    fn call(
        &mut self,
        case: &str,
        rng: impl Fn() -> Rng,
        make: impl Fn(&mut Rng) -> LentCall,
    ) -> Result<(), Disagreement> {
        let call = make(&mut rng());
        let seen = see_lent(&call);
        if !judge_lent(self.model, &call, &seen).is_empty() {
            report_call(self.model, case, rng(), make);
            return Err(Disagreement);
        }
        self.counts.add(&seen);
        Ok(())
    }

    /// The list that is made by the generator.
    fn list(
        &mut self,
        case: &str,
        rng: impl Fn() -> Rng,
        make: impl Fn(&mut Rng) -> StoreList,
    ) -> Result<(), Disagreement> {
        let list = make(&mut rng());
        let seen = see_list(&list);
        if judge_list(self.model, &list, &seen).is_some() {
            report_list(self.model, case, rng(), make);
            return Err(Disagreement);
        }
        seen.iter().for_each(|seen| self.counts.add(seen));
        Ok(())
    }
}

fn compare_all(run: &Run) -> ExitCode {
    let all = || {
        compare_rows(run)?;
        compare_merges(run)?;
        compare_files(run)?;
        compare_doors(run)?;
        compare_revisions(run)?;
        compare_formulas(run)?;
        compare_days(run)?;
        compare_random(run)
    };
    match all() {
        Ok(()) => ExitCode::SUCCESS,
        Err(Disagreement) => ExitCode::FAILURE,
    }
}

/// Each cell of rows with few, many and all columns.
fn compare_rows(run: &Run) -> Result<(), Disagreement> {
    let mut comparison = Comparison { model: Model { fault: run.fault }, counts: Counts::default() };
    let (reads, lists) = (full_rows::reads(), full_rows::lists());
    for number in 0..reads.len() {
        let make = |rng: &mut Rng| reads[rng.below(reads.len())].clone();
        comparison.call(&format!("rows, read {number}"), || Rng::of_choices(vec![number as u64]), make)?;
    }
    // A list of calls, where it ends, and how many of its calls there are; at first all.
    let part = |rng: &mut Rng| {
        let StoreList { store, calls } = &lists[rng.below(lists.len())];
        let end = rng.below(calls.len() + 1);
        let calls = calls[end - rng.below(end + 1)..end].to_vec();
        StoreList { store: store.clone(), calls }
    };
    for (row, list) in lists.iter().enumerate() {
        let whole = || Rng::of_choices([row, list.calls.len(), list.calls.len()].map(|choice| choice as u64).into());
        comparison.list(&format!("rows, row {row} in a store"), whole, part)?;
    }
    comparison.counts.print();
    println!("each cell of the rows, {} calls: no disagreement", comparison.counts.total());
    Ok(())
}

/// Sheets merged in several orders; as many lists of them as lists of calls.
fn compare_merges(run: &Run) -> Result<(), Disagreement> {
    let &Run { seed, lists, .. } = run;
    for number in 0..lists {
        let rng = &mut Rng::of_case(seed, 3, number);
        if let Err(text) = merges::merges(rng).judge(rng) {
            println!("seed {seed}, merges {number}: {text}");
            return Err(Disagreement);
        }
    }
    println!("seed {seed}: {lists} lists of sheets merged in two orders and one again: no disagreement");
    Ok(())
}

/// Files and texts; as many as lists of calls.
fn compare_files(run: &Run) -> Result<(), Disagreement> {
    let &Run { seed, lists, .. } = run;
    for number in 0..lists {
        let rng = || Rng::of_case(seed, 4, number);
        let judge = |case: &files::Case| case.judge(files::Slip::None);
        if judge(&files::case(&mut rng())).is_err() {
            let small = shrink(rng(), files::case, |case| judge(case).is_err());
            println!("seed {seed}, file {number}, made small: {}", judge(&small).unwrap_err());
            return Err(Disagreement);
        }
    }
    println!("seed {seed}: {lists} files read, and sheets written as files and as texts: no disagreement");
    Ok(())
}

/// Keys behind doors; as many calls as lists of calls on a store.
fn compare_doors(run: &Run) -> Result<(), Disagreement> {
    let &Run { seed, lists, .. } = run;
    let mut codes: BTreeMap<u32, u64> = BTreeMap::new();
    for number in 0..lists {
        let rng = || Rng::of_case(seed, 5, number);
        match doors::doors(&mut rng()).judge() {
            Ok(answer) => *codes.entry(code_of(answer)).or_default() += 1,
            Err(_) => {
                let small = shrink(rng(), doors::doors, |case| case.judge().is_err());
                println!("seed {seed}, doors {number}, made small: {}", small.judge().unwrap_err());
                return Err(Disagreement);
            }
        }
    }
    println!("seed {seed}: {lists} calls of keys behind doors, by codes {codes:?}: no disagreement");
    Ok(())
}

/// Looks at revisions; as many as lists of calls on a store.
fn compare_revisions(run: &Run) -> Result<(), Disagreement> {
    let &Run { seed, lists, .. } = run;
    let mut codes: BTreeMap<u32, u64> = BTreeMap::new();
    for number in 0..lists {
        match revisions::judge(&mut Rng::of_case(seed, 6, number)) {
            Ok(answer) => *codes.entry(code_of(answer)).or_default() += 1,
            Err(text) => {
                println!("seed {seed}, revision {number}: {text}");
                return Err(Disagreement);
            }
        }
    }
    println!("seed {seed}: {lists} looks at a revision, by codes {codes:?}: no disagreement");
    Ok(())
}

/// Formulas over a store: as many single calls, and as many lists that have some, as lists of calls on one; and every text
/// of at most seven bytes over eight byte values.
fn compare_formulas(run: &Run) -> Result<(), Disagreement> {
    let &Run { seed, lists, .. } = run;
    let mut codes: BTreeMap<u32, u64> = BTreeMap::new();
    for number in 0..lists {
        match formulas::single(&mut Rng::of_case(seed, 9, number)).judge(formulas::Slip::None) {
            Ok(answer) => *codes.entry(code_of(answer)).or_default() += 1,
            Err(text) => {
                println!("seed {seed}, formula {number}: {text}");
                return Err(Disagreement);
            }
        }
    }
    println!("seed {seed}: {lists} formulas over a store, by codes {codes:?}: no disagreement");
    let mut counts = formulas::Counts::default();
    for number in 0..lists {
        let rng = || Rng::of_case(seed, 10, number);
        let mut judge = |list: &formulas::List| list.judge(&mut counts, formulas::Slip::None);
        if judge(&formulas::list(&mut rng())).is_err() {
            let judge = |list: &formulas::List| list.judge(&mut formulas::Counts::default(), formulas::Slip::None);
            let small = shrink(rng(), formulas::list, |list| judge(list).is_err());
            println!("seed {seed}, list with formulas {number}, made small: {}", judge(&small).unwrap_err());
            return Err(Disagreement);
        }
    }
    let formulas::Counts { others, codes } = counts;
    println!(
        "seed {seed}: {lists} lists of {others} calls on a store and formulas by codes {codes:?}: no disagreement"
    );
    let bytes = if lists < FEW_LISTS { SHORT_TEXT_BYTES } else { TEXT_BYTES };
    match formulas::judge_texts(bytes) {
        Ok((formulas, others)) => println!("texts of at most {bytes} bytes: {formulas} formulas, {others} others"),
        Err(text) => {
            println!("{text}");
            return Err(Disagreement);
        }
    }
    Ok(())
}

/// A day sheet over a base sheet: calls, and lists of rewrites held against a plain grid; as many as lists of calls.
fn compare_days(run: &Run) -> Result<(), Disagreement> {
    let &Run { seed, lists, .. } = run;
    let mut codes: BTreeMap<&'static str, BTreeMap<u32, u64>> = BTreeMap::new();
    for number in 0..lists {
        let rng = || Rng::of_case(seed, 7, number);
        match days::day_call(&mut rng()).judge() {
            Ok((name, code)) => *codes.entry(name).or_default().entry(code).or_default() += 1,
            Err(_) => {
                let small = shrink(rng(), days::day_call, |case| case.judge().is_err());
                println!("seed {seed}, day {number}, made small: {}", small.judge().unwrap_err());
                return Err(Disagreement);
            }
        }
        if let Err(text) = days::list(&mut Rng::of_case(seed, 8, number)) {
            println!("seed {seed}, days {number}: {text}");
            return Err(Disagreement);
        }
    }
    println!("seed {seed}: {lists} calls and {lists} lists on a day sheet, by codes {codes:?}: no disagreement");
    Ok(())
}

fn compare_random(run: &Run) -> Result<(), Disagreement> {
    let &Run { seed, calls, lists, fault, .. } = run;
    let mut comparison = Comparison { model: Model { fault }, counts: Counts::default() };
    let begin = Instant::now();
    for number in 0..calls {
        let case = format!("seed {seed}, call {number}");
        comparison.call(&case, || call_rng(seed, number), generate_lent::lent_call)?;
    }
    let lent_seconds = begin.elapsed().as_secs_f64();
    for number in 0..lists {
        let case = format!("seed {seed}, list {number}");
        comparison.list(&case, || list_rng(seed, number), generate_store::store_list)?;
    }
    comparison.counts.print();
    let total = comparison.counts.total();
    println!("seed {seed}: {calls} calls on lent sheets in {lent_seconds:.1} s,");
    println!(
        "{lists} lists with {} calls on a store in {:.1} s: no disagreement",
        total - calls,
        begin.elapsed().as_secs_f64() - lent_seconds
    );
    Ok(())
}

fn report_call(model: Model, case: &str, rng: Rng, make: impl Fn(&mut Rng) -> LentCall) {
    println!("{case}: the model and the library disagree; the case, made small:");
    let fails = |call: &LentCall| !judge_lent(model, call, &see_lent(call)).is_empty();
    let small = shrink(rng, make, fails);
    describe::lent_call(&small).iter().for_each(|line| println!("{line}"));
    judge_lent(model, &small, &see_lent(&small)).iter().for_each(|line| println!("{line}"));
}

fn report_list(model: Model, case: &str, rng: Rng, make: impl Fn(&mut Rng) -> StoreList) {
    println!("{case}: the model and the library disagree; the case, made small:");
    let fails = |list: &StoreList| judge_list(model, list, &see_list(list)).is_some();
    let small = shrink(rng, make, fails);
    describe::store_list(&small).iter().for_each(|line| println!("{line}"));
    if let Some((call, lines)) = judge_list(model, &small, &see_list(&small)) {
        println!("at call {call}:");
        lines.iter().for_each(|line| println!("{line}"));
    }
}

/// Runs calls and lists until each faulty model has disagreed with the library.
fn plant_faults(run: &Run) -> ExitCode {
    let &Run { seed, calls, lists, .. } = run;
    let begin = Instant::now();
    let mut noticed: Vec<Option<String>> = vec![None; fault::ALL.len()];
    let mut sound = true;
    for number in 0..calls.max(lists) {
        if noticed.iter().all(Option::is_some) {
            break;
        }
        if number < calls {
            let call = generate_lent::lent_call(&mut call_rng(seed, number));
            let seen = see_lent(&call);
            let differs = |fault| !judge_lent(Model { fault }, &call, &seen).is_empty();
            sound &= !differs(SOUND.fault);
            note(&mut noticed, differs, &format!("call {number}"));
        }
        if number < lists {
            let list = generate_store::store_list(&mut list_rng(seed, number));
            let seen = see_list(&list);
            let differs = |fault| judge_list(Model { fault }, &list, &seen).is_some();
            sound &= !differs(SOUND.fault);
            note(&mut noticed, differs, &format!("list {number}"));
        }
    }
    for (number, ((_, text), place)) in fault::ALL.iter().zip(&noticed).enumerate() {
        let place = place.as_deref().unwrap_or("NOT NOTICED");
        println!("  {:>2} {text}: {place}", number + 1);
    }
    let count = noticed.iter().flatten().count();
    let seconds = begin.elapsed().as_secs_f64();
    println!("seed {seed}: {} faults tried, {count} noticed, in {seconds:.1} s", noticed.len());
    if !sound {
        println!("the model without a fault disagrees with the library too");
    }
    if sound && count == noticed.len() {
        ExitCode::SUCCESS
    } else {
        ExitCode::FAILURE
    }
}

fn note(noticed: &mut [Option<String>], differs: impl Fn(Fault) -> bool, place: &str) {
    for (entry, (fault, _)) in noticed.iter_mut().zip(fault::ALL) {
        if entry.is_none() && differs(*fault) {
            *entry = Some(place.to_string());
        }
    }
}
