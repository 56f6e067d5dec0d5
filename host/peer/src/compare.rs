//! Compares all generated calls, and shows a disagreement.

use crate::case::{see_lent, see_store, Seen};
use crate::counts::Counts;
use crate::judge::{judge, judge_total};
use crate::stream::{generate, lent_rng, list_rng, Origin};
use crate::suite::Tools;
use second::calls::{LentCall, StoreList};
use second::shrink::shrink;
use second::{describe, generate_lent, generate_store};
use std::time::Instant;

/// Whether there is no disagreement; the first one is shown.
pub fn compare_all(tools: &Tools, seed: u64, calls: u64) -> bool {
    let begin = Instant::now();
    let mut counts = Counts::default();
    let mut disagrees = false;
    generate(seed, calls, |origin, seen| {
        match seen {
            Seen::NoOperation => counts.add_no_operation(),
            Seen::Refused(code) => counts.add_refused(code),
            Seen::Total(total) => match judge_total(tools, &total) {
                Ok(()) => counts.add_total(&total),
                Err(_) => {
                    show(tools, seed, origin);
                    disagrees = true;
                }
            },
            Seen::Accepted(case) => match judge(tools, &case) {
                Ok(adjustments) => counts.add(&case, &adjustments),
                Err(_) => {
                    show(tools, seed, origin);
                    disagrees = true;
                }
            },
        }
        !disagrees
    });
    counts.print();
    println!("seed {seed}: {} calls generated, in {:.1} s", counts.generated(), begin.elapsed().as_secs_f64());
    let outcome = if disagrees { "then a disagreement" } else { "no disagreement" };
    println!("peer: {} accepted calls compared, {outcome}; {}", counts.calls(), counts.summary());
    !disagrees
}

/// What differs in a call, if it is an accepted one.
fn differences(tools: &Tools, seen: Seen) -> Option<Vec<String>> {
    match seen {
        Seen::Accepted(case) => judge(tools, &case).err(),
        Seen::Total(total) => judge_total(tools, &total).err(),
        _ => None,
    }
}

fn list_differences(tools: &Tools, list: &StoreList) -> Option<Vec<String>> {
    let mut store = list.store.clone();
    for call in &list.calls {
        let (seen, after) = see_store(&store, call);
        if let Some(lines) = differences(tools, seen) {
            return Some(lines);
        }
        store = after;
    }
    None
}

/// Shows a call that differs, made small.
fn show(tools: &Tools, seed: u64, origin: Origin) {
    let (place, number, lines, differing) = match origin {
        Origin::Lent(number) => {
            let differing = |call: &LentCall| differences(tools, see_lent(call));
            let small = shrink(lent_rng(seed, number), generate_lent::lent_call, |call| differing(call).is_some());
            ("call", number, describe::lent_call(&small), differing(&small))
        }
        Origin::List(number) => {
            let differing = |list: &StoreList| list_differences(tools, list);
            let small = shrink(list_rng(seed, number), generate_store::store_list, |list| differing(list).is_some());
            ("list", number, describe::store_list(&small), differing(&small))
        }
    };
    println!("seed {seed}, {place} {number}: SuiteSparse and the library disagree; the case, made small:");
    lines.iter().chain(differing.iter().flatten()).for_each(|line| println!("{line}"));
}
