//! Plants each fault in SuiteSparse's calls until it has been noticed.

use crate::case::Seen;
use crate::fault::ALL;
use crate::judge::{judge, notices};
use crate::stream::generate;
use crate::suite::Tools;
use std::time::Instant;

/// Whether each fault was noticed, and the calls without a fault agreed.
pub fn plant_all(tools: &Tools, seed: u64, calls: u64) -> bool {
    let begin = Instant::now();
    // The number of the accepted call that noticed each fault.
    let mut noticed: Vec<Option<u64>> = vec![None; ALL.len()];
    let (mut accepted, mut sound) = (0, true);
    generate(seed, calls, |_, seen| {
        if let Seen::Accepted(case) = seen {
            accepted += 1;
            sound &= judge(tools, &case).is_ok();
            for (place, (fault, _)) in noticed.iter_mut().zip(ALL) {
                if place.is_none() && notices(tools, &case, *fault) {
                    *place = Some(accepted);
                }
            }
        }
        sound && noticed.iter().any(Option::is_none)
    });
    for (number, ((_, text), place)) in ALL.iter().zip(&noticed).enumerate() {
        let place = place.map_or("NOT NOTICED".to_string(), |place| format!("accepted call {place}"));
        println!("  {:>2} {text}: {place}", number + 1);
    }
    if !sound {
        println!("SuiteSparse's calls without a fault disagree too");
    }
    let count = noticed.iter().flatten().count();
    let seconds = begin.elapsed().as_secs_f64();
    println!("peer: seed {seed}: {} faults tried, {count} noticed, in {seconds:.1} s", ALL.len());
    sound && count == ALL.len()
}
