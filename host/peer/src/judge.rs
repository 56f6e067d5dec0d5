//! Holds the library's C of a case against SuiteSparse's.

use crate::case::{Case, Total};
use crate::fault::Fault;
use crate::plan::{Adjustment, Plan};
use crate::suite::{triples, Tools, Triple};
use second::calls::number;
use std::collections::BTreeSet;

/// How many differing entries are shown.
const SHOWN: usize = 8;

/// The adjustments that were made where both agree, and otherwise what differs, in sentences.
pub fn judge(tools: &Tools, case: &Case) -> Result<Vec<Adjustment>, Vec<String>> {
    if let Some(complaint) = case.complaint() {
        return Err(vec![complaint]);
    }
    let Some(mut plan) = Plan::of(case) else {
        return Err(vec!["the library accepted a number that is no operator".to_string()]);
    };
    let adjustments = plan.adjust(None);
    let theirs = tools.carry_out(&plan, &case.grids).map_err(|error| vec![format!("SuiteSparse: {error}")])?;
    let ours = case.after.as_ref().map_or(Vec::new(), triples);
    match theirs == ours {
        true => Ok(adjustments),
        false => Err(differences(&theirs, &ours)),
    }
}

/// The same of a matrix that was reduced to a number.
pub fn judge_total(tools: &Tools, total: &Total) -> Result<(), Vec<String>> {
    let Some(grid) = &total.grid else {
        return Err(vec!["the library reduced what is no matrix".to_string()]);
    };
    let theirs = tools.total(grid, total.monoid).map_err(|error| vec![format!("SuiteSparse: {error}")])?;
    match theirs {
        Some(theirs) if number(theirs) == total.answer => Ok(()),
        Some(theirs) => Err(vec![format!("SuiteSparse has {theirs}, the library answers {}", total.answer)]),
        None => Err(vec!["the library accepted a number that is no monoid".to_string()]),
    }
}

fn differences(theirs: &[Triple], ours: &[Triple]) -> Vec<String> {
    let mut lines = vec![format!("SuiteSparse has {} entries in C, the library {}", theirs.len(), ours.len())];
    let (in_theirs, in_ours): (BTreeSet<_>, BTreeSet<_>) = (theirs.iter().collect(), ours.iter().collect());
    let show = |who: &str, (i, j, value): &Triple| format!("  only {who}: ({i},{j})={value}");
    lines.extend(in_theirs.difference(&in_ours).take(SHOWN).map(|triple| show("SuiteSparse", triple)));
    lines.extend(in_ours.difference(&in_theirs).take(SHOWN).map(|triple| show("the library", triple)));
    lines
}

/// Whether a fault that is planted in SuiteSparse's call makes its C another one. An error of SuiteSparse does not
/// count: it would be noticed without looking at any entry.
pub fn notices(tools: &Tools, case: &Case, fault: Fault) -> bool {
    let (Some(mut plan), Some(after)) = (Plan::of(case), &case.after) else {
        return false;
    };
    plan.adjust(fault.left_out());
    let mut grids = case.grids.clone();
    fault.change_call(&mut plan, &mut grids);
    let Ok(mut result) = tools.carry_out(&plan, &grids) else {
        return false;
    };
    fault.change_result(&mut result);
    result != triples(after)
}
