//! Random calls, half of them on a store, each carried out by the library.

use crate::case::{see_lent, see_store, Seen};
use second::calls::StoreList;
use second::rng::Rng;
use second::{generate_lent, generate_store};

/// The number of a call, or of the list that it is in, in the program `second`.
#[derive(Clone, Copy)]
pub enum Origin {
    Lent(u64),
    List(u64),
}

pub fn lent_rng(seed: u64, number: u64) -> Rng {
    Rng::of_case(seed, 1, number)
}

pub fn list_rng(seed: u64, number: u64) -> Rng {
    Rng::of_case(seed, 2, number)
}

/// Generates calls until there are this many, or until `take` answers false.
pub fn generate(seed: u64, calls: u64, mut take: impl FnMut(Origin, Seen) -> bool) {
    let (mut lent, mut lists, mut on_store) = (0, 0, 0);
    while lent + on_store < calls {
        if lent <= on_store {
            let call = generate_lent::lent_call(&mut lent_rng(seed, lent));
            if !take(Origin::Lent(lent), see_lent(&call)) {
                return;
            }
            lent += 1;
            continue;
        }
        let list = generate_store::store_list(&mut list_rng(seed, lists));
        on_store += list.calls.len() as u64;
        if !take_list(Origin::List(lists), list, &mut take) {
            return;
        }
        lists += 1;
    }
}

/// The calls of a list one after another; whether to go on after them.
fn take_list(origin: Origin, list: StoreList, take: &mut impl FnMut(Origin, Seen) -> bool) -> bool {
    let StoreList { mut store, calls } = list;
    for call in &calls {
        let (seen, after) = see_store(&store, call);
        if !take(origin, seen) {
            return false;
        }
        store = after;
    }
    true
}
