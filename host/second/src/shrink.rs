//! Makes a failing case smaller. The choices that made it are cut and lowered, and the case is made again of what is left,
//! as long as it still fails: so whatever is generated can be shrunk, and nothing here knows what a case is.

use crate::rng::Rng;

/// The most cases tried for one failure.
const TRIES: usize = 30_000;

/// Up to so many choices, each is lowered while others are cut, as for a count and what it counts.
const FEW: usize = 120;

/// So many of them at the most.
const MOST_CUT: usize = 16;

/// A small case that fails, found from the one that `make` makes by `rng`, which fails.
pub fn shrink<T>(rng: Rng, make: impl Fn(&mut Rng) -> T, fails: impl Fn(&T) -> bool) -> T {
    let mut rng = rng.recorded();
    let case = make(&mut rng);
    let mut search = Search { choices: rng.choices(), case, tries: 0, make, fails };
    loop {
        let before = search.choices.clone();
        search.cut();
        search.lower();
        search.lower_and_cut();
        if search.choices == before {
            return search.case;
        }
    }
}

struct Search<T, M, F> {
    choices: Vec<u64>,
    case: T,
    tries: usize,
    make: M,
    fails: F,
}

impl<T, M: Fn(&mut Rng) -> T, F: Fn(&T) -> bool> Search<T, M, F> {
    /// Takes the case of other choices where it fails and fewer or lower choices made it.
    fn take(&mut self, choices: Vec<u64>) -> bool {
        if self.tries == TRIES {
            return false;
        }
        self.tries += 1;
        let mut rng = Rng::of_choices(choices);
        let case = (self.make)(&mut rng);
        let made = rng.choices();
        let is_smaller = (made.len(), &made) < (self.choices.len(), &self.choices);
        if !is_smaller || !(self.fails)(&case) {
            return false;
        }
        (self.choices, self.case) = (made, case);
        true
    }

    /// Leaves choices out, many at once and then fewer.
    fn cut(&mut self) {
        let mut count = self.choices.len();
        while count > 0 {
            let mut from = 0;
            while from + count <= self.choices.len() {
                if !self.take(without(&self.choices, from, count)) {
                    from += count;
                }
            }
            count /= 2;
        }
    }

    /// Each choice to 0, to half, by one, as long as that goes.
    fn lower(&mut self) {
        let mut at = 0;
        while at < self.choices.len() {
            while at < self.choices.len() && lower_numbers(self.choices[at]).any(|lower| self.take_at(at, lower)) {}
            at += 1;
        }
    }

    fn take_at(&mut self, at: usize, choice: u64) -> bool {
        let mut choices = self.choices.clone();
        choices[at] = choice;
        self.take(choices)
    }

    /// Each choice by one, with some of the choices after it left out.
    fn lower_and_cut(&mut self) {
        let mut at = 0;
        while at < self.choices.len() && self.choices.len() <= FEW {
            if self.choices[at] == 0 || !self.lower_and_cut_after(at) {
                at += 1;
            }
        }
    }

    fn lower_and_cut_after(&mut self, at: usize) -> bool {
        let mut lowered = self.choices.clone();
        lowered[at] -= 1;
        let places = (1..=MOST_CUT).flat_map(|count| (at + 1..lowered.len()).map(move |from| (from, count)));
        let fits = |&(from, count): &(usize, usize)| from + count <= lowered.len();
        places.filter(fits).any(|(from, count)| self.take(without(&lowered, from, count)))
    }
}

fn without(choices: &[u64], from: usize, count: usize) -> Vec<u64> {
    [&choices[..from], &choices[from + count..]].concat()
}

fn lower_numbers(number: u64) -> impl Iterator<Item = u64> {
    [0, number / 2, number.saturating_sub(1)].into_iter().filter(move |&lower| lower < number)
}

#[cfg(test)]
mod tests {
    use super::*;

    /// Up to twenty numbers below a thousand.
    fn numbers(rng: &mut Rng) -> Vec<usize> {
        let count = rng.below(20);
        (0..count).map(|_| rng.below(1_000)).collect()
    }

    #[test]
    fn finds_the_smallest_case() {
        let cases = (0..).map(|number| Rng::of_case(1, 1, number));
        let fails = |numbers: &Vec<usize>| numbers.iter().any(|&number| number >= 300) && numbers.len() > 1;
        let failing = |number| fails(&numbers(&mut Rng::of_case(1, 1, number)));
        for (number, rng) in (0..).zip(cases).filter(|&(number, _)| failing(number)).take(20) {
            let small = shrink(rng, numbers, fails);
            assert!(small == [300, 0] || small == [0, 300], "case {number}: {small:?}");
        }
    }

    #[test]
    fn a_case_that_waits_for_other_choices_is_made() {
        let two = |rng: &mut Rng| {
            let first = rng.below(5);
            (first, std::iter::repeat_with(|| rng.below(5)).find(|&other| other != first))
        };
        assert_eq!(two(&mut Rng::of_choices(vec![3, 1])), (3, Some(1)));
        let (first, second) = two(&mut Rng::of_choices(Vec::new()));
        assert!(first == 0 && second.is_some_and(|second| second != 0));
    }
}
