//! The smallest input of a question on which the two differ.

use crate::cases::{Part, number};

/// Inputs that are a little smaller: a list emptied, a list entry fewer, or a number nearer to 0.
fn smaller(input: &[Part]) -> Vec<Vec<Part>> {
    let mut found = Vec::new();
    for (place, part) in input.iter().enumerate() {
        let mut with = |part: Part| {
            let mut input = input.to_vec();
            input[place] = part;
            found.push(input);
        };
        match part {
            Part::Number(value) => smaller_numbers(*value).into_iter().for_each(|value| with(number(value))),
            Part::List(values) => {
                if values.len() > 1 {
                    with(Part::List(Vec::new()));
                }
                for at in 0..values.len() {
                    let mut fewer = values.clone();
                    fewer.remove(at);
                    with(Part::List(fewer));
                    for value in smaller_numbers(values[at]) {
                        let mut values = values.clone();
                        values[at] = value;
                        with(Part::List(values));
                    }
                }
            }
        }
    }
    found
}

fn smaller_numbers(value: i128) -> Vec<i128> {
    let mut values = vec![0, value / 2, value - value.signum()];
    values.retain(|one| one.abs() < value.abs());
    values.dedup();
    values
}

/// The smallest input found that still fails.
pub fn smallest(input: &[Part], fails: &dyn Fn(&[Part]) -> bool) -> Vec<Part> {
    let mut best = input.to_vec();
    while let Some(found) = smaller(&best).into_iter().find(|one| fails(one)) {
        best = found;
    }
    best
}
