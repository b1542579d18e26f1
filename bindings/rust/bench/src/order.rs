//! Sets of transactions put in order.

use barrowtide::{check_order, order_into};
use reference::generate::random::Random;
use reference::generate::set;
use reference::generate::transaction::Plan;
use reference::order;

use crate::inputs::set::{alike, chain, full, last};
use crate::read::{heading, row, seconds_of};

/// Prints the table of sets.
pub fn run() {
    heading("256 transactions put in order, and that order checked");
    let mut random = Random::of("order");
    let mut plans = chain(&mut random);
    compare("a chain", &plans);
    plans.reverse();
    compare("a chain from its end", &plans);
    random.shuffle(&mut plans);
    compare("a chain in no order", &plans);
    compare("400,000 inputs of strangers", &full(|_| [7; 32]));
    let last = last().id();
    compare("400,000 inputs of the last one", &full(|_| last));
    compare("400,000 inputs that begin as the last one", &full(alike(last)));
}

fn compare(name: &str, plans: &[Plan]) {
    let (data, count) = (set::draft(plans).bytes, plans.len() as u64);
    let mut placed = vec![0; plans.len()];
    assert_eq!(order_into(&data, count, &mut placed), Ok(()));
    assert_eq!(order::order(&data, count, plans.len()), Ok(placed.clone()));
    assert_eq!(check_order(&data, count, &placed), Ok(()));
    let mut again = placed.clone();
    row(
        name,
        data.len(),
        seconds_of(|| order_into(&data, count, &mut again)),
        seconds_of(|| order::order(&data, count, plans.len())),
    );
    row(
        "  checked",
        data.len(),
        seconds_of(|| check_order(&data, count, &placed)),
        seconds_of(|| order::check(&data, count, &placed)),
    );
}
