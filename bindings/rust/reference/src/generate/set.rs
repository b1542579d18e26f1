//! Sets of raw transactions that spend each other.

use super::draft::Draft;
use super::random::Random;
use super::transaction::Plan;

/// Transactions that spend earlier ones by their numbers, a few strangers beside them.
pub fn spending(random: &mut Random, parents: &[Vec<usize>]) -> Vec<Plan> {
    let mut set: Vec<Plan> = Vec::new();
    for parents in parents {
        let mut outpoints: Vec<_> =
            parents.iter().map(|parent| (set[*parent].id(), random.bits() as u32 % 3)).collect();
        if outpoints.is_empty() || random.one_in(3) {
            outpoints.push((random.hash(), 0));
        }
        random.shuffle(&mut outpoints);
        let amount = random.number();
        set.push(Plan::spending(random, &outpoints, &[amount]));
    }
    set
}

/// So many transactions at random in no order: chains, trees, or few that know each other.
pub fn random(random: &mut Random, count: usize) -> Vec<Plan> {
    let (most, far) = random.pick(&[(1, 1), (1, 1_000), (3, 1_000), (2, 3)]);
    let parents: Vec<Vec<usize>> = (0..count as u64)
        .map(|number| {
            let earlier = number.min(far);
            let few = if earlier == 0 { 0 } else { random.within(0..=most) };
            (0..few).map(|_| (number - random.within(1..=earlier)) as usize).collect()
        })
        .collect();
    let mut set = spending(random, &parents);
    match random.within(0..=2) {
        0 => set.reverse(),
        1 => random.shuffle(&mut set),
        _ => {}
    }
    set
}

/// Its bytes: the transactions end to end.
pub fn draft(set: &[Plan]) -> Draft {
    let mut draft = Draft::default();
    set.iter().for_each(|transaction| draft.append(&transaction.draft()));
    draft
}
