//! Trees whose outline is easily got wrong: deep, broad and of tops alone, numbered upwards as well, with circles.

use crate::random::Random;

/// What an activity stands under, by the order in which the tree is made.
#[derive(Debug, Clone, Copy, PartialEq, Eq)]
enum Form {
    /// The one before.
    Chain,
    /// One of the first three.
    Broad,
    /// Any of those before.
    Forest,
}

impl Form {
    /// None for the first.
    fn above(self, rank: u64, random: &mut Random) -> Option<u64> {
        match self {
            _ if rank == 0 => None,
            Form::Chain => Some(rank - 1),
            Form::Broad => Some(random.below(rank.min(3))),
            Form::Forest => Some(random.below(rank)),
        }
    }
}

/// The parents of that many activities, above 0. The first few may be a circle, which others then hang on; of the
/// others none, some or all are tops.
pub fn parents(count: u64, random: &mut Random) -> Vec<Option<u64>> {
    let form = random.pick(&[Form::Chain, Form::Chain, Form::Broad, Form::Forest]);
    let most = random.within(1, count);
    let long = random.pick(&[most, count]);
    let circle = random.pick(&[0, 0, 0, 0, 0, 1, count.min(3), long]);
    let tops = random.pick(&[None, None, Some(40), Some(5), Some(1)]);
    let indices = numbering(count, random);
    let mut parents = vec![None; indices.len()];
    for rank in 0..count {
        let above = if rank < circle {
            Some((rank + 1) % circle)
        } else if tops.is_some_and(|times| random.one_in(times)) {
            None
        } else {
            form.above(rank, random)
        };
        parents[indices[rank as usize] as usize] = above.map(|above| indices[above as usize]);
    }
    parents
}

/// The indices in the order in which a tree is made: rising, falling, or as they come.
fn numbering(count: u64, random: &mut Random) -> Vec<u64> {
    let mut indices: Vec<u64> = (0..count).collect();
    match random.below(3) {
        0 => {}
        1 => indices.reverse(),
        _ => (1..count).for_each(|k| indices.swap(k as usize, random.below(k + 1) as usize)),
    }
    indices
}
