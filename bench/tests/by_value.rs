//! The model's replica by value gives the answers of its other replica.

use bench::model::by_value;
use bench::model::replica::{Pending, Replica};
use bench::model::{LocalTime, Refusal, GROUP_LIMIT, OUTPUT_SIZE};
use bench::random::Random;
use bench::traffic::{Cast, Traffic};

fn same(fixed: &by_value::Replica, model: &Replica) -> bool {
    fixed.last == model.last
        && fixed.variables == model.variables
        && fixed.writes == model.writes
        && (1..=GROUP_LIMIT).all(|group| same_queue(fixed.queue(group), model.queue(group)))
}

fn same_queue(fixed: &[by_value::Pending], model: &[Pending]) -> bool {
    let plain = |p: &Pending| by_value::Pending { request: p.request.fields(), arrival: p.arrival };
    fixed.iter().copied().eq(model.iter().map(plain))
}

/// Both replicas of the model get the same calls; how often a queue was full.
fn run_both(random: &mut Random) -> usize {
    let Cast { k, groups, owner } = Cast::random(random);
    let delta = random.below(20);
    let mut model = Replica::make(k, groups, owner, delta, 1).expect("allowed");
    let mut fixed = by_value::Replica::make(k, groups, owner, delta, 1).expect("allowed");
    let mut traffic = Traffic::new(Cast { k, groups, owner }, random);
    let (mut at, mut full) = (0, 0);
    for _ in 0..100 {
        at += random.below(4);
        let time = LocalTime(if random.chance(1, 20) { random.below(at + 1) } else { at });
        if random.chance(1, 12) {
            let mut outputs = [[7u8; OUTPUT_SIZE + 3]; 2];
            let expected = model.step(time, &mut outputs[0]);
            let (next, found) = fixed.step(time, &mut outputs[1]);
            fixed = next;
            assert_eq!(expected, found);
            assert_eq!(outputs[0], outputs[1]);
        } else {
            let bytes = traffic.next(random).encode();
            let expected = model.deliver(&bytes, time);
            let (next, found) = fixed.deliver(&bytes, time);
            fixed = next;
            assert_eq!(expected, found);
            full += usize::from(found == Err(Refusal::PendingFull));
        }
        assert!(same(&fixed, &model));
    }
    full
}

#[test]
fn agrees_with_the_other_replica() {
    let mut random = Random::new(11);
    let full: usize = (0..2_000).map(|_| run_both(&mut random)).sum();
    assert!(full > 1_000, "a queue was full {full} times");
}
