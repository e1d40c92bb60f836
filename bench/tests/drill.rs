//! The verified replica reaches the figures of the drill sheet: each session, in
//! every order, at each of the three replicas.

use bench::ffi::{deliver, make, step, LocalTime, Replica, Settings};
use bench::model::drill::{figures, orders, requests, sessions, Figures};
use bench::model::record::Request;
use bench::model::OUTPUT_SIZE;

/// Gets the requests one time unit apart, and a step `wait` after the last of them.
fn fed(number: u8, delta: u64, order: &[Request], wait: u64) -> Replica {
    let made = make(Settings { k: 1, groups: 1, owner: 1, delta }, number);
    assert_eq!(made.refusal, 0);
    let mut replica = made.replica;
    let mut now = 100;
    for request in order {
        now += 1;
        let delivered = deliver(replica, &request.encode(), LocalTime(now));
        assert_eq!(delivered.refusal, 0);
        replica = delivered.replica;
    }
    let stepped = step(replica, LocalTime(now + wait), &mut [0; OUTPUT_SIZE]);
    assert_eq!(stepped.refusal, 0);
    stepped.replica
}

fn figures_of(r: &Replica) -> Figures {
    Figures { failed: r.variables[0], value: r.variables[1], writes: r.writes }
}

#[test]
fn every_replica_reaches_them_in_every_order() {
    let mut fed_sessions = 0;
    for choices in sessions() {
        for order in orders(&requests(&choices)) {
            for number in 1..=3 {
                // The first and the last of four arrive three apart, so delta may be 3 or more.
                for delta in [3, 1_000_000] {
                    let replica = fed(number, delta, &order, delta + 1);
                    assert_eq!(figures_of(&replica), figures(&choices), "{choices:?}: {order:?}");
                    assert_eq!(replica.counts, [0; 4]);
                    fed_sessions += 1;
                }
            }
        }
    }
    // 2,713 orders, three replicas, two deltas.
    assert_eq!(fed_sessions, 16_278);
}

/// A step exactly delta after the last arrival does not close a session.
#[test]
fn a_step_too_early_leaves_one_pending() {
    let order = requests(&[0, 0, 0, 2]);
    let replica = fed(1, 5, &order, 5);
    assert_eq!(replica.counts, [1, 0, 0, 0]);
    assert_ne!(figures_of(&replica), figures(&[0, 0, 0, 2]));
}
