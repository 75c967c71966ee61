//! Properties of the model on generated lists of calls.

use model::calls::scripts;
use model::{Ask, Controller, PLACES, ROOM};

/// Replays lists of a few seeds; hands each state to the property.
fn states(mut property: impl FnMut(&Controller)) {
    for seed in 1..=4 {
        for script in scripts(seed, 2_000).0 {
            let mut c = Controller::fresh(script.capable);
            for (call, seen) in &script.calls {
                let mut buffer = call.buffer.clone();
                let answer = c.call(&call.ask, &mut buffer, call.table);
                assert_eq!((answer, buffer), ((seen.code, seen.count), seen.buffer.clone()));
                property(&c);
            }
        }
    }
}

#[test]
fn every_pair_is_reached() {
    let (_, coverage) = scripts(1, 3_000);
    assert_eq!(coverage.missing(), []);
    assert_eq!(coverage.0.len(), model::calls::reachable().len());
}

#[test]
fn facts_of_every_state() {
    states(|c| {
        assert!(c.adapters.iter().flatten().all(|adapter| adapter.maskable || !adapter.masked));
        assert!(c.capable || c.simm == 0 && c.nimm == 0);
        assert!(c.queued() <= ROOM);
    });
}

#[test]
fn a_moved_state_is_the_same() {
    states(|c| {
        let mut list = vec![0; 23_278];
        let (code, length) = c.clone().call(&Ask::WriteList, &mut list, PLACES);
        assert_eq!(code, 0);
        let mut other = Controller::fresh(c.capable);
        let (code, _) = other.call(&Ask::PlayList, &mut list[..length as usize], PLACES);
        assert_eq!(code, 0);
        assert_eq!(other, *c);
    });
}
