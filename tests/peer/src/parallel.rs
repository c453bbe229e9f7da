//! Many places done by a few threads.

use crate::tally::Tally;
use std::sync::Mutex;
use std::sync::atomic::{AtomicU64, Ordering};
use std::thread;

/// Does all places by so many threads, each with a tally of its own; the first failure ends it.
pub fn each(jobs: u64, places: u64, act: impl Fn(u64, &mut Tally) -> Result<(), String> + Sync) -> Result<Tally, String> {
    let next = AtomicU64::new(0);
    let all = Mutex::new(Ok(Tally::default()));
    thread::scope(|scope| {
        for _ in 0..jobs.max(1) {
            scope.spawn(|| {
                let result = share(&next, places, &act);
                let mut all = all.lock().expect("no thread has panicked");
                match (all.as_mut(), result) {
                    (Ok(sum), Ok(tally)) => sum.add(tally),
                    (Ok(_), Err(why)) => *all = Err(why),
                    (Err(_), _) => (),
                }
            });
        }
    });
    all.into_inner().map_err(|_| "a thread has panicked".to_string())?
}

fn share(next: &AtomicU64, places: u64, act: &impl Fn(u64, &mut Tally) -> Result<(), String>) -> Result<Tally, String> {
    let mut tally = Tally::default();
    loop {
        let place = next.fetch_add(1, Ordering::Relaxed);
        if place >= places {
            return Ok(tally);
        }
        // After a failure the others have no more places to do.
        act(place, &mut tally).inspect_err(|_| next.store(places, Ordering::Relaxed))?;
    }
}
