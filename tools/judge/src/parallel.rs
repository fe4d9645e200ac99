//! Pairs judged on all processors, in batches.

use std::num::NonZero;
use std::sync::atomic::{AtomicUsize, Ordering};
use std::sync::mpsc;
use std::thread;

use crate::answers::{answers, Answer, Forms, Pair, Run};
use crate::failure::Failure;
use crate::verdict::Limits;

/// At most so many pairs are handed to a program at once.
const BATCH: usize = 16;
/// Of few pairs so many batches are made for each processor, so that none waits long for another.
const BATCHES: usize = 4;

/// The answer for each pair, with the form that the unit shows. `done` is told how many more have
/// theirs.
pub fn judge(
    pairs: &[&Pair],
    limits: Limits,
    run: &Run,
    done: &mut dyn FnMut(usize),
) -> Result<Vec<Answer>, Failure> {
    let workers = thread::available_parallelism().map_or(1, NonZero::get);
    let size = (pairs.len() / (BATCHES * workers)).clamp(1, BATCH);
    let batches: Vec<&[&Pair]> = pairs.chunks(size).collect();
    let next = AtomicUsize::new(0);
    let (sender, receiver) = mpsc::channel();
    let mut found: Vec<Option<Vec<Answer>>> = batches.iter().map(|_| None).collect();
    thread::scope(|scope| {
        for _ in 0..workers.min(batches.len()) {
            let sender = sender.clone();
            let (next, batches) = (&next, &batches);
            scope.spawn(move || loop {
                let place = next.fetch_add(1, Ordering::Relaxed);
                let Some(batch) = batches.get(place) else {
                    return;
                };
                let judged = answers(batch, limits, Forms::Shown, run);
                // Nobody listens after a failure.
                if sender.send((place, judged)).is_err() {
                    return;
                }
            });
        }
        drop(sender);
        for (place, judged) in receiver {
            let judged = judged?;
            done(judged.len());
            found[place] = Some(judged);
        }
        Ok(())
    })?;
    let found = found
        .into_iter()
        .map(|batch| batch.expect("every batch was judged"));
    Ok(found.flatten().collect())
}
