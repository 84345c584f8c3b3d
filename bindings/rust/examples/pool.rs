//! A pool of workers: threads that sleep until there is a job, and end once there is no sender and no job left.

use fak_seats::{channel, Fault};
use std::sync::atomic::{AtomicU64, Ordering::SeqCst};
use std::sync::Arc;
use std::thread::{spawn, JoinHandle};

type Job = Box<dyn FnOnce() + Send>;

/// Starts the workers. Returns the sender of jobs, and the threads.
fn pool(workers: usize) -> Result<(channel::Sender<Job>, Vec<JoinHandle<()>>), Fault> {
    let (jobs, receiver) = channel::bounded::<Job>(16, workers + 2)?;
    let work = |_| {
        let receiver = receiver.clone();
        spawn(move || receiver.iter().for_each(|job| job()))
    };
    Ok((jobs, (0..workers).map(work).collect()))
}

fn main() -> Result<(), Fault> {
    let (jobs, workers) = pool(4)?;
    let sum = Arc::new(AtomicU64::new(0));
    for number in 1..=1_000 {
        let sum = Arc::clone(&sum);
        let job: Job = Box::new(move || {
            sum.fetch_add(number, SeqCst);
        });
        jobs.send(job).expect("the workers receive");
    }
    drop(jobs);
    for worker in workers {
        worker.join().expect("no job panics");
    }
    println!("the sum is {}", sum.load(SeqCst));
    Ok(())
}
