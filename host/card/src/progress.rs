//! A sign of life on standard error for work that takes more than a second.

use crate::say::tell;
use std::sync::mpsc::{self, RecvTimeoutError};
use std::thread;
use std::time::{Duration, Instant};

/// Does some work; from the second second on, says each second what is being done
/// and for how long. Where no thread can be had, the work is done without a word.
pub fn with_progress<T>(what: &str, work: impl FnOnce() -> T) -> T {
    let (done, wait) = mpsc::channel::<()>();
    thread::scope(|scope| {
        let told = move || {
            let start = Instant::now();
            while wait.recv_timeout(Duration::from_secs(1)) == Err(RecvTimeoutError::Timeout) {
                tell(format_args!("{what}, {} s", start.elapsed().as_secs()));
            }
        };
        let _ = thread::Builder::new().spawn_scoped(scope, told);
        let result = work();
        drop(done);
        result
    })
}
