//! Work in a process of its own, which is stopped at a limit: no call of the library ends early.

use std::process::{Command, Stdio};
use std::thread;
use std::time::{Duration, Instant};

/// What one way may take for one network, so that no line takes much longer than a minute.
pub const LIMIT: Duration = Duration::from_secs(45);

/// This program again with these arguments: the words that it printed; nothing if it did not end in time.
pub fn ask(arguments: &[&str]) -> Option<Vec<String>> {
    let mut child = Command::new(std::env::current_exe().unwrap())
        .args(arguments)
        .stdout(Stdio::piped())
        .spawn()
        .unwrap();
    let begun = Instant::now();
    while child.try_wait().unwrap().is_none() {
        if begun.elapsed() > LIMIT {
            child.kill().unwrap();
            child.wait().unwrap();
            return None;
        }
        thread::sleep(Duration::from_millis(2));
    }
    let output = child.wait_with_output().unwrap();
    assert!(output.status.success(), "{arguments:?}");
    let text = String::from_utf8(output.stdout).unwrap();
    Some(text.split_whitespace().map(str::to_string).collect())
}

/// The seconds that work takes, and what comes of it. What ends soon is done several times, and the shortest of them told.
pub fn shortest<T>(mut work: impl FnMut() -> T) -> (f64, T) {
    let begun = Instant::now();
    let mut best = f64::MAX;
    loop {
        let start = Instant::now();
        let done = work();
        best = start.elapsed().as_secs_f64().min(best);
        if begun.elapsed() > Duration::from_millis(200) {
            return (best, done);
        }
    }
}

/// Seconds for a table; the limit where there are none.
pub fn print(seconds: Option<f64>) -> String {
    match seconds {
        Some(seconds) => format!("{seconds:.4}"),
        None => format!("> {}", LIMIT.as_secs()),
    }
}
