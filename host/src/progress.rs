//! Progress on a terminal: each second the phase, how much is done, and what is left where that is
//! known.

use crate::say::{name, set_progress, WIPE};
use crate::sys::process::is_terminal;
use std::io::{stderr, Write};
use std::sync::atomic::{AtomicUsize, Ordering};
use std::sync::mpsc::{channel, RecvTimeoutError, Sender};
use std::sync::{Arc, Mutex};
use std::thread::JoinHandle;
use std::time::{Duration, Instant};

/// What a phase counts.
#[derive(Clone, Default)]
pub struct Phase {
    pub name: &'static str,
    pub unit: &'static str,
    pub done: Arc<AtomicUsize>,
    /// Where it is known.
    pub all: Option<usize>,
    /// It has a rate.
    pub moves: bool,
}

struct Ticker {
    thread: JoinHandle<()>,
    stop: Sender<()>,
}

/// Shows the phase that was begun last, if anybody sees it.
pub struct Progress {
    phase: Arc<Mutex<(Phase, Instant)>>,
    ticker: Option<Ticker>,
}

const TICK: Duration = Duration::from_secs(1);

impl Progress {
    pub fn new(is_quiet: bool) -> Progress {
        let phase = Arc::new(Mutex::new((Phase::default(), Instant::now())));
        let is_seen = !is_quiet && is_terminal(2);
        let ticker = Some(phase.clone()).filter(|_| is_seen).and_then(|phase| {
            let (stop, stopped) = channel();
            let tick = move || {
                while stopped.recv_timeout(TICK) == Err(RecvTimeoutError::Timeout) {
                    show(&phase);
                }
            };
            let thread = std::thread::Builder::new().spawn(tick).ok()?;
            Some(Ticker { thread, stop })
        });
        Progress { phase, ticker }
    }
    pub fn begin(&self, phase: Phase) {
        if let Ok(mut at) = self.phase.lock() {
            *at = (phase, Instant::now());
        }
    }
    /// Wipes the line away.
    pub fn end(&mut self) {
        if let Some(ticker) = self.ticker.take() {
            drop(ticker.stop);
            let _ = ticker.thread.join();
            set_progress(false);
            let _ = stderr().write_all(WIPE.as_bytes());
        }
    }
}

fn show(phase: &Mutex<(Phase, Instant)>) {
    if let Ok(at) = phase.lock() {
        let (phase, began) = &*at;
        if !phase.name.is_empty() {
            set_progress(true);
            let text = text_of(phase, began.elapsed().as_secs_f64());
            let _ = stderr().write_all(format!("{WIPE}{}: {text}", name()).as_bytes());
        }
    }
}

fn text_of(phase: &Phase, seconds: f64) -> String {
    let done = phase.done.load(Ordering::Relaxed);
    let rate = done as f64 / seconds.max(0.001);
    let mut text = format!("{}, {done}", phase.name);
    if let Some(all) = phase.all {
        text.push_str(&format!(" of {all}"));
    }
    text.push_str(&format!(" {}", phase.unit));
    if phase.moves {
        text.push_str(&format!(", {rate:.0} a second"));
    }
    if let Some(all) = phase.all.filter(|_| phase.moves && rate >= 1.0) {
        let left = all.saturating_sub(done) as f64 / rate;
        text.push_str(&format!(", {left:.0} seconds left"));
    }
    text
}

#[cfg(test)]
mod tests {
    use super::*;

    #[test]
    fn a_phase_says_how_much_is_left() {
        let done = Arc::new(AtomicUsize::new(50));
        let all = Some(200);
        let phase = Phase { name: "setting", unit: "labels", done, all, moves: true };
        let text = text_of(&phase, 2.0);
        assert_eq!(text, "setting, 50 of 200 labels, 25 a second, 6 seconds left");
    }
}
