//! A call that does not end, or ends everything with it, is a difference too.
use std::cell::RefCell;
use std::sync::{Arc, Mutex};
use std::time::{Duration, Instant};
use std::{fs, process, thread};

/// Every call ends in a small part of this.
const PATIENCE: Duration = Duration::from_secs(30);

extern "C" {
    fn kill(process: i32, signal: i32) -> i32;
    fn signal(number: i32, handler: extern "C" fn(i32)) -> usize;
}

/// An illegal instruction, abort, a bus error, a wrong calculation, memory that is not there.
const CRASHES: [i32; 5] = [4, 6, 7, 8, 11];

/// A call of the library, and its text.
type Function = (String, Vec<u8>);

enum Awaited {
    Process(u32),
    Function(Function),
}

thread_local! {
    static CALLED: RefCell<Option<Function>> = const { RefCell::new(None) };
}

/// A function can't be ended or gone on after, so all ends.
fn give_up(what: &str, (call, text): &Function) -> ! {
    println!("the library {what}: {call} < target/differs-0.plan");
    fs::write("target/differs-0.plan", text).expect("a file under target");
    process::exit(1);
}

extern "C" fn crashed(_: i32) {
    CALLED.with_borrow(|called| {
        give_up("crashes", called.as_ref().unwrap_or(&("before any call".to_string(), Vec::new())))
    });
}

/// What a worker waits for, and since when.
#[derive(Clone, Default)]
pub struct Watchdog(Arc<Mutex<Option<(Instant, Awaited)>>>);

/// A wait, which ends where this is dropped.
pub struct Watched<'a>(&'a Watchdog);

impl Watchdog {
    pub fn new() -> Watchdog {
        for number in CRASHES {
            unsafe { signal(number, crashed) };
        }
        let watchdog = Watchdog::default();
        let other = watchdog.clone();
        thread::spawn(move || loop {
            thread::sleep(PATIENCE / 30);
            other.look();
        });
        watchdog
    }

    fn watch(&self, awaited: Awaited) -> Watched<'_> {
        *self.0.lock().expect("a wait") = Some((Instant::now(), awaited));
        Watched(self)
    }

    pub fn process(&self, number: u32) -> Watched<'_> {
        self.watch(Awaited::Process(number))
    }

    pub fn function(&self, call: String, text: &[u8]) -> Watched<'_> {
        CALLED.replace(Some((call.clone(), text.to_vec())));
        self.watch(Awaited::Function((call, text.to_vec())))
    }

    /// Ends a process, which is then seen to have ended by a signal.
    fn look(&self) {
        match &*self.0.lock().expect("a wait") {
            Some((since, _)) if since.elapsed() < PATIENCE => {}
            Some((_, Awaited::Process(number))) => drop(unsafe { kill(*number as i32, 9) }),
            Some((_, Awaited::Function(function))) => give_up("does not end", function),
            None => {}
        }
    }
}

impl Drop for Watched<'_> {
    fn drop(&mut self) {
        *self.0 .0.lock().expect("a wait") = None;
    }
}
