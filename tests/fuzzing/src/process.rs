//! Child processes, and the wish to stop. The other module with an `unsafe` of
//! its own is `memory`.

use std::ffi::{c_int, c_ulong};
use std::process::exit;
use std::sync::atomic::{AtomicBool, Ordering};

const INTERRUPT: c_int = 2;
const KILL: c_int = 9;
/// Of `waitpid`: not to wait.
const AT_ONCE: c_int = 1;
/// Of `prctl`: the signal that a process gets when its parent is gone.
const WHEN_PARENT_IS_GONE: c_int = 1;

extern "C" {
    fn fork() -> c_int;
    fn waitpid(process: c_int, status: *mut c_int, options: c_int) -> c_int;
    fn kill(process: c_int, signal: c_int) -> c_int;
    fn prctl(option: c_int, signal: c_ulong) -> c_int;
    fn signal(signal: c_int, handler: extern "C" fn(c_int)) -> usize;
}

/// How a child ended.
#[derive(Clone, Copy, Debug, PartialEq, Eq)]
pub enum End {
    Exit(i32),
    Signal(i32),
}

pub struct Child(c_int);

/// Has a child process do some work.
pub fn start(work: impl FnOnce()) -> Child {
    // SAFETY: the child has a copy of everything, and of all threads the one
    // that it goes on with, which is the only one (in tests, the only one used).
    match unsafe { fork() } {
        -1 => panic!("no child process can be started"),
        0 => {
            // SAFETY: this changes nothing but what the child gets one day.
            unsafe { prctl(WHEN_PARENT_IS_GONE, KILL as c_ulong) };
            work();
            exit(0)
        }
        process => Child(process),
    }
}

impl Child {
    /// How it ended, if it has.
    pub fn end(&self) -> Option<End> {
        self.wait(AT_ONCE)
    }

    /// Ends it.
    pub fn kill(self) {
        // SAFETY: the child was not waited for to its end, so the number is its
        // own still.
        unsafe { kill(self.0, KILL) };
        self.wait(0);
    }

    fn wait(&self, options: c_int) -> Option<End> {
        let mut status = 0;
        // SAFETY: the status is written while it is lent.
        let ended = unsafe { waitpid(self.0, &mut status, options) };
        let signal = status & 0x7f;
        match (ended == self.0, signal) {
            (false, _) => None,
            (true, 0) => Some(End::Exit(status >> 8 & 0xff)),
            (true, _) => Some(End::Signal(signal)),
        }
    }
}

static ASKED_TO_STOP: AtomicBool = AtomicBool::new(false);

extern "C" fn stop(_: c_int) {
    ASKED_TO_STOP.store(true, Ordering::Relaxed);
}

/// From here on an interrupt only asks to stop. Children inherit this, and a
/// terminal interrupts them too.
pub fn note_interrupts() {
    // SAFETY: the handler does nothing but store a flag.
    unsafe { signal(INTERRUPT, stop) };
}

pub fn asked_to_stop() -> bool {
    ASKED_TO_STOP.load(Ordering::Relaxed)
}

#[cfg(test)]
mod tests {
    use super::*;

    fn end_of(child: &Child) -> End {
        loop {
            if let Some(end) = child.end() {
                return end;
            }
        }
    }

    #[test]
    fn work_that_is_done_exits_with_0() {
        assert_eq!(end_of(&start(|| ())), End::Exit(0));
    }

    #[test]
    fn a_child_has_no_end_before_it_is_killed() {
        let child = start(|| loop {
            std::thread::park();
        });
        assert_eq!(child.end(), None);
        child.kill();
    }
}
