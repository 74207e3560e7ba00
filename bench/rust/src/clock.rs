//! The clock, and sides that take turns before it. Time is the processor's: other programs on the
//! machine do not add to it.

#[repr(C)]
struct Timespec {
    seconds: i64,
    nanoseconds: i64,
}

/// Of Linux: the processor time of the calling thread.
const CLOCK_THREAD_CPUTIME_ID: i32 = 3;

unsafe extern "C" {
    fn clock_gettime(clock: i32, time: *mut Timespec) -> i32;
}

/// Nanoseconds that the thread has taken so far.
pub fn spent() -> f64 {
    let mut time = Timespec {
        seconds: 0,
        nanoseconds: 0,
    };
    unsafe { clock_gettime(CLOCK_THREAD_CPUTIME_ID, &mut time) };
    time.seconds as f64 * 1e9 + time.nanoseconds as f64
}

/// One side of a case: what is timed, with how many calls between two looks at the clock, and the
/// least time of a call so far.
pub struct Side<'a> {
    name: &'static str,
    call: Box<dyn FnMut(usize) -> f64 + 'a>,
    calls: usize,
    least: f64,
}

/// Between two looks at the clock at least this many nanoseconds should pass.
const LOOK: f64 = 200_000.0;
/// A turn of a side takes about this many nanoseconds.
const TURN: f64 = 20_000_000.0;

impl<'a> Side<'a> {
    /// `call` makes so many calls and gives the time of all.
    pub fn new(name: &'static str, mut call: impl FnMut(usize) -> f64 + 'a) -> Side<'a> {
        let mut calls = 1;
        while call(calls) < LOOK {
            calls *= 2;
        }
        Side {
            name,
            call: Box::new(call),
            calls,
            least: f64::INFINITY,
        }
    }

    fn turn(&mut self) {
        let mut all = 0.0;
        while all < TURN {
            let time = (self.call)(self.calls);
            all += time;
            self.least = self.least.min(time / self.calls as f64);
        }
    }
}

/// Lets the sides take so many turns, and prints the least time of each.
pub fn take_turns(mut sides: Vec<Side>, rounds: usize) {
    for _ in 0..rounds {
        for side in &mut sides {
            side.turn();
        }
    }
    for side in sides {
        println!("{} {}", side.name, side.least);
    }
}
