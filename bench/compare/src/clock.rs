//! The least time of several runs. All contenders take turns, so that each has its share of the machine's quiet moments, and what is read is the
//! thread's own processor time, which stands still while other processes have the core.

#[repr(C)]
struct Time {
    seconds: i64,
    nanoseconds: i64,
}

unsafe extern "C" {
    fn clock_gettime(clock: i32, time: *mut Time) -> i32;
}

const THREAD_CPUTIME: i32 = 3;

pub fn now() -> f64 {
    let mut time = Time { seconds: 0, nanoseconds: 0 };
    assert_eq!(0, unsafe { clock_gettime(THREAD_CPUTIME, &mut time) });
    time.seconds as f64 + time.nanoseconds as f64 / 1e9
}

/// One run: the seconds between what it prepares and what it throws away.
pub type Run<'a> = Box<dyn FnMut() -> f64 + 'a>;

pub fn run<'a, T, R>(mut prepare: impl FnMut() -> T + 'a, mut run: impl FnMut(&mut T) -> R + 'a) -> Run<'a> {
    Box::new(move || {
        let mut prepared = prepare();
        let begun = now();
        let answer = run(&mut prepared);
        let seconds = now() - begun;
        drop(answer);
        seconds
    })
}

/// The least seconds of each, over so many turns, or fewer where they are long: five at least.
pub fn least<const N: usize>(turns: usize, mut runs: [Run; N]) -> [f64; N] {
    let mut best = [f64::INFINITY; N];
    let begun = now();
    for turn in 0..turns {
        if turn >= 5 && now() - begun > 3.0 {
            break;
        }
        for (best, run) in best.iter_mut().zip(&mut runs) {
            *best = best.min(run());
        }
    }
    best
}
