//! Times taken in turn, and their medians. A time is the thread's own: what other programs take is not counted.

use crate::calls::{Call, Room};
use crate::data::Data;
use oracle::bits::first_difference;
use std::hint::black_box;
use std::time::{Duration, Instant};

/// Median seconds a call, of two that were measured in turn.
#[derive(Clone, Copy)]
pub struct Times {
    pub one: f64,
    pub other: f64,
}

/// How long both together are measured, and the least length of one sample.
const IN_ALL: Duration = Duration::from_millis(2500);
const SAMPLE: Duration = Duration::from_micros(200);
/// The fewest samples of each.
const SAMPLES: usize = 15;

/// Measures a call by the port and by the Rust in turn, once both gave the same bits.
pub fn measure(call: Call, data: &Data) -> Times {
    let mut room = checked(call, data);
    let port = || run(call, data, &mut room);
    let rust = || {
        black_box((call.rust)(black_box(data)));
    };
    in_turn(port, rust)
}

/// Measures two calls by the port in turn, once each gave the Rust's bits.
pub fn between(one: Call, other: Call, data: &Data) -> Times {
    let (mut room, mut other_room) = (checked(one, data), checked(other, data));
    in_turn(
        || run(one, data, &mut room),
        || run(other, data, &mut other_room),
    )
}

/// The room of a call that gave the Rust's bits in it.
fn checked(call: Call, data: &Data) -> Room {
    let mut room = Room::new(call, data);
    (call.port)(data, &mut room);
    let differs = first_difference(&room.out, &(call.rust)(data));
    assert_eq!(differs, None, "{}: the port and the Rust differ", call.name);
    room
}

fn run(call: Call, data: &Data, room: &mut Room) {
    (call.port)(black_box(data), room);
    black_box(&room.out);
}

fn in_turn(mut one: impl FnMut(), mut other: impl FnMut()) -> Times {
    let repeat = (SAMPLE.as_secs_f64() / time(1, &mut other)).ceil().max(1.0) as u32;
    let (mut ones, mut others) = (Vec::new(), Vec::new());
    let start = Instant::now();
    while ones.len() < SAMPLES || start.elapsed() < IN_ALL {
        ones.push(time(repeat, &mut one));
        others.push(time(repeat, &mut other));
        others.push(time(repeat, &mut other));
        ones.push(time(repeat, &mut one));
    }
    Times {
        one: median(ones),
        other: median(others),
    }
}

/// Seconds a call over so many calls.
fn time(repeat: u32, mut call: impl FnMut()) -> f64 {
    let start = thread_seconds();
    (0..repeat).for_each(|_| call());
    (thread_seconds() - start) / f64::from(repeat)
}

/// The processor time of this thread so far.
fn thread_seconds() -> f64 {
    #[repr(C)]
    struct Timespec {
        seconds: i64,
        nanoseconds: i64,
    }
    unsafe extern "C" {
        fn clock_gettime(clock: i32, time: *mut Timespec) -> i32;
    }
    const CLOCK_THREAD_CPUTIME_ID: i32 = 3;
    let mut time = Timespec {
        seconds: 0,
        nanoseconds: 0,
    };
    let failed = unsafe { clock_gettime(CLOCK_THREAD_CPUTIME_ID, &mut time) };
    assert_eq!(failed, 0, "the thread's clock can be read");
    time.seconds as f64 + time.nanoseconds as f64 * 1e-9
}

fn median(mut times: Vec<f64>) -> f64 {
    times.sort_by(f64::total_cmp);
    times[times.len() / 2]
}
