//! A model of the monitor at work: a pump whose encoder counts exactly, and a
//! volume routine that keeps its session clock in a 32-bit float.

/// Microlitres in a millisecond: 300 millilitres in a minute.
pub const RATE: i32 = 5;
/// Milliseconds from one tick to the next.
pub const STEP: i32 = 1;
/// Readings in a recording: a value has at most 64 words, a set of ten pairs 62.
pub const READINGS: usize = 10;

/// Ticks before the recording near the start: one second.
pub const NEAR: u32 = 1_000;
/// Ticks before the recording far from the start: 4 hours and 40 minutes. A
/// 32-bit float has 24 bits for a whole number, so that 2^24 + 1 is none.
pub const FAR: u32 = 1 << 24;

/// What is recorded at a tick.
#[derive(Clone, Copy, PartialEq, Eq, Debug)]
pub struct Reading {
    pub clock: i32,
    pub drawn: i32,
    pub shown: i32,
}

/// The monitor since the start of a session.
#[derive(Default)]
struct Monitor {
    /// The routine's session clock in milliseconds.
    clock: f32,
    /// The encoder's count in microlitres.
    drawn: i32,
}

impl Monitor {
    fn tick(&mut self) {
        self.clock += STEP as f32;
        self.drawn += RATE * STEP;
    }

    /// The clock and the displayed volume are whole numbers, as floats too.
    fn reading(&self) -> Reading {
        let shown = RATE as f32 * self.clock;
        Reading { clock: self.clock as i32, drawn: self.drawn, shown: shown as i32 }
    }
}

/// A session's readings after so many ticks, one a tick.
pub fn record(before: u32) -> Vec<Reading> {
    let mut monitor = Monitor::default();
    (0..before).for_each(|_| monitor.tick());
    let one = |_| {
        let reading = monitor.reading();
        monitor.tick();
        reading
    };
    (0..READINGS).map(one).collect()
}
