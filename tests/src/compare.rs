//! Counting calls and differences. A test ends with one line, `NAME calls N differences M`, and fails where M is not 0.

use std::env;

use crate::random::Random;
use crate::Room;

/// The calls that shares are thousandths of; CREST_CALLS gives another number.
const CALLS: u64 = 2_000_000;

pub struct Compare {
    name: &'static str,
    wanted: u64,
    calls: u64,
    differences: u64,
}

impl Compare {
    /// A test that makes this share, in thousandths, of all calls.
    pub fn share(name: &'static str, thousandths: u64) -> Compare {
        let all = env::var("CREST_CALLS").map_or(CALLS, |calls| calls.parse().expect("CREST_CALLS is a number"));
        Compare { name, wanted: all * thousandths / 1_000, calls: 0, differences: 0 }
    }

    /// A test that makes as many calls as it has cases.
    pub fn cases(name: &'static str) -> Compare {
        Compare { name, wanted: 0, calls: 0, differences: 0 }
    }

    pub fn more(&self) -> bool {
        self.calls < self.wanted
    }

    pub fn calls(&self) -> u64 {
        self.calls
    }

    pub fn differences(&self) -> u64 {
        self.differences
    }

    /// The generator of this test: CREST_SEED makes another run.
    pub fn random(&self) -> Random {
        let seed = env::var("CREST_SEED").map_or(1, |seed| seed.parse().expect("CREST_SEED is a number"));
        let name = self.name.bytes().fold(0, |sum: u64, byte| sum.wrapping_mul(257).wrapping_add(byte.into()));
        Random::new(name ^ (seed as u64).wrapping_mul(0x9e37_79b9_7f4a_7c15))
    }

    /// One call with nothing lent to change.
    pub fn value(&mut self, asked: impl Fn() -> String, got: u32, expected: u32) {
        self.calls += 1;
        if got != expected {
            self.differ(&format!("{}: value {got}, by the rules {expected}", asked()));
        }
    }

    /// One call on a room: its value, the room afterwards, and the bytes around it. Returns the value.
    pub fn room(
        &mut self,
        asked: impl Fn() -> String,
        before: &[u8],
        shift: usize,
        call: impl FnOnce(&mut [u8]) -> u32,
        rules: impl FnOnce(&mut [u8]) -> u32,
    ) -> u32 {
        self.calls += 1;
        let mut room = Room::of(before, shift);
        let got = call(room.lend());
        let mut expected_room = before.to_vec();
        let expected = rules(&mut expected_room);
        if got != expected || room.content() != expected_room || !room.guards_hold() {
            self.differ(&format!(
                "{}: value {got}, by the rules {expected}\n room before {}\n after {}\n by the rules {}\n bytes around it {}",
                asked(),
                hex(before),
                hex(room.content()),
                hex(&expected_room),
                if room.guards_hold() { "unchanged" } else { "changed" },
            ));
        }
        got
    }

    /// A statement that should hold beside the calls.
    pub fn holds(&mut self, what: impl Fn() -> String, held: bool) {
        if !held {
            self.differ(&what());
        }
    }

    /// In a run of some size, every refusal number that the function can give occurred.
    pub fn covers(&mut self, seen: &[u32], given: &[usize]) {
        if self.wanted >= 20_000 {
            self.holds(|| format!("every number of {given:?} occurs: {seen:?}"), given.iter().all(|&number| seen[number] > 0));
        }
    }

    fn differ(&mut self, what: &str) {
        self.differences += 1;
        if self.differences <= 5 {
            println!("{} differs at call {}: {what}", self.name, self.calls);
        }
    }

    pub fn done(self) {
        println!("{} calls {} differences {}", self.name, self.calls, self.differences);
        assert_eq!(self.differences, 0, "{}", self.name);
        assert!(self.calls > 0 && self.calls >= self.wanted, "{}: too few calls", self.name);
    }
}

/// The bytes in hexadecimal; of more than any file has, the first few and how many there are.
pub fn hex(bytes: &[u8]) -> String {
    if bytes.len() > 4_096 {
        return format!("{}... {} bytes", hex(&bytes[..64]), bytes.len());
    }
    bytes.iter().map(|byte| format!("{byte:02x}")).collect()
}
