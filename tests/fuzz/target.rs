//! The fuzz target: bytes are read as a crest and calls of the exported functions, and each call is compared with the rules.
//!
//! An input is read from its front, and its meaning is fixed, so that an input that was found can be run again. A choice is
//! 1, 2, 4 or 8 bytes, little-endian, as few as its limit needs, modulo that limit; `random.rs` has the choices that are
//! named below. After the last byte choices go on with those of seed 0.
//!
//! First a crest, by a choice of 7:
//!
//!     0  below 2,601, and so many bytes (or what is left): the file as it is
//!     1  below 2,049, and so many bytes: whole records, in blocks with right fields and sums
//!     2  as 1, then damage
//!     3  Random::crest: an accepted file
//!     4  as 3, then damage
//!     5  as 3, its records changed by Random::damage_records, in blocks with right fields and sums
//!     6  as 3, then Random::file_of
//!
//! Damage is a choice of 8, how many bytes; for each its place and the byte; and a byte whose bits say which blocks' sums are
//! made right again.
//!
//! Then calls, as long as bytes are left and at most 64. All readings, sightings and acknowledgements are made on one run, at
//! first fresh; what one call left is what the next is lent. By a choice of 17:
//!
//!     0       crest_check
//!     1       crest_write; by a choice of 4: 0, 1 the crest's records; 2 cut or filled to a length below 2,601; 3 a length
//!             below 2,601 and so many bytes. The room by a choice of 3: as needed; one less to one more; a length below 2,601
//!     2 | 3   crest_plane_reading: 2 with two f64 of 8 bytes each, 3 with Random::plane_point
//!     4 | 5   crest_line_reading: 4 with two f64 of 8 bytes each, 5 with Random::line_place
//!     6       crest_acknowledge
//!     7       another run; by a choice of 4: fresh; 24 bytes; a length below 100 and so many bytes; Random::run
//!     8 | 9   crest_stake_out: 8 with six i32 of 4 bytes each, 9 with Random::own_and_target and Random::heading
//!     10      probe_position
//!     11      probe_locate
//!     12      probe_inverse; the probes by a choice of 2 with numbers of 4 bytes each or those of Random, the inverse's
//!             station and offset by one each
//!     13 | 14 crest_sighting_reading: 13 with seven i32 of 4 bytes each, 14 with Random::sighting
//!     15 | 16 crest_sighting_stake_out: 15 with nine i32 of 4 bytes each, 16 with Random::sighting_and_target
//!
//! 3, 5, 14 and the probes' numbers of Random are taken near the crest before its damage; where it was not accepted, numbers are
//! of 4 or 8 bytes and there is no choice of 2 but that of the offset.
//!
//! After a call's numbers, what it is lent, in this order: the room of a stake-out or a probe, by a choice of 4: a length below
//! 64, Random::lent, or else of the size asked for, and but for Random::lent a byte that its content begins with; a choice of 16
//! that shifts the room or the run; for a crest or records a choice of 3: at the end of a page that is followed by one that
//! cannot be read, at the start of a page that follows such a one, or in between at an odd address.
//!
//! A point on a long crest can take as many visits as there are stations. So the calls of one input that walk are made on at
//! most 2,000,000 mm of crest in all, and those after them are left out.

use std::ffi::c_void;
use std::ptr;
use std::slice;

use crest_tests::compare::{hex, Compare};
use crest_tests::random::Random;
use crest_tests::rules::{
    self, Crest, Observation, Reading, Refusal, Sighting, BLOCK_SIZE, LAST_NUMBER, MOST_BLOCKS, MOVE_SIZE, PER_BLOCK, PLACE_UNIT,
    RECORDS_END, RECORD_SIZE, RUN_SIZE, USED_AT,
};
use crest_tests::{acknowledge, check, inverse, locate, observe, position, sighting_stake_out, stake_out, write};

const CALLS: usize = 64;
const WALKED: i128 = 2_000_000;
const LONGEST: usize = 2_601;

/// The exported functions, and the refusal numbers that each can give.
pub const FUNCTIONS: [(&str, &[usize]); 11] = [
    ("crest_check", &[1, 2, 3, 4, 5, 6, 7, 8, 9]),
    ("crest_write", &[4, 5, 6, 7, 8, 9, 17, 18]),
    ("crest_plane_reading", &[1, 2, 3, 4, 5, 6, 7, 8, 9, 10, 11, 12, 13, 14, 16, 18]),
    ("crest_line_reading", &[1, 2, 3, 4, 5, 6, 7, 8, 9, 10, 11, 15, 16, 18]),
    ("crest_acknowledge", &[18]),
    ("crest_stake_out", &[7, 11, 18]),
    ("probe_position", &[1, 2, 3, 4, 5, 6, 7, 8, 9, 15, 18]),
    ("probe_locate", &[1, 2, 3, 4, 5, 6, 7, 8, 9, 11, 12, 13, 14, 18]),
    ("probe_inverse", &[1, 2, 3, 4, 5, 6, 7, 8, 9, 11, 15, 18]),
    ("crest_sighting_reading", &[1, 2, 3, 4, 5, 6, 7, 8, 9, 11, 12, 13, 14, 15, 16, 18]),
    ("crest_sighting_stake_out", &[7, 11, 15, 18]),
];
const CHECK: usize = 0;
const WRITE: usize = 1;
const PLANE: usize = 2;
const LINE_PLACE: usize = 3;
const ACKNOWLEDGE: usize = 4;
const STAKE_OUT: usize = 5;
const POSITION: usize = 6;
const LOCATE: usize = 7;
const INVERSE: usize = 8;
const SIGHTING: usize = 9;
const SIGHTING_STAKE_OUT: usize = 10;

/// How often each function gave each number, and the differences.
#[derive(Default)]
pub struct Seen {
    pub numbers: [[u64; LAST_NUMBER + 1]; FUNCTIONS.len()],
    pub differences: u64,
}

/// libFuzzer calls this with each input. A difference is printed and ends the process.
///
/// # Safety
/// `data` leads to `len` bytes.
#[no_mangle]
pub unsafe extern "C" fn LLVMFuzzerTestOneInput(data: *const u8, len: usize) -> i32 {
    let bytes = if len == 0 { &[] } else { unsafe { slice::from_raw_parts(data, len) } };
    let mut seen = Seen::default();
    one_input(bytes, &mut seen);
    if seen.differences > 0 {
        std::process::abort();
    }
    0
}

/// All calls of one input.
pub fn one_input(bytes: &[u8], seen: &mut Seen) {
    let mut random = Random::given(bytes);
    let (file, records, near) = crest_of(&mut random);
    let told = rules::check(&file);
    let near = near.or(told.as_ref().ok().cloned());
    let compare = Compare::cases("fuzz");
    let mut calls = Calls { random, compare, seen, file, records, told, near, run: vec![0; RUN_SIZE], walked: 0 };
    let mut fence = Fence::new();
    for _ in 0..CALLS {
        if calls.random.left() == 0 {
            break;
        }
        calls.one(&mut fence);
    }
    calls.seen.differences += calls.compare.differences();
}

/// The file, records for the writer, and an accepted crest that points are taken near.
fn crest_of(random: &mut Random) -> (Vec<u8>, Vec<u8>, Option<Crest>) {
    let form = random.below(7);
    let (records, near) = match form {
        0 => {
            let len = random.below(LONGEST);
            let file = random.take(len);
            let records = file.chunks_exact(BLOCK_SIZE).flat_map(|block| used_records(block).to_vec()).collect();
            return (file, records, None);
        }
        1 | 2 => {
            let len = random.below(MOST_BLOCKS * BLOCK_SIZE + 1);
            let mut records = random.take(len);
            records.truncate(records.len() / RECORD_SIZE * RECORD_SIZE);
            let near = rules::check_records(&records).ok().filter(|crest| !crest.elements.is_empty());
            (records, near)
        }
        _ => {
            let (records, crest) = random.crest();
            (records, Some(crest))
        }
    };
    let file = match form {
        2 | 4 => {
            let mut file = rules::blocks_of(&records);
            damage(random, &mut file);
            file
        }
        5 => {
            let mut records = records.clone();
            random.damage_records(&mut records);
            rules::blocks_of(&records)
        }
        6 => random.file_of(&records),
        _ => rules::blocks_of(&records),
    };
    (file, records, near)
}

fn used_records(block: &[u8]) -> &[u8] {
    &block[..RECORD_SIZE * usize::from(rules::u16_at(block, USED_AT)).min(PER_BLOCK)]
}

fn damage(random: &mut Random, file: &mut [u8]) {
    if file.is_empty() {
        return;
    }
    for _ in 0..random.below(8) {
        let at = random.below(file.len());
        file[at] = random.below(256) as u8;
    }
    let repaired = random.below(256);
    for (number, block) in file.chunks_exact_mut(BLOCK_SIZE).enumerate() {
        if (repaired >> number) & 1 == 1 {
            rules::put_sums(block);
        }
    }
}

struct Calls<'a> {
    random: Random,
    compare: Compare,
    seen: &'a mut Seen,
    file: Vec<u8>,
    records: Vec<u8>,
    told: Result<Crest, Refusal>,
    near: Option<Crest>,
    run: Vec<u8>,
    walked: i128,
}

impl Calls<'_> {
    fn one(&mut self, fence: &mut Fence) {
        let near = self.near.clone();
        match (self.random.below(17), &near) {
            (0, _) => {
                let file = fence.lend(&self.file, &mut self.random);
                let got = check(file);
                self.compare.value(|| format!("crest_check, file {}", hex(&self.file)), got, rules::code(&self.told));
                self.count(CHECK, got);
                self.only_read(CHECK, file == self.file);
            }
            (1, _) => self.write(fence),
            (3, Some(crest)) => {
                let asked = self.random.plane_point(crest);
                self.observe(fence, Observation::Read(asked));
            }
            (2 | 3, _) => {
                let asked = Reading::PlanePoint(self.f64(), self.f64());
                self.observe(fence, Observation::Read(asked));
            }
            (5, Some(crest)) => {
                let asked = self.random.line_place(crest);
                self.observe(fence, Observation::Read(asked));
            }
            (4 | 5, _) => {
                let asked = Reading::LinePlace(self.f64(), self.f64());
                self.observe(fence, Observation::Read(asked));
            }
            (6, _) => {
                let shift = self.random.below(16);
                self.on_run(ACKNOWLEDGE, None, shift, acknowledge, rules::acknowledge_call);
            }
            (7, _) => {
                self.run = match self.random.below(4) {
                    0 => vec![0; RUN_SIZE],
                    1 => {
                        let mut run = self.random.take(RUN_SIZE);
                        run.resize(RUN_SIZE, 0);
                        run
                    }
                    2 => {
                        let len = self.random.below(100);
                        self.random.take(len)
                    }
                    _ => self.random.run(),
                }
            }
            (8, _) => {
                let (own, target, heading) = (self.pair(), self.pair(), self.pair());
                self.stake_out(own, target, heading);
            }
            (9, _) => {
                let (own, target) = self.random.own_and_target();
                let heading = self.random.heading();
                self.stake_out(own, target, heading);
            }
            (10, _) => {
                let station = self.station(&near);
                self.probe(fence, POSITION, 16, station, position, rules::position_call);
            }
            (11, _) => {
                let point = match &near {
                    Some(crest) if self.random.one_in(2) => self.random.point(crest),
                    _ => self.pair(),
                };
                if self.may_walk() {
                    self.probe(
                        fence,
                        LOCATE,
                        16,
                        point,
                        |file, (x, y), room| locate(file, x, y, room),
                        |told, (x, y), room| rules::locate_call(told, x, y, room),
                    );
                }
            }
            (14, Some(crest)) => {
                let asked = self.random.sighting(crest);
                self.observe(fence, Observation::Sighted(asked));
            }
            (13 | 14, _) => {
                let asked = self.sighting();
                self.observe(fence, Observation::Sighted(asked));
            }
            (15, _) => {
                let (asked, target) = (self.sighting(), self.pair());
                self.sighting_stake_out(asked, target);
            }
            (16, _) => {
                let (asked, target) = self.random.sighting_and_target();
                self.sighting_stake_out(asked, target);
            }
            _ => {
                let station = self.station(&near);
                let offset = if self.random.one_in(2) { self.random.offset() } else { self.i32() };
                self.probe(
                    fence,
                    INVERSE,
                    8,
                    (station, offset),
                    |file, (station, offset), room| inverse(file, station, offset, room),
                    |told, (station, offset), room| rules::inverse_call(told, station, offset, room),
                );
            }
        }
    }

    fn i32(&mut self) -> i32 {
        self.random.between(0, u32::MAX.into()) as u32 as i32
    }

    fn pair(&mut self) -> (i32, i32) {
        (self.i32(), self.i32())
    }

    fn sighting(&mut self) -> Sighting {
        Sighting { place: self.pair(), backsight: self.pair(), angle: self.pair(), distance: self.i32() }
    }

    fn f64(&mut self) -> f64 {
        f64::from_bits(self.random.bits())
    }

    fn station(&mut self, near: &Option<Crest>) -> u32 {
        match near {
            Some(crest) if self.random.one_in(2) => self.random.station(crest),
            _ => self.i32() as u32,
        }
    }

    /// Content of a room.
    fn filled(&mut self, len: usize) -> Vec<u8> {
        let first = self.random.below(256);
        (0..len).map(|at| (first + 31 * at) as u8).collect()
    }

    /// Whether another call may walk on this crest.
    fn may_walk(&mut self) -> bool {
        if let Ok(crest) = &self.told {
            self.walked += crest.total;
        }
        self.walked <= WALKED
    }

    fn count(&mut self, function: usize, value: u32) {
        if let Some(count) = self.seen.numbers[function].get_mut((value % PLACE_UNIT) as usize) {
            *count += 1;
        }
    }

    fn only_read(&mut self, function: usize, held: bool) {
        self.compare.holds(|| format!("{}: bytes that it is only to read are changed", FUNCTIONS[function].0), held);
    }

    fn write(&mut self, fence: &mut Fence) {
        let records = match self.random.below(4) {
            2 => {
                let mut records = self.records.clone();
                let len = self.random.below(LONGEST);
                records.resize(len, 0);
                records
            }
            3 => {
                let len = self.random.below(LONGEST);
                self.random.take(len)
            }
            _ => self.records.clone(),
        };
        let needed = BLOCK_SIZE * records.len().div_ceil(RECORDS_END);
        let room = match self.random.below(3) {
            0 => needed,
            1 => (needed + self.random.below(3)).saturating_sub(1),
            _ => self.random.below(LONGEST),
        };
        let before = self.filled(room);
        let shift = self.random.below(16);
        let lent = fence.lend(&records, &mut self.random);
        let value = self.compare.room(
            || format!("crest_write, records {}", hex(&records)),
            &before,
            shift,
            |room| write(lent, room),
            |room| rules::write_call(&records, room),
        );
        self.count(WRITE, value);
        self.only_read(WRITE, lent == records);
    }

    /// A call on the run; what it leaves is the run of the next.
    fn on_run(
        &mut self,
        function: usize,
        asked: Option<Observation>,
        shift: usize,
        call: impl FnOnce(&mut [u8]) -> u32,
        rules: impl FnOnce(&mut [u8]) -> u32,
    ) {
        let before = self.run.clone();
        let (run, file) = (&mut self.run, &self.file);
        let value = self.compare.room(
            || match asked {
                Some(asked) => format!("{} {asked:?} on file {}", FUNCTIONS[function].0, hex(file)),
                None => FUNCTIONS[function].0.to_string(),
            },
            &before,
            shift,
            |room| {
                let value = call(room);
                run.copy_from_slice(room);
                value
            },
            rules,
        );
        self.count(function, value);
    }

    fn observe(&mut self, fence: &mut Fence, asked: Observation) {
        let function = match asked {
            Observation::Read(Reading::PlanePoint(..)) => PLANE,
            Observation::Read(Reading::LinePlace(..)) => LINE_PLACE,
            Observation::Sighted(_) => SIGHTING,
        };
        if function != LINE_PLACE && !self.may_walk() {
            return;
        }
        let shift = self.random.below(16);
        let file = fence.lend(&self.file, &mut self.random);
        let told = self.told.clone();
        self.on_run(
            function,
            Some(asked),
            shift,
            |run| observe(file, asked, run),
            |run| rules::observation_call(&told, asked, run),
        );
        self.only_read(function, file == self.file);
    }

    /// A room for an answer of so many bytes.
    fn room(&mut self, size: usize) -> Vec<u8> {
        let len = match self.random.below(4) {
            0 => self.random.below(64),
            1 => return self.random.lent(size),
            _ => size,
        };
        self.filled(len)
    }

    fn stake_out(&mut self, own: (i32, i32), target: (i32, i32), heading: (i32, i32)) {
        let before = self.room(MOVE_SIZE);
        let shift = self.random.below(16);
        let value = self.compare.room(
            || format!("crest_stake_out, own {own:?}, target {target:?}, heading {heading:?}"),
            &before,
            shift,
            |room| stake_out(own, target, heading, room),
            |room| rules::stake_out_call(own, target, heading, room),
        );
        self.count(STAKE_OUT, value);
    }

    fn sighting_stake_out(&mut self, asked: Sighting, target: (i32, i32)) {
        let before = self.room(MOVE_SIZE);
        let shift = self.random.below(16);
        let value = self.compare.room(
            || format!("crest_sighting_stake_out {asked:?}, target {target:?}"),
            &before,
            shift,
            |room| sighting_stake_out(asked, target, room),
            |room| rules::sighting_stake_out_call(asked, target, room),
        );
        self.count(SIGHTING_STAKE_OUT, value);
    }

    fn probe<Q: Copy + std::fmt::Debug>(
        &mut self,
        fence: &mut Fence,
        function: usize,
        size: usize,
        asked: Q,
        call: fn(&[u8], Q, &mut [u8]) -> u32,
        rules: fn(&Result<Crest, Refusal>, Q, &mut [u8]) -> u32,
    ) {
        let before = self.room(size);
        let shift = self.random.below(16);
        let file = fence.lend(&self.file, &mut self.random);
        let value = self.compare.room(
            || format!("{} {asked:?} on file {}", FUNCTIONS[function].0, hex(&self.file)),
            &before,
            shift,
            |room| call(file, asked, room),
            |room| rules(&self.told, asked, room),
        );
        self.count(function, value);
        self.only_read(function, file == self.file);
    }
}

/// A page between two that cannot be read: a look outside of what is lent from its end or its start ends the process.
struct Fence {
    before: *mut u8,
}

const PAGE: usize = 4_096;

// As on Linux, x86-64.
const PROT_NONE: i32 = 0;
const PROT_READ_WRITE: i32 = 3;
const MAP_PRIVATE_ANONYMOUS: i32 = 0x22;

extern "C" {
    fn mmap(at: *mut c_void, len: usize, protection: i32, flags: i32, file: i32, offset: i64) -> *mut c_void;
    fn mprotect(at: *mut c_void, len: usize, protection: i32) -> i32;
    fn munmap(at: *mut c_void, len: usize) -> i32;
}

impl Fence {
    fn new() -> Fence {
        let before = unsafe { mmap(ptr::null_mut(), 3 * PAGE, PROT_NONE, MAP_PRIVATE_ANONYMOUS, -1, 0) };
        assert!(before as isize != -1, "three pages");
        let before: *mut u8 = before.cast();
        assert_eq!(unsafe { mprotect(before.add(PAGE).cast(), PAGE, PROT_READ_WRITE) }, 0, "a page to read and write");
        Fence { before }
    }

    /// The bytes, at most a page, at a place chosen.
    fn lend(&mut self, bytes: &[u8], random: &mut Random) -> &[u8] {
        let place = match random.below(3) {
            0 => PAGE - bytes.len(),
            1 => 0,
            _ => ((PAGE - bytes.len()) / 2) | 1,
        };
        assert!(place + bytes.len() <= PAGE);
        // The page is this value's own, and it is lent out only as long as `self` is.
        unsafe {
            let at = self.before.add(PAGE + place);
            ptr::copy_nonoverlapping(bytes.as_ptr(), at, bytes.len());
            slice::from_raw_parts(at, bytes.len())
        }
    }
}

impl Drop for Fence {
    fn drop(&mut self) {
        unsafe { munmap(self.before.cast(), 3 * PAGE) };
    }
}
