//! Tests of the exported C functions: safe wrappers here, the rules a second time in `rules`, what to call them with in
//! `random`, and the count of calls and differences in `compare`.

pub mod compare;
pub mod random;
pub mod rules;

use std::ptr;

/// The exported functions as C sees them.
pub mod raw {
    extern "C" {
        pub fn crest_check(crest: *const u8, crest_len: usize) -> u32;
        pub fn crest_write(records: *const u8, records_len: usize, room: *mut u8, room_len: usize) -> u32;
        pub fn crest_plane_reading(crest: *const u8, crest_len: usize, x: f64, y: f64, run: *mut u8, run_len: usize) -> u32;
        pub fn crest_line_reading(
            crest: *const u8,
            crest_len: usize,
            station: f64,
            offset: f64,
            run: *mut u8,
            run_len: usize,
        ) -> u32;
        pub fn crest_stake_out(
            own_x: i32,
            own_y: i32,
            target_x: i32,
            target_y: i32,
            heading_c: i32,
            heading_s: i32,
            r#move: *mut u8,
            move_len: usize,
        ) -> u32;
        pub fn crest_sighting_reading(
            crest: *const u8,
            crest_len: usize,
            station_x: i32,
            station_y: i32,
            backsight_c: i32,
            backsight_s: i32,
            angle_c: i32,
            angle_s: i32,
            distance: i32,
            run: *mut u8,
            run_len: usize,
        ) -> u32;
        pub fn crest_sighting_stake_out(
            station_x: i32,
            station_y: i32,
            backsight_c: i32,
            backsight_s: i32,
            angle_c: i32,
            angle_s: i32,
            distance: i32,
            target_x: i32,
            target_y: i32,
            r#move: *mut u8,
            move_len: usize,
        ) -> u32;
        pub fn crest_acknowledge(run: *mut u8, run_len: usize) -> u32;
        pub fn probe_position(crest: *const u8, crest_len: usize, station: u32, out: *mut u8, out_len: usize) -> u32;
        pub fn probe_locate(crest: *const u8, crest_len: usize, x: i32, y: i32, out: *mut u8, out_len: usize) -> u32;
        pub fn probe_inverse(crest: *const u8, crest_len: usize, station: u32, offset: i32, out: *mut u8, out_len: usize) -> u32;
        pub fn probe_record(crest: *const u8, crest_len: usize, i: u32, out: *mut u8, out_len: usize) -> u32;
    }
}

/// An empty slice is lent as NULL with length 0.
fn lent(bytes: &[u8]) -> *const u8 {
    if bytes.is_empty() {
        ptr::null()
    } else {
        bytes.as_ptr()
    }
}

fn lent_mut(bytes: &mut [u8]) -> *mut u8 {
    if bytes.is_empty() {
        ptr::null_mut()
    } else {
        bytes.as_mut_ptr()
    }
}

// Each wrapper is safe: the slices are live, do not overlap, and their lengths are their own.

pub fn check(crest: &[u8]) -> u32 {
    unsafe { raw::crest_check(lent(crest), crest.len()) }
}

pub fn write(records: &[u8], room: &mut [u8]) -> u32 {
    unsafe { raw::crest_write(lent(records), records.len(), lent_mut(room), room.len()) }
}

pub fn reading(crest: &[u8], reading: rules::Reading, run: &mut [u8]) -> u32 {
    match reading {
        rules::Reading::PlanePoint(x, y) => unsafe {
            raw::crest_plane_reading(lent(crest), crest.len(), x, y, lent_mut(run), run.len())
        },
        rules::Reading::LinePlace(station, offset) => unsafe {
            raw::crest_line_reading(lent(crest), crest.len(), station, offset, lent_mut(run), run.len())
        },
    }
}

pub fn stake_out(own: (i32, i32), target: (i32, i32), heading: (i32, i32), room: &mut [u8]) -> u32 {
    unsafe { raw::crest_stake_out(own.0, own.1, target.0, target.1, heading.0, heading.1, lent_mut(room), room.len()) }
}

pub fn sighting_reading(crest: &[u8], sighting: rules::Sighting, run: &mut [u8]) -> u32 {
    let rules::Sighting { place, backsight, angle, distance } = sighting;
    unsafe {
        raw::crest_sighting_reading(
            lent(crest),
            crest.len(),
            place.0,
            place.1,
            backsight.0,
            backsight.1,
            angle.0,
            angle.1,
            distance,
            lent_mut(run),
            run.len(),
        )
    }
}

pub fn observe(crest: &[u8], asked: rules::Observation, run: &mut [u8]) -> u32 {
    match asked {
        rules::Observation::Read(asked) => reading(crest, asked, run),
        rules::Observation::Sighted(asked) => sighting_reading(crest, asked, run),
    }
}

pub fn sighting_stake_out(sighting: rules::Sighting, target: (i32, i32), room: &mut [u8]) -> u32 {
    let rules::Sighting { place, backsight, angle, distance } = sighting;
    unsafe {
        raw::crest_sighting_stake_out(
            place.0,
            place.1,
            backsight.0,
            backsight.1,
            angle.0,
            angle.1,
            distance,
            target.0,
            target.1,
            lent_mut(room),
            room.len(),
        )
    }
}

pub fn acknowledge(run: &mut [u8]) -> u32 {
    unsafe { raw::crest_acknowledge(lent_mut(run), run.len()) }
}

pub fn position(crest: &[u8], station: u32, out: &mut [u8]) -> u32 {
    unsafe { raw::probe_position(lent(crest), crest.len(), station, lent_mut(out), out.len()) }
}

pub fn locate(crest: &[u8], x: i32, y: i32, out: &mut [u8]) -> u32 {
    unsafe { raw::probe_locate(lent(crest), crest.len(), x, y, lent_mut(out), out.len()) }
}

pub fn inverse(crest: &[u8], station: u32, offset: i32, out: &mut [u8]) -> u32 {
    unsafe { raw::probe_inverse(lent(crest), crest.len(), station, offset, lent_mut(out), out.len()) }
}

pub fn record(crest: &[u8], record: u32, out: &mut [u8]) -> u32 {
    unsafe { raw::probe_record(lent(crest), crest.len(), record, lent_mut(out), out.len()) }
}

/// Room to lend, between two stretches of known bytes, at any alignment.
pub struct Room {
    bytes: Vec<u8>,
    start: usize,
    len: usize,
}

const GUARD: usize = 64;

fn guard(at: usize) -> u8 {
    0xa5 ^ (at as u8).wrapping_mul(29)
}

impl Room {
    /// A room with this content, `shift` bytes further on.
    pub fn of(content: &[u8], shift: usize) -> Room {
        let start = GUARD + shift;
        let mut bytes: Vec<u8> = (0..start + content.len() + GUARD).map(guard).collect();
        bytes[start..start + content.len()].copy_from_slice(content);
        Room { bytes, start, len: content.len() }
    }

    pub fn content(&self) -> &[u8] {
        &self.bytes[self.start..self.start + self.len]
    }

    /// The content to lend, as a part of the whole allocation.
    pub fn lend(&mut self) -> &mut [u8] {
        &mut self.bytes[self.start..self.start + self.len]
    }

    /// Nothing was written before or after the room.
    pub fn guards_hold(&self) -> bool {
        let end = self.start + self.len;
        (0..self.start).chain(end..self.bytes.len()).all(|at| self.bytes[at] == guard(at))
    }
}
