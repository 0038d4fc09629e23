//! probe_position, probe_locate, probe_inverse and probe_record: position and direction at a station, the walk with its count,
//! the inverse, and a record's bytes.

use crest_tests::compare::{hex, Compare};
use crest_tests::random::Random;
use crest_tests::rules::{self, Crest, Refusal, LAST_NUMBER, PLACE_UNIT, RECORD_SIZE};
use crest_tests::{inverse, locate, position, record};

/// Calls of one probe on accepted crests and damaged files, in rooms of any length.
fn probe<Q: Copy + std::fmt::Debug>(
    name: &'static str,
    thousandths: u64,
    room: usize,
    given: &[usize],
    question: fn(&mut Random, &Crest) -> Q,
    call: fn(&[u8], Q, &mut [u8]) -> u32,
    expected: fn(&Result<Crest, Refusal>, Q, &mut [u8]) -> u32,
) {
    let mut compare = Compare::share(name, thousandths);
    let mut random = compare.random();
    let mut seen = [0; LAST_NUMBER + 1];
    while compare.more() {
        let (records, crest) = random.crest();
        let file = rules::blocks_of(&records);
        let accepted = Ok(crest.clone());
        for _ in 0..40 {
            let asked = question(&mut random, &crest);
            let damaged = if random.one_in(16) { Some(random.file_of(&records)) } else { None };
            let (file, told) = match &damaged {
                Some(damaged) => (damaged, rules::check(damaged)),
                None => (&file, accepted.clone()),
            };
            let before = random.lent(room);
            let shift = random.below(16);
            let value = compare.room(
                || format!("{asked:?} on file {}", hex(file)),
                &before,
                shift,
                |room| call(file, asked, room),
                |room| expected(&told, asked, room),
            );
            seen[(value % PLACE_UNIT) as usize] += 1;
        }
        compare.holds(|| "the crest's bytes are unchanged".to_string(), file == rules::blocks_of(&records));
    }
    compare.covers(&seen, given);
    compare.done();
}

#[test]
fn probe_position() {
    probe("probe_position", 80, 16, &[0, 1, 2, 3, 4, 5, 6, 7, 8, 9, 15, 18], Random::station, position, rules::position_call);
}

#[test]
fn probe_locate() {
    probe(
        "probe_locate",
        60,
        16,
        &[0, 1, 2, 3, 4, 5, 6, 7, 8, 9, 11, 12, 13, 14, 18],
        Random::point,
        |file, (x, y), room| locate(file, x, y, room),
        |told, (x, y), room| rules::locate_call(told, x, y, room),
    );
}

#[test]
fn probe_inverse() {
    probe(
        "probe_inverse",
        60,
        8,
        &[0, 1, 2, 3, 4, 5, 6, 7, 8, 9, 11, 15, 18],
        |random, crest| {
            let offset = random.offset();
            (random.station(crest), offset)
        },
        |file, (station, offset), room| inverse(file, station, offset, room),
        |told, (station, offset), room| rules::inverse_call(told, station, offset, room),
    );
}

#[test]
fn probe_record() {
    probe(
        "probe_record",
        20,
        RECORD_SIZE,
        &[0, 1, 2, 3, 4, 5, 6, 7, 8, 9, 15, 18],
        |random, crest| {
            if random.one_in(20) {
                return random.bits() as u32;
            }
            random.below(crest.elements.len() + 1) as u32
        },
        record,
        rules::record_call,
    );
}
