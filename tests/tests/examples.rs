//! The fourteen marked examples of document 01, of the library and of the rules here; and NULL with length 0.

use std::ptr::{null, null_mut};

use crest_tests::compare::Compare;
use crest_tests::random::record_of;
use crest_tests::rules::{
    self, Element, Reading, ARC, BLOCK_SIZE, ENTRY, EXIT, LINE, MOVE_SIZE, ONE, ONE_AT, RECORD_SIZE, RUN_SIZE,
};
use crest_tests::{locate, position, raw, reading, stake_out};

fn file_of(kind: u8, length: i128, radius: i128) -> Vec<u8> {
    rules::blocks_of(&record_of(&Element { kind, length, x: 0, y: 0, c: ONE, s: 0, radius }))
}

fn numbers(bytes: &[u8]) -> Vec<i32> {
    (0..bytes.len() / 4).map(|place| rules::i32_at(bytes, 4 * place)).collect()
}

#[test]
fn marked_examples() {
    let mut compare = Compare::cases("marked_examples");
    let k = file_of(LINE, 10_000, 0);
    let accepted = rules::check(&k);
    // 1 to 9: the value, and the run's latest three.
    let plane = |x: i32, y: i32| Reading::PlanePoint(x.into(), y.into());
    let table = [
        (plane(512, 300), 0, Some([5, 300, 12])),
        (plane(550, 300), 0, Some([5, 300, 50])),
        (plane(-100, 0), 0, Some([0, 0, -100])),
        (plane(-101, 0), 13, Some([0, 0, 0])),
        (plane(1_000_100, 0), 0, Some([10_000, 0, 100])),
        (plane(1_000_101, 0), 14, Some([0, 0, 0])),
        (plane(500_000, 20_000_000), 0, None),
        (plane(500_000, 20_000_001), 12, Some([0, 0, 0])),
        (Reading::LinePlace(5.0, 300.0), 0, Some([500, 300, 0])),
    ];
    for (asked, value, three) in table {
        let mut run = [0; RUN_SIZE];
        compare.value(|| format!("{asked:?} on K"), reading(&k, asked, &mut run), value);
        let mut expected = [0; RUN_SIZE];
        compare.holds(|| format!("{asked:?} by the rules"), rules::reading_call(&accepted, asked, &mut expected) == value);
        let shown = numbers(&run[ONE_AT..]);
        compare.holds(|| format!("{asked:?} leaves {shown:?}"), three.is_none_or(|three| shown == three) && run == expected);
    }
    // 10 to 12: positions.
    for (kind, station, at) in
        [(ARC, 100_000, [9_983_342, 499_583]), (ENTRY, 200_000, [19_980_009, 666_191]), (EXIT, 0, [-19_980_009, 666_191])]
    {
        let file = file_of(kind, 200_000, 1_000_000);
        let mut out = [0; 16];
        compare.value(|| format!("position on kind {kind}"), position(&file, station, &mut out), 0);
        let placed = rules::check(&file).expect("accepted").placed(station.into()).expect("on it");
        compare.holds(
            || format!("position on kind {kind}: {:?}, {placed:?}", numbers(&out)),
            numbers(&out)[..2] == at && placed[..2] == at.map(i128::from),
        );
    }
    // 13
    let mut out = [0; MOVE_SIZE];
    compare.value(|| "stake-out".to_string(), stake_out((0, 0), (100, 200), (0, ONE as i32), &mut out), 0);
    compare.holds(|| format!("stake-out: {:?}", numbers(&out)), numbers(&out) == [200, -100]);
    compare
        .holds(|| "stake-out by the rules".to_string(), rules::stake_out((0, 0), (100, 200), (0, ONE as i32)) == Ok((200, -100)));
    // 14
    let short = file_of(LINE, 3, 0);
    let mut out = [0; 16];
    compare.value(|| "locate".to_string(), locate(&short, 0, 0, &mut out), 0);
    compare.holds(|| format!("locate: {:?}", numbers(&out)), numbers(&out) == [0, 0, 0, 5]);
    compare.holds(|| "locate by the rules".to_string(), rules::check(&short).expect("accepted").walk((0, 0)).visits == 5);
    compare.done();
}

/// NULL with length 0 for each lent slice, through the functions as C calls them.
#[test]
fn null_with_length_0() {
    let mut compare = Compare::cases("null_with_length_0");
    let k = file_of(LINE, 10_000, 0);
    let record = &k[..RECORD_SIZE];
    let mut room = [7; BLOCK_SIZE];
    let mut run = [0; RUN_SIZE];
    let mut out = [7; 16];
    unsafe {
        compare.value(|| "check".into(), raw::crest_check(null(), 0), 1);
        compare.value(|| "write".into(), raw::crest_write(null(), 0, room.as_mut_ptr(), room.len()), 17);
        compare.value(|| "write".into(), raw::crest_write(record.as_ptr(), record.len(), null_mut(), 0), 18);
        compare.value(|| "write".into(), raw::crest_write(null(), 0, null_mut(), 0), 17);
        for whole in [0.0, f64::NAN] {
            compare.value(|| "plane".into(), raw::crest_plane_reading(null(), 0, whole, 0.0, null_mut(), 0), 18);
            compare.value(|| "plane".into(), raw::crest_plane_reading(k.as_ptr(), k.len(), whole, 0.0, null_mut(), 0), 18);
            compare.value(|| "plane".into(), raw::crest_plane_reading(null(), 0, whole, 0.0, run.as_mut_ptr(), run.len()), 1);
            compare.value(|| "line".into(), raw::crest_line_reading(null(), 0, whole, 0.0, null_mut(), 0), 18);
            compare.value(|| "line".into(), raw::crest_line_reading(k.as_ptr(), k.len(), whole, 0.0, null_mut(), 0), 18);
            compare.value(|| "line".into(), raw::crest_line_reading(null(), 0, whole, 0.0, run.as_mut_ptr(), run.len()), 1);
        }
        for distance in [0, -1] {
            let one = ONE as i32;
            let sighted =
                |crest, len, run, run_len| raw::crest_sighting_reading(crest, len, 0, 0, one, 0, one, 0, distance, run, run_len);
            compare.value(|| "sighting".into(), sighted(null(), 0, null_mut(), 0), 18);
            compare.value(|| "sighting".into(), sighted(k.as_ptr(), k.len(), null_mut(), 0), 18);
            compare.value(|| "sighting".into(), sighted(null(), 0, run.as_mut_ptr(), run.len()), 1);
            let moved = raw::crest_sighting_stake_out(0, 0, one, 0, one, 0, distance, 100, 200, null_mut(), 0);
            compare.value(|| "stake-out of a sighting".into(), moved, 18);
        }
        compare.value(|| "stake-out".into(), raw::crest_stake_out(0, 0, 100, 200, 0, ONE as i32, null_mut(), 0), 18);
        compare.value(|| "acknowledge".into(), raw::crest_acknowledge(null_mut(), 0), 18);
        compare.value(|| "position".into(), raw::probe_position(null(), 0, 0, null_mut(), 0), 18);
        compare.value(|| "position".into(), raw::probe_position(null(), 0, 0, out.as_mut_ptr(), 16), 1);
        compare.value(|| "locate".into(), raw::probe_locate(null(), 0, 0, 0, null_mut(), 0), 18);
        compare.value(|| "locate".into(), raw::probe_locate(null(), 0, 0, 0, out.as_mut_ptr(), 16), 1);
        compare.value(|| "inverse".into(), raw::probe_inverse(null(), 0, 0, 0, null_mut(), 0), 18);
        compare.value(|| "inverse".into(), raw::probe_inverse(null(), 0, 0, 0, out.as_mut_ptr(), 8), 1);
        compare.value(|| "record".into(), raw::probe_record(null(), 0, 0, null_mut(), 0), 18);
        compare.value(|| "record".into(), raw::probe_record(null(), 0, 0, room.as_mut_ptr(), RECORD_SIZE), 1);
    }
    compare.holds(|| "room unchanged".into(), room == [7; BLOCK_SIZE] && out == [7; 16]);
    // Four readings and two sightings were counted, each refused with 1.
    compare.holds(|| format!("run {run:?}"), run == [0, 0, 6, 0, 1, 0, 1, 0, 1, 0, 0, 0, 0, 0, 0, 0, 0, 0, 0, 0, 0, 0, 0, 0]);
    compare.done();
}
