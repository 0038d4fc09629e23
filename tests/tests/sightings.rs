//! crest_sighting_reading beside crest_plane_reading, crest_sighting_stake_out, and what was computed by hand for both.
//! tests/readings.rs has crest_sighting_reading beside the rules, on any run and in any order with the readings.

use crest_tests::compare::{hex, Compare};
use crest_tests::random::record_of;
use crest_tests::rules::{
    self, Element, Reading, Sighting, FIRST_AT, FRAME, LAST_NUMBER, LATEST_AT, LINE, LONGEST_SIGHT, MOVE_SIZE, ONE, ONE_AT,
    PLACE_UNIT, REFUSED_AT, RUN_SIZE,
};
use crest_tests::{reading, sighting_reading, sighting_stake_out, stake_out};

/// ONE as a call takes it, and pairs in it: ahead, left, back and right.
const U: i32 = ONE as i32;
const QUARTERS: [(i32, i32); 4] = [(U, 0), (0, U), (-U, 0), (0, -U)];
/// 4/5 and 3/5.
const C: i32 = 858_993_459;
const S: i32 = 644_245_094;
/// The largest s with which (ONE, s) is a unit.
const BESIDE: i32 = 46_340;
const FAR: i32 = LONGEST_SIGHT as i32;
const EDGE: i32 = FRAME as i32;

/// One line of 10 m along x.
fn k() -> Vec<u8> {
    rules::blocks_of(&record_of(&Element { kind: LINE, length: 10_000, x: 0, y: 0, c: ONE, s: 0, radius: 0 }))
}

fn numbers(bytes: &[u8]) -> Vec<i32> {
    (0..bytes.len() / 4).map(|place| rules::i32_at(bytes, 4 * place)).collect()
}

fn whole((x, y): (i128, i128)) -> (i32, i32) {
    (i32::try_from(x).expect("x fits 32 bits"), i32::try_from(y).expect("y fits 32 bits"))
}

/// Whether n / ONE lies in the middle between two whole numbers.
fn is_half(n: i128) -> bool {
    n.rem_euclid(ONE) == ONE / 2
}

/// The move of any sighting to any target, in any room. Not only every number has to occur, but each of its causes, and answers at
/// the edges: the longest distance, a turned pair that is no unit, and halves.
#[test]
fn crest_sighting_stake_out() {
    let mut compare = Compare::share("crest_sighting_stake_out", 80);
    let mut random = compare.random();
    let mut seen = [0; LAST_NUMBER + 1];
    const CASES: usize = 12;
    let mut cases = [0; CASES];
    while compare.more() {
        let (asked, target) = random.sighting_and_target();
        let room = random.lent(MOVE_SIZE);
        let shift = random.below(16);
        let value = compare.room(
            || format!("{asked:?}, target {target:?}"),
            &room,
            shift,
            |room| sighting_stake_out(asked, target, room),
            |room| rules::sighting_stake_out_call(asked, target, room),
        );
        seen[(value % PLACE_UNIT) as usize] += 1;
        let unit = |(c, s): (i32, i32)| rules::is_unit(c.into(), s.into());
        let inside = |(x, y): (i32, i32)| rules::in_frame(x.into(), y.into());
        let [b, g, a, h, distance] =
            [asked.backsight.0, asked.backsight.1, asked.angle.0, asked.angle.1, asked.distance].map(i128::from);
        let (e, f) = asked.turned();
        let occurs: [bool; CASES] = [
            value == 7 && !unit(asked.backsight) && unit(asked.angle),
            value == 7 && unit(asked.backsight) && !unit(asked.angle),
            value == 11 && !inside(asked.place),
            value == 11 && inside(asked.place) && asked.point().is_err(),
            value == 11 && asked.point().is_ok() && !inside(target),
            value == 15 && distance < 0,
            value == 15 && distance == LONGEST_SIGHT + 1,
            value == 0 && distance == LONGEST_SIGHT,
            value == 0 && !rules::is_unit(e, f),
            value == 0 && is_half(b * a - g * h),
            value == 0 && is_half(g * a + b * h),
            value == 0 && (is_half(distance * e) || is_half(distance * f)),
        ];
        for (count, occurs) in cases.iter_mut().zip(occurs) {
            *count += u32::from(occurs);
        }
    }
    compare.covers(&seen, &[0, 7, 11, 15, 18]);
    compare.covers(&cases, &[0, 1, 2, 3, 4, 5, 6, 7, 8, 9, 10, 11]);
    compare.done();
}

/// "A sighting's whole answer on a crest is that of its point; a run counts it like a plane point": where the pairs, the place and
/// the distance are taken, crest_plane_reading returns and leaves the same for the point, on the same run and any crest.
#[test]
fn as_its_point() {
    let mut compare = Compare::share("as_its_point", 50);
    let mut random = compare.random();
    let mut seen = [0; LAST_NUMBER + 1];
    while compare.more() {
        let (records, crest) = random.crest();
        let file = rules::blocks_of(&records);
        for _ in 0..40 {
            let asked = random.sighting(&crest);
            let damaged = if random.one_in(8) { Some(random.file_of(&records)) } else { None };
            let file = damaged.as_ref().unwrap_or(&file);
            let run = if random.one_in(10) { random.lent(RUN_SIZE) } else { random.run() };
            let shift = random.below(16);
            if asked.own_refusal().is_err() {
                continue;
            }
            let (x, y) = whole(asked.end());
            let value = compare.room(
                || format!("{asked:?} and its point {:?} on file {}", (x, y), hex(file)),
                &run,
                shift,
                |run| sighting_reading(file, asked, run),
                |run| reading(file, Reading::PlanePoint(x.into(), y.into()), run),
            );
            seen[(value % PLACE_UNIT) as usize] += 1;
        }
    }
    compare.covers(&seen, &[0, 1, 2, 3, 4, 5, 6, 7, 8, 9, 11, 12, 13, 14, 16, 18]);
    compare.done();
}

/// The move is that of crest_stake_out from the point under the turned direction negated, where that happens to be a unit.
#[test]
fn as_its_stake() {
    let mut compare = Compare::share("as_its_stake", 20);
    let mut random = compare.random();
    let mut seen = [0; LAST_NUMBER + 1];
    while compare.more() {
        let (asked, target) = random.sighting_and_target();
        let room = random.lent(MOVE_SIZE);
        let (e, f) = asked.turned();
        if asked.own_refusal().is_err() || !rules::is_unit(e, f) {
            continue;
        }
        let (own, heading) = (whole(asked.end()), whole((-e, -f)));
        let value = compare.room(
            || format!("{asked:?}, target {target:?}: own {own:?}, heading {heading:?}"),
            &room,
            0,
            |room| sighting_stake_out(asked, target, room),
            |room| stake_out(own, target, heading, room),
        );
        seen[(value % PLACE_UNIT) as usize] += 1;
    }
    compare.covers(&seen, &[0, 11, 18]);
    compare.done();
}

/// An instrument that turns by (ONE, 0) looks at its backsight, and a quarter turn to the left is (0, ONE): without a rounding the
/// point lies straight ahead, and the move is the way to the target along the axes of one who looks back.
#[test]
fn quarter_turns() {
    let mut compare = Compare::cases("quarter_turns");
    let crest = k();
    for (backsight, angle) in (0..4).flat_map(|first| (0..4).map(move |second| (first, second))) {
        let way = QUARTERS[(backsight + angle) % 4];
        let (ahead_x, ahead_y) = (way.0 / U, way.1 / U);
        for distance in [0, 1, 77, 20_000, 1_234_567, FAR] {
            for (x, y) in [(0, 0), (49, -3), (50, 300), (51, 7), (512, 300), (999_999, -20_000), (1_000_000, 20_000_000)] {
                let place = (x - distance * ahead_x, y - distance * ahead_y);
                let asked = Sighting { place, backsight: QUARTERS[backsight], angle: QUARTERS[angle], distance };
                // On a line along x: the nearest mm, the lower one of two as near.
                let station = (x + 49) / 100;
                let mut run = [0; RUN_SIZE];
                compare.value(|| format!("{asked:?} on K"), sighting_reading(&crest, asked, &mut run), 0);
                let shown = numbers(&run[ONE_AT..]);
                compare.holds(|| format!("{asked:?} on K: {shown:?}"), shown == [station, y, x - 100 * station]);

                let (dx, dy) = (1_000, -300);
                let mut room = [0; MOVE_SIZE];
                compare.value(|| format!("move of {asked:?}"), sighting_stake_out(asked, (x + dx, y + dy), &mut room), 0);
                let back = [-(ahead_x * dx + ahead_y * dy), ahead_y * dx - ahead_x * dy];
                compare.holds(|| format!("move of {asked:?}: {:?}", numbers(&room)), numbers(&room) == back);
            }
        }
    }
    compare.done();
}

/// Sightings on K that were computed by hand: the turned pair, the point, what the run shows, and the move to a target.
#[test]
fn by_hand() {
    let mut compare = Compare::cases("by_hand");
    let crest = k();
    let accepted = rules::check(&crest);
    let sighted = |place, backsight, angle, distance| Sighting { place, backsight, angle, distance };
    // 2^19 beside an axis, which over 1,024 grains is exactly half a grain; and 2^22 beside the other.
    let (c, s) = (U - 128, 1 << 19);
    let (a, h) = (1 << 22, U - 8_192);
    let turned_half = 3_670_020;
    let rest = 1_073_735_552;
    let table = [
        // From (4/5, 3/5) by a quarter to the left, a quarter to the right, half a turn, and not at all.
        (sighted((1_112, -500), (C, S), (0, U), 1_000), (-S, C), (512, 300), [5, 300, 12], (612, 500), [-100, 200]),
        (sighted((-88, 1_100), (C, S), (0, -U), 1_000), (S, -C), (512, 300), [5, 300, 12], (612, 500), [100, -200]),
        (sighted((1_312, 900), (C, S), (-U, 0), 1_000), (-C, -S), (512, 300), [5, 300, 12], (612, 500), [200, 100]),
        (sighted((-288, -300), (C, S), (U, 0), 1_000), (C, S), (512, 300), [5, 300, 12], (612, 500), [-200, -100]),
        // A coordinate that lies half a grain on, and half a grain back, and so do the moves: a half goes up, -1/2 to 0.
        (sighted((0, 0), (U, 0), (c, s), 1_024), (c, s), (1_024, 1), [10, 1, 24], (2_048, 1), [-1_024, 1]),
        (sighted((0, 0), (U, 0), (c, -s), 1_024), (c, -s), (1_024, 0), [10, 0, 24], (2_048, 0), [-1_024, 0]),
        (sighted((0, 0), (0, U), (c, -s), 1_024), (s, c), (1, 1_024), [0, 1_024, 1], (1, 2_048), [-1_024, 0]),
        (sighted((0, 0), (0, U), (c, s), 1_024), (-s, c), (0, 1_024), [0, 1_024, 0], (0, 2_048), [-1_024, 1]),
        // A turned component of 3,670,019 1/2, of -3,670,019 1/2 and again, but of the other one: over 132,681 grains the halves
        // that go up make a grain.
        (
            sighted((0, 0), (c, s), (a, h), 132_681),
            (turned_half, rest),
            (454, 132_680),
            [5, 132_680, -46],
            (1_454, 132_680),
            [-3, 1_000],
        ),
        (
            sighted((1_000, 0), (-c, -s), (a, h), 132_681),
            (1 - turned_half, -rest),
            (547, -132_680),
            [5, -132_680, 47],
            (1_547, -132_680),
            [3, -1_000],
        ),
        (
            sighted((0, 0), (c, s), (h, -a), 132_681),
            (rest, 1 - turned_half),
            (132_680, -453),
            [1_327, -453, -20],
            (133_680, -453),
            [-1_000, -3],
        ),
        // Two pairs at the edge of what a unit is turn to one that is none, and that is not tested.
        (
            sighted((1_000 - FAR, 0), (U, BESIDE), (U, BESIDE), FAR),
            (U - 2, 2 * BESIDE),
            (1_000, 4_316),
            [10, 4_316, 0],
            (1_100, 4_516),
            [-100, -200],
        ),
    ];
    for (asked, turned, point, shown, target, moved) in table {
        compare.holds(|| format!("{asked:?} turned: {:?}", asked.turned()), whole(asked.turned()) == turned);
        compare.holds(|| format!("point of {asked:?}: {:?}", asked.point()), asked.point().map(whole) == Ok(point));
        let (mut run, mut expected) = ([0; RUN_SIZE], [0; RUN_SIZE]);
        compare.value(|| format!("{asked:?}"), sighting_reading(&crest, asked, &mut run), 0);
        compare.holds(|| format!("{asked:?}: {:?}", numbers(&run[ONE_AT..])), numbers(&run[ONE_AT..]) == shown);
        let value = rules::sighting_reading_call(&accepted, asked, &mut expected);
        compare.holds(|| format!("{asked:?} by the rules"), value == 0 && run == expected);
        let mut room = [0; MOVE_SIZE];
        compare.value(|| format!("{asked:?} to {target:?}"), sighting_stake_out(asked, target, &mut room), 0);
        compare.holds(|| format!("{asked:?} to {target:?}: {:?}", numbers(&room)), numbers(&room) == moved);
        let move_by_rules = rules::sighting_stake_out(asked, target).map(whole);
        compare.holds(|| format!("{asked:?} to {target:?} by the rules"), move_by_rules == Ok((moved[0], moved[1])));
    }
    let (e, f) = sighted((0, 0), (U, BESIDE), (U, BESIDE), 0).turned();
    compare.holds(|| "the last one turns to no unit".into(), !rules::is_unit(e, f));
    compare.done();
}

/// "after the crest's own, 7 for either pair, 11 for K, 15 for the distance, 11 for the point, in that order; then 12 to 14 as
/// before, or 11 for the move's target", and 18 and 16 before all: every choice of right and wrong parts gives the first number
/// that applies, and what is refused and not counted changes no byte.
#[test]
fn order_of_refusals() {
    let mut compare = Compare::cases("order_of_refusals");
    let good = k();
    let mut damaged = good.clone();
    damaged[100] ^= 1;
    let full = [0xff; RUN_SIZE].to_vec();
    let runs = [(vec![0; RUN_SIZE], 0), (full, 16), (vec![0; RUN_SIZE - 1], 18), (vec![0; RUN_SIZE + 1], 18)];
    let crests = [(&good, 0), (&damaged, 2)];
    let pairs = [((U, 0), 0), ((U, BESIDE), 0), ((U, BESIDE + 1), 7), ((U + 1, 0), 7), ((0, 0), 7), ((i32::MIN, i32::MIN), 7)];
    let distances = [(400, 0), (-1, 15), (FAR + 1, 15), (i32::MIN, 15)];
    // Along x by 400 grains. The place's own refusal, that of the point, and that of the point on K.
    let places = [
        ((112, 300), 0, 0, 0),
        ((-501, 0), 0, 0, 13),
        ((999_701, 0), 0, 0, 14),
        ((499_600, 20_000_300), 0, 0, 12),
        ((EDGE - 400, 0), 0, 0, 12),
        ((EDGE - 399, 0), 0, 11, 11),
        ((EDGE, -EDGE), 0, 11, 11),
        ((EDGE + 1, 0), 11, 11, 11),
        ((0, -EDGE - 1), 11, 11, 11),
        ((i32::MIN, i32::MIN), 11, 11, 11),
    ];
    let targets = [((-EDGE, EDGE), 0), ((-EDGE - 1, 0), 11), ((0, i32::MAX), 11)];
    let rooms = [(MOVE_SIZE, 0), (MOVE_SIZE - 1, 18), (MOVE_SIZE + 1, 18), (0, 18)];
    let first = |numbers: &[u32]| numbers.iter().copied().find(|&number| number != 0).unwrap_or(0);
    for ((backsight, of_backsight), (angle, of_angle)) in pairs.into_iter().flat_map(|one| pairs.map(|other| (one, other))) {
        for ((distance, of_distance), (place, of_place, of_point, on_k)) in
            distances.into_iter().flat_map(|one| places.map(|other| (one, other)))
        {
            let asked = Sighting { place, backsight, angle, distance };
            let own = [of_backsight, of_angle, of_place, of_distance];
            for (before, of_run) in &runs {
                for (crest, of_crest) in crests {
                    let wanted = first(&[*of_run, of_crest, first(&own), on_k]);
                    let mut run = before.clone();
                    let value = sighting_reading(crest, asked, &mut run);
                    compare.value(|| format!("{asked:?} on run {}", hex(before)), value, wanted);
                    let kept = if *of_run != 0 {
                        run == *before
                    } else {
                        // The first reading of a fresh run.
                        let count = |at| u32::from(rules::u16_at(&run, at));
                        [count(REFUSED_AT), count(LATEST_AT), count(FIRST_AT)] == [u32::from(wanted != 0), wanted, wanted]
                            && (wanted == 0 || run[ONE_AT..].iter().all(|&byte| byte == 0))
                    };
                    compare.holds(|| format!("run {} after {asked:?} on {}", hex(&run), hex(before)), kept);
                }
            }
            for ((target, of_target), (len, of_room)) in targets.into_iter().flat_map(|one| rooms.map(|other| (one, other))) {
                let wanted = first(&[of_room, first(&own), of_point, of_target]);
                let mut room = vec![0x5a; len];
                let value = sighting_stake_out(asked, target, &mut room);
                compare.value(|| format!("move of {asked:?} to {target:?} in {len} bytes"), value, wanted);
                let kept = room.iter().all(|&byte| byte == 0x5a);
                compare.holds(|| format!("room {} after {asked:?} to {target:?}", hex(&room)), kept == (wanted != 0));
            }
        }
    }
    compare.done();
}
