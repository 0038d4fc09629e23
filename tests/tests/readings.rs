//! crest_plane_reading, crest_line_reading, crest_sighting_reading and crest_acknowledge: each by itself, in any order on one run,
//! and to a full run.

use crest_tests::compare::{hex, Compare};
use crest_tests::random::{record_of, Random};
use crest_tests::rules::{
    self, Crest, Element, Observation, Reading, Sighting, ANSWERED_AT, FIRST_AT, FIRST_READING_AT, LAST_NUMBER, LATEST_AT, LINE,
    MOST_COUNTED, ONE, ONE_AT, PLACE_UNIT, REFUSED_AT, RUN_SIZE, SPARE_AT,
};
use crest_tests::{acknowledge, observe};

fn plane_point(random: &mut Random, crest: &Crest) -> Observation {
    Observation::Read(random.plane_point(crest))
}

fn line_place(random: &mut Random, crest: &Crest) -> Observation {
    Observation::Read(random.line_place(crest))
}

fn sighting(random: &mut Random, crest: &Crest) -> Observation {
    Observation::Sighted(random.sighting(crest))
}

/// The point that is looked for on a crest, where nothing refuses it before.
fn point_of(asked: Observation) -> Option<(i128, i128)> {
    match asked {
        Observation::Read(Reading::PlanePoint(x, y)) => {
            Some((rules::whole(x.to_bits())?, rules::whole(y.to_bits())?)).filter(|&(x, y)| rules::in_frame(x, y))
        }
        Observation::Read(Reading::LinePlace(..)) => None,
        Observation::Sighted(sighting) => sighting.point().ok(),
    }
}

/// Readings or sightings on runs of any state and bytes of any number.
fn readings(name: &'static str, thousandths: u64, make: fn(&mut Random, &Crest) -> Observation, given: &[usize]) {
    let mut compare = Compare::share(name, thousandths);
    let mut random = compare.random();
    let mut seen = [0; LAST_NUMBER + 1];
    let mut searched = 0;
    while compare.more() {
        let (records, crest) = random.crest();
        let file = rules::blocks_of(&records);
        let accepted = Ok(crest.clone());
        for _ in 0..40 {
            let asked = make(&mut random, &crest);
            let damaged = if random.one_in(8) { Some(random.file_of(&records)) } else { None };
            let (file, told) = match &damaged {
                Some(damaged) => (damaged, rules::check(damaged)),
                None => (&file, accepted.clone()),
            };
            let run = if random.one_in(10) { random.lent(RUN_SIZE) } else { random.run() };
            let shift = random.below(16);
            let value = compare.room(
                || format!("{asked:?} on file {}", hex(file)),
                &run,
                shift,
                |run| observe(file, asked, run),
                |run| rules::observation_call(&told, asked, run),
            );
            seen[(value % PLACE_UNIT) as usize] += 1;
            // The station that the walk finds is the least of least D among all.
            if let (Some(point), Ok(crest)) = (point_of(asked), &told) {
                if crest.total <= 300 && random.one_in(4) {
                    let walked = crest.walk(point);
                    let judged = crest.judged(point);
                    searched += 1;
                    compare.holds(
                        || format!("{asked:?} on file {}: judged {judged:?}, {walked:?}", hex(file)),
                        judged == (walked.station, walked.least),
                    );
                }
            }
        }
        compare.holds(|| "the crest's bytes are unchanged".to_string(), file == rules::blocks_of(&records));
    }
    if searched > 0 {
        println!("{name}: every station looked at for {searched} points");
    }
    compare.covers(&seen, given);
    compare.done();
}

#[test]
fn crest_plane_reading() {
    readings("crest_plane_reading", 180, plane_point, &[0, 1, 2, 3, 4, 5, 6, 7, 8, 9, 10, 11, 12, 13, 14, 16, 18]);
}

#[test]
fn crest_line_reading() {
    readings("crest_line_reading", 130, line_place, &[0, 1, 2, 3, 4, 5, 6, 7, 8, 9, 10, 11, 15, 16, 18]);
}

#[test]
fn crest_sighting_reading() {
    readings("crest_sighting_reading", 130, sighting, &[0, 1, 2, 3, 4, 5, 6, 7, 8, 9, 11, 12, 13, 14, 15, 16, 18]);
}

#[test]
fn crest_acknowledge() {
    let mut compare = Compare::share("crest_acknowledge", 50);
    let mut random = compare.random();
    while compare.more() {
        let run = if random.one_in(2) { random.lent(RUN_SIZE) } else { random.run() };
        let shift = random.below(16);
        compare.room(|| "run".to_string(), &run, shift, acknowledge, rules::acknowledge_call);
    }
    compare.done();
}

/// Calls in any order on one run that began fresh, and after each what the run says of its history.
#[test]
fn any_order() {
    let mut compare = Compare::share("any_order", 90);
    let mut random = compare.random();
    while compare.more() {
        let mut run = vec![0; RUN_SIZE];
        let (mut answered, mut refused, mut latest, mut first) = (0u16, 0u16, 0u16, None);
        let (records, crest) = random.crest();
        let file = rules::blocks_of(&records);
        let accepted = Ok(crest.clone());
        let damaged = random.file_of(&records);
        let told_damaged = rules::check(&damaged);
        for _ in 0..20 + random.below(180) {
            let shift = random.below(16);
            let (file, told) = if random.one_in(5) { (&damaged, &told_damaged) } else { (&file, &accepted) };
            let before = run.clone();
            if random.one_in(8) {
                compare.room(
                    || "acknowledge".to_string(),
                    &before,
                    shift,
                    |room| {
                        let value = acknowledge(room);
                        run.copy_from_slice(room);
                        value
                    },
                    rules::acknowledge_call,
                );
                first = None;
            } else {
                let make = random.of(&[plane_point, line_place, sighting]);
                let asked = make(&mut random, &crest);
                let value = compare.room(
                    || format!("{asked:?} on file {}", hex(file)),
                    &before,
                    shift,
                    |room| {
                        let value = observe(file, asked, room);
                        run.copy_from_slice(room);
                        value
                    },
                    |room| rules::observation_call(told, asked, room),
                );
                latest = (value % PLACE_UNIT) as u16;
                if latest == 0 {
                    answered += 1;
                } else {
                    refused += 1;
                    first = first.or(Some((latest, answered + refused)));
                }
            }
            let (number, at) = first.unwrap_or((0, 0));
            let fields = [ANSWERED_AT, REFUSED_AT, LATEST_AT, FIRST_AT, FIRST_READING_AT, SPARE_AT];
            let shown = fields.map(|at| rules::u16_at(&run, at));
            let stale = latest != 0 && run[ONE_AT..].iter().any(|&byte| byte != 0);
            compare.holds(
                || format!("run {} after its calls", hex(&run)),
                shown == [answered, refused, latest, number, at, 0] && !stale,
            );
        }
    }
    compare.done();
}

/// A fresh run takes 65,535 readings and sightings, and no more.
#[test]
fn full_run() {
    let mut compare = Compare::cases("full_run");
    let file = rules::blocks_of(&record_of(&Element { kind: LINE, length: 10, x: 0, y: 0, c: ONE, s: 0, radius: 0 }));
    let told = rules::check(&file);
    let mut run = vec![0; RUN_SIZE];
    let mut random = compare.random();
    for number in 1..=MOST_COUNTED + 65 {
        let station = random.below(14);
        let asked = if random.one_in(2) {
            Observation::Read(Reading::LinePlace(station as f64, 300.0))
        } else {
            let (ahead, distance) = ((ONE as i32, 0), 100 * station as i32);
            Observation::Sighted(Sighting { place: (0, 300), backsight: ahead, angle: ahead, distance })
        };
        let before = run.clone();
        let value = compare.room(
            || format!("{asked:?}"),
            &before,
            0,
            |room| {
                let value = observe(&file, asked, room);
                run.copy_from_slice(room);
                value
            },
            |room| rules::observation_call(&told, asked, room),
        );
        compare.holds(|| format!("reading {number} is taken: {value}"), (value == 16) == (number > MOST_COUNTED));
    }
    compare.done();
}
