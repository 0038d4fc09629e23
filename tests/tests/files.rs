//! crest_check and crest_write.

use crest_tests::compare::{hex, Compare};
use crest_tests::rules::{self, BLOCK_SIZE, LAST_NUMBER, MOST_BLOCKS, MOST_RECORDS, PLACE_UNIT, RECORDS_END, RECORD_SIZE};
use crest_tests::{check, write};

#[test]
fn crest_check() {
    let mut compare = Compare::share("crest_check", 180);
    let mut random = compare.random();
    let mut seen = [0; 10];
    while compare.more() {
        let (records, _) = random.crest();
        for _ in 0..24 {
            let file = random.file_of(&records);
            let expected = rules::code(&rules::check(&file));
            seen[(expected % PLACE_UNIT) as usize] += 1;
            compare.value(|| format!("file {}", hex(&file)), check(&file), expected);
        }
    }
    compare.covers(&seen, &[0, 1, 2, 3, 4, 5, 6, 7, 8, 9]);
    compare.done();
}

#[test]
fn crest_write() {
    let mut compare = Compare::share("crest_write", 110);
    let mut random = compare.random();
    let mut seen = [0; LAST_NUMBER + 1];
    while compare.more() {
        let (whole, _) = random.crest();
        for _ in 0..16 {
            let mut records = whole.clone();
            match random.below(8) {
                0 | 1 => random.damage_records(&mut records),
                2 => {
                    let (size, most, file) = (RECORD_SIZE, MOST_RECORDS * RECORD_SIZE, MOST_BLOCKS * BLOCK_SIZE);
                    let len = random.of(&[0, 1, size - 1, size, size + 1, RECORDS_END, most, most + 1, most + size, file]);
                    records.resize(len, 0);
                }
                3 => {
                    let len = RECORD_SIZE * (1 + random.below(MOST_RECORDS));
                    records = records.into_iter().cycle().take(len).collect();
                }
                _ => {}
            }
            let needed = BLOCK_SIZE * records.len().div_ceil(RECORDS_END);
            let room = match random.below(4) {
                0 => random.below(2_200),
                1 => needed + random.below(3) * 256,
                2 => needed.saturating_sub(1 + random.below(2)),
                _ => needed,
            };
            let before = random.bytes(room);
            let shift = random.below(16);
            let value = compare.room(
                || format!("records {}", hex(&records)),
                &before,
                shift,
                |room| write(&records, room),
                |room| rules::write_call(&records, room),
            );
            seen[(value % PLACE_UNIT) as usize] += 1;
            if value == 0 {
                // What was written is accepted.
                let mut room = before;
                write(&records, &mut room);
                compare.value(|| format!("written file of {}", hex(&records)), check(&room[..needed]), 0);
            }
        }
    }
    compare.covers(&seen, &[0, 4, 5, 6, 7, 8, 9, 17, 18]);
    compare.done();
}
