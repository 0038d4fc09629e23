//! crest_stake_out.

use crest_tests::compare::Compare;
use crest_tests::rules::{self, LAST_NUMBER, MOVE_SIZE, PLACE_UNIT};
use crest_tests::stake_out;

#[test]
fn crest_stake_out() {
    let mut compare = Compare::share("crest_stake_out", 80);
    let mut random = compare.random();
    let mut seen = [0; LAST_NUMBER + 1];
    while compare.more() {
        let (own, target) = random.own_and_target();
        let heading = random.heading();
        let room = random.lent(MOVE_SIZE);
        let shift = random.below(16);
        let value = compare.room(
            || format!("own {own:?}, target {target:?}, heading {heading:?}"),
            &room,
            shift,
            |room| stake_out(own, target, heading, room),
            |room| rules::stake_out_call(own, target, heading, room),
        );
        seen[(value % PLACE_UNIT) as usize] += 1;
    }
    compare.covers(&seen, &[0, 7, 11, 18]);
    compare.done();
}
