//! What the other tests are made of: the generated crests are accepted and reach the ends of what a crest may be.

use crest_tests::check;
use crest_tests::compare::Compare;
use crest_tests::rules::{self, LINE, LONGEST_ELEMENT, MOST_RECORDS, WIDEST_GAP};

#[test]
fn generated_crests() {
    let mut compare = Compare::cases("generated_crests");
    let mut random = compare.random();
    let mut counts = [0; MOST_RECORDS + 1];
    let mut kinds = [[0; 2]; 5];
    let (mut longest, mut edge_gaps) = (0, 0);
    for _ in 0..4_000 {
        let (records, crest) = random.crest();
        let file = rules::blocks_of(&records);
        compare.holds(|| "accepted by the rules".to_string(), rules::check(&file).is_ok());
        compare.value(|| "an accepted crest".to_string(), check(&file), 0);
        counts[crest.elements.len()] += 1;
        longest = longest.max(crest.total);
        for element in &crest.elements {
            kinds[usize::from(element.kind)][usize::from(element.radius < 0)] += 1;
        }
        for pair in crest.elements.windows(2) {
            let ((x, y), (later_x, later_y)) = (pair[0].position(pair[0].length), pair[1].position(0));
            edge_gaps += u32::from((x - later_x).abs() == WIDEST_GAP || (y - later_y).abs() == WIDEST_GAP);
        }
    }
    compare.holds(|| format!("1 to {MOST_RECORDS} elements: {counts:?}"), counts[1..].iter().all(|&count| count > 0));
    compare.holds(
        || format!("all kinds, both signs: {kinds:?}"),
        (1..5).all(|kind| kinds[kind][0] > 0 && (kind == LINE.into() || kinds[kind][1] > 0)),
    );
    compare.holds(|| format!("long crests: {longest} mm"), longest > 2 * LONGEST_ELEMENT);
    compare.holds(|| format!("joins at the limit: {edge_gaps}"), edge_gaps > 1_000);
    compare.done();
}
