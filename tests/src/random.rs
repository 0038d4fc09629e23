//! What the functions are called with: accepted crests of 1 to 60 elements, damaged files, and numbers of all sorts,
//! from a small deterministic generator or from bytes that are given.

use crate::rules::{
    self, put_i32, put_sums, put_u16, put_u32, Crest, Element, Reading, Sighting, ANSWERED_AT, ARC, BLOCK_SIZE, C_AT, EDITION,
    EDITION_AT, ENTRY, EXIT, FARTHEST, FIELDS_AT, FIRST_AT, FRAME, KIND_AT, LINE, LONGEST_ELEMENT, LONGEST_SIGHT, MOST_BLOCKS,
    MOST_COUNTED, MOST_RECORDS, ONE, PAST_END, PER_BLOCK, RADIUS_AT, RECORDS_END, RECORD_LENGTH_AT, RECORD_SIZE, REFUSED_AT,
    RUN_SIZE, SUMS_AT, SUM_B_AT, S_AT, UNIT_SLACK, UNIT_SQUARE, USED_AT, WIDEST, WIDEST_GAP, WIDEST_KINK, WIDEST_OFFSET, X_AT,
    Y_AT, ZEROS_AT,
};

/// The farthest distance answered, in grains.
const FAR: i128 = FARTHEST.isqrt();
/// The largest s with which (ONE, s), and (ONE - 1, s), are units.
const BESIDE_ONE: i128 = UNIT_SLACK.isqrt();
const BESIDE_LESS: i128 = (UNIT_SQUARE + UNIT_SLACK - (ONE - 1) * (ONE - 1)).isqrt();
/// Elements of a full block, and of a full file.
const FULL: i128 = PER_BLOCK as i128;
const MOST: i128 = MOST_RECORDS as i128;

/// Choices: the given bytes in their order, and splitmix64 where there are none or no more.
pub struct Random {
    state: u64,
    given: Vec<u8>,
    at: usize,
}

impl Random {
    pub fn new(seed: u64) -> Random {
        Random { state: seed, given: Vec::new(), at: 0 }
    }

    /// Each choice is the next 1, 2, 4 or 8 bytes, little-endian, as few as its limit needs; after the last of them, those
    /// of seed 0.
    pub fn given(bytes: &[u8]) -> Random {
        Random { state: 0, given: bytes.to_vec(), at: 0 }
    }

    /// How many given bytes are left.
    pub fn left(&self) -> usize {
        self.given.len() - self.at
    }

    /// The next given bytes as they are: so many, or what is left.
    pub fn take(&mut self, len: usize) -> Vec<u8> {
        let start = self.at;
        self.at = self.given.len().min(start + len);
        self.given[start..self.at].to_vec()
    }

    fn choice(&mut self, len: usize) -> u64 {
        if self.left() > 0 {
            let end = self.given.len().min(self.at + len);
            let number = self.given[self.at..end].iter().rev().fold(0, |sum, &byte| (sum << 8) | u64::from(byte));
            self.at = end;
            return number;
        }
        self.state = self.state.wrapping_add(0x9e37_79b9_7f4a_7c15);
        let mut z = self.state;
        z = (z ^ z >> 30).wrapping_mul(0xbf58_476d_1ce4_e5b9);
        z = (z ^ z >> 27).wrapping_mul(0x94d0_49bb_1331_11eb);
        z ^ z >> 31
    }

    pub fn bits(&mut self) -> u64 {
        self.choice(8)
    }

    fn under(&mut self, limit: i128) -> i128 {
        let len = [1, 2, 4].into_iter().find(|len| limit <= 1 << (8 * len)).unwrap_or(8);
        i128::from(self.choice(len)) % limit
    }

    /// From 0 up to, not with, the limit.
    pub fn below(&mut self, limit: usize) -> usize {
        self.under(limit as i128) as usize
    }

    pub fn between(&mut self, low: i128, high: i128) -> i128 {
        low + self.under(high - low + 1)
    }

    pub fn one_in(&mut self, n: usize) -> bool {
        self.below(n) == 0
    }

    pub fn of<T: Copy>(&mut self, values: &[T]) -> T {
        values[self.below(values.len())]
    }

    pub fn sign(&mut self) -> i128 {
        self.of(&[-1, 1])
    }

    pub fn bytes(&mut self, len: usize) -> Vec<u8> {
        (0..len).map(|_| self.choice(1) as u8).collect()
    }

    /// A number around one of these, or anywhere in the range.
    pub fn around(&mut self, marks: &[i128], low: i128, high: i128) -> i128 {
        if self.one_in(3) {
            self.of(marks) + self.between(-2, 2)
        } else {
            self.between(low, high)
        }
    }

    fn angle(&mut self) -> f64 {
        (self.bits() >> 11) as f64 / (1u64 << 53) as f64 * std::f64::consts::TAU
    }

    /// An odd multiple of a power of two: times a direction of powers of two it is often an exact half of ONE.
    pub fn odd_multiple(&mut self, limit: i128) -> i128 {
        let power = 1 << self.below(21);
        let odd = 2 * self.between(0, limit / power / 2 - 1) + 1;
        self.sign() * power * odd
    }

    /// A direction that is a unit: along an axis, at the edge of what is taken, of powers of two, or anywhere.
    pub fn unit(&mut self) -> (i128, i128) {
        match self.below(8) {
            0 => {
                let (a, b) = (self.sign() * ONE, 0);
                if self.one_in(2) {
                    (a, b)
                } else {
                    (b, a)
                }
            }
            1 => {
                let (a, b) = self.of(&[(ONE, BESIDE_ONE), (ONE - 1, 0), (ONE - 1, BESIDE_LESS), (ONE, -BESIDE_ONE)]);
                if self.one_in(2) {
                    (a, b)
                } else {
                    (b, -a)
                }
            }
            2 | 3 => {
                let k = 15 + self.below(9);
                self.beside_axis(k)
            }
            _ => {
                let angle = self.angle();
                unit_along(angle.cos(), angle.sin())
            }
        }
    }

    /// A direction 2^k beside an axis.
    fn beside_axis(&mut self, k: usize) -> (i128, i128) {
        let (a, b) = (self.sign() * (ONE - (1 << (2 * k)) / (2 * ONE)), self.sign() * (1 << k));
        if self.one_in(2) {
            (a, b)
        } else {
            (b, a)
        }
    }

    // ---- Crests

    /// The length of an element.
    fn length(&mut self, longest: i128) -> i128 {
        if self.one_in(8) {
            self.of(&[1, 2, 3, longest])
        } else {
            self.between(1, longest)
        }
    }

    fn radius(&mut self, least: i128) -> i128 {
        let size = match self.below(4) {
            0 => least,
            1 => WIDEST,
            2 => self.between(least, (4 * least).min(WIDEST)),
            _ => self.between(least, WIDEST),
        };
        size * self.sign()
    }

    /// An element of any kind that begins at a place in a direction.
    fn element_from(&mut self, (x, y): (i128, i128), (tx, ty): (i128, i128), longest: i128) -> Element {
        let kind = self.of(&[LINE, ARC, ENTRY, EXIT]);
        let mut length = self.length(longest);
        let mut radius = match kind {
            LINE => 0,
            ARC => self.radius(2 * length),
            _ => self.radius(length),
        };
        if (kind == ENTRY || kind == EXIT) && self.one_in(10) {
            // RL is ONE: t is an exact half at every odd l.
            let power = 7 + self.below(3);
            length = 1 << power;
            radius = self.sign() * (ONE >> power);
        }
        let (c, s) = unit_along(tx as f64, ty as f64);
        let mut element = Element { kind, length, x, y, c, s, radius };
        if kind == EXIT {
            // The anchor is the far end: turn and shift so that the start is where the element before it ends.
            let (own_c, own_s) = Element { x: 0, y: 0, c: ONE, s: 0, ..element }.direction(0);
            let (a, b, p, q) = (tx as f64, ty as f64, own_c as f64, own_s as f64);
            (element.c, element.s) = unit_along(a * p + b * q, b * p - a * q);
            let (at_x, at_y) = element.position(0);
            element.x += x - at_x;
            element.y += y - at_y;
        }
        element
    }

    /// The records of an accepted crest, and the crest.
    pub fn crest(&mut self) -> (Vec<u8>, Crest) {
        let count = match self.below(12) {
            0..=5 => self.between(1, 3),
            6..=9 => self.between(4, FULL - 1),
            10 => self.of(&[FULL, FULL + 1, 2 * FULL, 2 * FULL + 1, 3 * FULL, 3 * FULL + 1, MOST - 1, MOST]),
            _ => self.between(FULL, MOST),
        };
        // Short, so that most calls are quick, and now and then as long as an element may be.
        let longest = match self.below(200) {
            0..=119 => 1 + 300 / count,
            120..=179 => 1 + 3_000 / count,
            180..=197 => 20_000,
            _ => LONGEST_ELEMENT,
        };
        let edge = if self.one_in(4) { FRAME } else { FRAME / 2 };
        let mut place = (self.around(&[-edge, 0, edge], -edge, edge), self.around(&[-edge, 0, edge], -edge, edge));
        place = (place.0.clamp(-FRAME, FRAME), place.1.clamp(-FRAME, FRAME));
        let mut direction = self.unit();
        let mut records = Vec::new();
        for _ in 0..count {
            let mut element = self.element_from(place, direction, longest);
            if self.one_in(3) && !records.is_empty() {
                // As far apart as a join may be.
                element.x += self.of(&[-WIDEST_GAP, 0, WIDEST_GAP]);
                element.y += self.of(&[-WIDEST_GAP, 0, WIDEST_GAP]);
            }
            records.extend_from_slice(&record_of(&element));
            let joined = records.len().saturating_sub(2 * RECORD_SIZE);
            if rules::check_records(&records[joined..]).is_ok() {
                place = element.position(element.length);
                direction = element.direction(element.length);
            } else {
                records.truncate(records.len() - RECORD_SIZE);
            }
        }
        match rules::check_records(&records) {
            Ok(crest) if !records.is_empty() => (records, crest),
            _ => self.crest(),
        }
    }

    /// Records with a few of their numbers changed, at the edges of their ranges more often than not.
    pub fn damage_records(&mut self, records: &mut [u8]) {
        if records.len() < RECORD_SIZE {
            return;
        }
        for _ in 0..1 + self.below(2) {
            let record = RECORD_SIZE * self.below(records.len() / RECORD_SIZE);
            let part = &mut records[record..record + RECORD_SIZE];
            let length = i128::from(rules::u32_at(part, RECORD_LENGTH_AT));
            match self.below(9) {
                0 => part[KIND_AT] = if self.one_in(2) { self.below(18) as u8 } else { self.bits() as u8 },
                1 => {
                    let reserved: Vec<usize> = rules::reserved().collect();
                    let value = self.of(&[1, 128, 255]);
                    part[self.of(&reserved)] = value;
                }
                2 => {
                    let longest = LONGEST_ELEMENT as u32;
                    let value = self.of(&[0, 1, longest - 1, longest, longest + 1, 1 << 31, u32::MAX]);
                    put_u32(part, RECORD_LENGTH_AT, value);
                }
                3 => {
                    let at = self.of(&[X_AT, Y_AT]);
                    let value = self.of(&[FRAME, FRAME + 1, i128::from(i32::MAX), i128::from(i32::MIN)]);
                    put_i32(part, at, if self.one_in(2) && value > 0 { -value } else { value });
                }
                4 => {
                    let value = self.of(&[0, length - 1, length, 2 * length - 1, 2 * length, WIDEST, WIDEST + 1, 1 << 31]);
                    put_i32(part, RADIUS_AT, (value * self.sign()).clamp(i32::MIN.into(), i32::MAX.into()));
                }
                5 => {
                    let (c, s) = self.of(&[
                        (ONE, BESIDE_ONE),
                        (ONE, BESIDE_ONE + 1),
                        (ONE + 1, 0),
                        (ONE - 1, 0),
                        (ONE - 2, 0),
                        (ONE - 1, BESIDE_LESS + 1),
                        (i128::from(i32::MIN), i128::from(i32::MIN)),
                        (i128::from(i32::MIN), 0),
                        (0, 0),
                    ]);
                    put_i32(part, C_AT, c);
                    put_i32(part, S_AT, s);
                }
                6 => {
                    // Join gaps around the limit: every element's anchor moves with it.
                    let at = self.of(&[X_AT, Y_AT]);
                    let (gap, twice) = (WIDEST_GAP, 2 * WIDEST_GAP);
                    let by = self.sign() * self.of(&[1, gap - 1, gap, gap + 1, twice, twice + 1]);
                    let value = i128::from(rules::i32_at(part, at)) + by;
                    put_i32(part, at, value.clamp(i32::MIN.into(), i32::MAX.into()));
                }
                7 => {
                    // Kinks around the limit, the direction still a unit.
                    let (at, other) = self.of(&[(C_AT, S_AT), (S_AT, C_AT)]);
                    let by = self.sign() * self.of(&[WIDEST_KINK - 1, WIDEST_KINK, WIDEST_KINK + 1, 3 * WIDEST_KINK]);
                    let turned = i128::from(rules::i32_at(part, at)) + by;
                    let rest = ONE * ONE - turned * turned;
                    if rest > 0 {
                        let rest = (rest as f64).sqrt().round() as i128;
                        let sign = if rules::i32_at(part, other) < 0 { -1 } else { 1 };
                        put_i32(part, at, turned);
                        put_i32(part, other, sign * rest);
                    }
                }
                _ => part[self.below(RECORD_SIZE)] ^= 1 << self.below(8),
            }
        }
    }

    /// The bytes of a file, accepted or damaged in some way.
    pub fn file_of(&mut self, records: &[u8]) -> Vec<u8> {
        let mut file;
        match self.below(11) {
            0..=2 => file = rules::blocks_of(records),
            3..=5 => {
                let mut records = records.to_vec();
                self.damage_records(&mut records);
                file = rules::blocks_of(&records);
            }
            6 => {
                file = rules::blocks_of(records);
                let (record, block, most) = (RECORD_SIZE, BLOCK_SIZE, MOST_BLOCKS * BLOCK_SIZE);
                let one = [0, 1, record - 1, record, RECORDS_END, block - 1, block, block + 1];
                let more = [2 * block - 1, 2 * block, 2 * block + 1, 3 * block, most - 1, most, most + 1, most + block];
                let len = self.of(&[one, more].concat());
                let fill = self.of(&[0, 1, 255]);
                file.resize(len, fill);
            }
            7 => {
                let len = self.below(2_600);
                file = self.bytes(len);
            }
            8 => file = self.other_blocks(records),
            _ => {
                file = rules::blocks_of(records);
                let blocks = file.len() / BLOCK_SIZE;
                for _ in 0..1 + self.below(3) {
                    let at = BLOCK_SIZE * self.below(blocks);
                    let block = &mut file[at..at + BLOCK_SIZE];
                    match self.below(8) {
                        0 => put_u16(block, FIELDS_AT, self.of(&[0, 1, 2, 3, 4, 256, u16::MAX])),
                        1 => {
                            let full = PER_BLOCK as u16;
                            put_u16(block, USED_AT, self.of(&[0, 1, 2, full - 1, full, full + 1, full + 2, u16::MAX]));
                        }
                        2 => put_u16(block, self.of(&[EDITION_AT, EDITION_AT + 2]), self.of(&[0, 1, 2, 256, u16::MAX])),
                        3 => block[ZEROS_AT + self.below(SUMS_AT - ZEROS_AT)] = self.bits() as u8,
                        4 => block[self.below(RECORDS_END)] = self.bits() as u8,
                        5 => put_u16(block, self.of(&[SUMS_AT, SUM_B_AT]), self.bits() as u16),
                        6 => block[self.below(SUMS_AT)] = self.bits() as u8,
                        _ => {
                            // Two bytes exchanged keep A and change B.
                            let (first, second) = (self.below(SUMS_AT), self.below(SUMS_AT));
                            block.swap(first, second);
                        }
                    }
                    if !self.one_in(4) {
                        put_sums(block);
                    }
                }
                if self.one_in(8) && blocks > 1 {
                    let (first, second) = file.split_at_mut(BLOCK_SIZE);
                    first.swap_with_slice(&mut second[..BLOCK_SIZE]);
                }
            }
        }
        file
    }

    /// Blocks of fewer records than they hold, or one of none: right but for their use count.
    fn other_blocks(&mut self, records: &[u8]) -> Vec<u8> {
        let size = RECORD_SIZE * (1 + self.below(PER_BLOCK));
        let mut file: Vec<u8> = records.chunks(size).take(MOST_BLOCKS).flat_map(rules::blocks_of).collect();
        if self.one_in(2) {
            let mut unused = [0; BLOCK_SIZE];
            put_u32(&mut unused, EDITION_AT, EDITION);
            let at = BLOCK_SIZE * self.below(file.len() / BLOCK_SIZE + 1);
            file.splice(at..at, unused);
        } else if self.one_in(2) {
            file[..BLOCK_SIZE].fill(0);
            put_u32(&mut file, EDITION_AT, EDITION);
        }
        for (number, block) in file.chunks_mut(BLOCK_SIZE).enumerate() {
            put_u16(block, FIELDS_AT, number as u16);
            put_sums(block);
        }
        file
    }

    // ---- Numbers

    /// Any f64: special, whole near a mark, a fraction, or 64 random bits.
    pub fn f64_near(&mut self, marks: &[i128], low: i128, high: i128) -> f64 {
        let whole = self.around(marks, low, high) as f64;
        match self.below(40) {
            0 => self.of(&[f64::NAN, -f64::NAN, f64::INFINITY, f64::NEG_INFINITY, f64::MAX, f64::MIN, 1e300, -1e300]),
            1 => f64::from_bits(self.bits()),
            2 => f64::from_bits(0x7ff0_0000_0000_0000 | self.bits()),
            3 => self.of(&[0.0, -0.0, f64::MIN_POSITIVE, -f64::MIN_POSITIVE, 5e-324, 0.5, -0.5, 0.999_999_999_999_999_9]),
            4 => whole + self.of(&[0.5, 0.25, -0.5, 1e-7]),
            5 => f64::from_bits(whole.to_bits().wrapping_add(self.of(&[1, u64::MAX, 1 << 51]))),
            6 => (self.bits() >> self.below(64)) as f64 * self.of(&[1.0, -1.0, 2.0, 0.5, 1024.0]),
            _ => whole,
        }
    }

    /// A point near a crest, beside it, beyond its ends, or anywhere.
    pub fn point_near(&mut self, crest: &Crest) -> (i128, i128) {
        let station = self.station_on(crest);
        let (x, y) = crest.position(station);
        let reach = match self.below(16) {
            0..=6 => 300,
            7..=12 => 20_000,
            13 => 2_000_000,
            14 => FAR,
            _ => 2 * FRAME,
        };
        if self.one_in(12) {
            // Straight beside it, at the edge of 12 or where many stations are equally far.
            let (tx, ty) = crest.direction(station);
            let offset = self.sign() * self.of(&[FAR, FAR + 1, FAR - 1, 1_000_000]);
            return (x - rules::near(offset * ty, ONE), y + rules::near(offset * tx, ONE));
        }
        if self.one_in(12) {
            // Beyond an end, at the edge of 13 and 14.
            let (at, sign) = self.of(&[(0, -1), (crest.total, 1)]);
            let (x, y) = crest.position(at);
            let (tx, ty) = crest.direction(at);
            let along = sign * self.of(&[PAST_END - 1, PAST_END, PAST_END + 1, PAST_END + 2, 5_000]);
            return (x + rules::near(along * tx, ONE), y + rules::near(along * ty, ONE));
        }
        if self.one_in(6) {
            let (along_x, along_y) = (self.odd_multiple(FAR / 2), 0);
            return if self.one_in(2) { (x + along_x, y + along_y) } else { (x + along_y, y + along_x) };
        }
        (x + self.between(-reach, reach), y + self.between(-reach, reach))
    }

    pub fn station_on(&mut self, crest: &Crest) -> i128 {
        match self.below(6) {
            0 => self.of(&[0, crest.total]),
            1 => {
                let last = self.below(crest.elements.len());
                crest.elements[..=last].iter().map(|element| element.length).sum()
            }
            _ => self.between(0, crest.total),
        }
    }

    pub fn plane_point(&mut self, crest: &Crest) -> Reading {
        let (x, y) = self.point_near(crest);
        if self.one_in(6) {
            let marks = [-FRAME, 0, FRAME, x, y];
            let x = self.f64_near(&marks, x - 500, x + 500);
            let y = self.f64_near(&marks, y - 500, y + 500);
            return Reading::PlanePoint(x, y);
        }
        Reading::PlanePoint(x as f64, y as f64)
    }

    pub fn line_place(&mut self, crest: &Crest) -> Reading {
        let station = self.station_on(crest);
        let station = self.f64_near(&[0, crest.total, station], 0, crest.total);
        let offset = self.f64_near(&[-WIDEST_OFFSET, 0, WIDEST_OFFSET], -WIDEST_OFFSET, WIDEST_OFFSET);
        if self.one_in(6) {
            return Reading::LinePlace(station, self.odd_multiple(WIDEST_OFFSET) as f64);
        }
        Reading::LinePlace(station, offset)
    }

    /// A station as a probe is given it: on the crest, at its end, or anything.
    pub fn station(&mut self, crest: &Crest) -> u32 {
        match self.below(10) {
            0 => self.bits() as u32,
            1 => (crest.total + self.between(-1, 1)) as u32,
            _ => self.station_on(crest) as u32,
        }
    }

    pub fn offset(&mut self) -> i32 {
        if self.one_in(10) {
            self.bits() as i32
        } else if self.one_in(6) {
            self.odd_multiple(WIDEST_OFFSET) as i32
        } else {
            self.around(&[-WIDEST_OFFSET, 0, WIDEST_OFFSET], -WIDEST_OFFSET, WIDEST_OFFSET) as i32
        }
    }

    /// A point as a probe is given it.
    pub fn point(&mut self, crest: &Crest) -> (i32, i32) {
        if self.one_in(20) {
            return (self.bits() as i32, self.bits() as i32);
        }
        let (x, y) = self.point_near(crest);
        (x as i32, y as i32)
    }

    fn coordinate(&mut self) -> i32 {
        match self.below(12) {
            0 => self.bits() as i32,
            1 => self.of(&[i32::MIN, i32::MAX, 0, 1, -1]),
            2 | 3 => (self.sign() * (FRAME + self.between(-1, 1))) as i32,
            4 | 5 => self.between(-300, 300) as i32,
            _ => self.between(-FRAME, FRAME) as i32,
        }
    }

    /// Own point and target of a stake.
    pub fn own_and_target(&mut self) -> ((i32, i32), (i32, i32)) {
        let own = (self.coordinate(), self.coordinate());
        let mut target = (self.coordinate(), self.coordinate());
        if self.one_in(5) {
            // The move is often an exact half.
            let by = self.odd_multiple(FRAME / 2) as i32;
            let by = if self.one_in(2) { (by, 0) } else { (0, by) };
            target = (own.0.saturating_add(by.0), own.1.saturating_add(by.1));
        }
        (own, target)
    }

    pub fn heading(&mut self) -> (i32, i32) {
        let (c, s) = self.unit();
        let (c, s) = match self.below(8) {
            0 => (c + self.between(-3, 3), s + self.between(-3, 3)),
            1 => self.of(&[
                (i32::MIN.into(), i32::MIN.into()),
                (i32::MIN.into(), 0),
                (0, 0),
                (ONE, BESIDE_ONE + 1),
                (ONE + 1, 0),
                (ONE - 2, 0),
                (i32::MAX.into(), i32::MAX.into()),
            ]),
            2 => ((self.bits() as i32).into(), (self.bits() as i32).into()),
            _ => (c, s),
        };
        (c as i32, s as i32)
    }

    // ---- Sightings

    /// A sighting whose point lies as point_near has it, or one with something wrong.
    pub fn sighting(&mut self, crest: &Crest) -> Sighting {
        let point = self.point_near(crest);
        self.sighting_of(point)
    }

    /// A sighting and the target of its stake.
    pub fn sighting_and_target(&mut self) -> (Sighting, (i32, i32)) {
        let ((x, y), target) = self.own_and_target();
        (self.sighting_of((x.into(), y.into())), target)
    }

    /// A sighting of this point, or one with something wrong.
    fn sighting_of(&mut self, point: (i128, i128)) -> Sighting {
        let mut sighting = if self.one_in(3) { self.sighting_by_place(point) } else { self.sighting_by_turn(point) };
        match self.below(20) {
            0 => sighting.backsight = self.heading(),
            1 => sighting.angle = self.heading(),
            2 => sighting.place = (self.coordinate(), self.coordinate()),
            3 => sighting.distance = self.wrong_distance(),
            4 => {
                // Anything may be wrong, and several at once.
                sighting = Sighting {
                    place: (self.coordinate(), self.coordinate()),
                    backsight: self.heading(),
                    angle: self.heading(),
                    distance: if self.one_in(3) { self.wrong_distance() } else { self.distance() as i32 },
                };
            }
            5 => {
                // The instrument stands at a corner of the frame or a few grains within, and the prism is as near to it.
                sighting = Sighting {
                    place: (
                        (self.sign() * (FRAME - self.between(0, 2))) as i32,
                        (self.sign() * (FRAME - self.between(0, 2))) as i32,
                    ),
                    backsight: narrow(self.axis()),
                    angle: narrow(self.axis()),
                    distance: self.between(0, 3) as i32,
                };
            }
            _ => {}
        }
        sighting
    }

    /// The pairs and the distance are chosen, and the instrument stands where they lead to exactly this point: on the other
    /// side of it where that place does not lie in the frame.
    fn sighting_by_turn(&mut self, point: (i128, i128)) -> Sighting {
        let (backsight, angle) = match self.below(10) {
            0 | 1 => (self.axis(), self.unit()),
            2 | 3 => (self.unit(), self.axis()),
            // A component of the turned pair is an exact half.
            4 => (self.beside_axis(19), self.beside_axis(22)),
            _ => (self.unit(), self.unit()),
        };
        let distance = self.distance();
        let mut sighting =
            Sighting { place: (0, 0), backsight: narrow(backsight), angle: narrow(angle), distance: distance as i32 };
        let from = |sighting: &Sighting| {
            let (x, y) = sighting.end();
            (point.0 - x, point.1 - y)
        };
        let mut place = from(&sighting);
        if !rules::in_frame(place.0, place.1) {
            sighting.angle = narrow((-angle.0, -angle.1));
            place = from(&sighting);
        }
        sighting.place = narrow(place);
        sighting
    }

    /// The instrument's place and the backsight are chosen, and the angle and the distance are those of this point as an
    /// instrument has them: rounded, so that they lead to a grain or so of it.
    fn sighting_by_place(&mut self, (x, y): (i128, i128)) -> Sighting {
        let reach = self.of(&[300, 20_000, 2_000_000, LONGEST_SIGHT]);
        let place = if self.one_in(6) {
            (self.sign() * FRAME, self.sign() * FRAME)
        } else {
            let near = |at: i128, by: i128| (at + by).clamp(-FRAME, FRAME);
            (near(x, self.between(-reach, reach)), near(y, self.between(-reach, reach)))
        };
        let (dx, dy) = (x - place.0, y - place.1);
        let (b, g) = self.unit();
        let angle = match (b * dx + g * dy, b * dy - g * dx) {
            (0, 0) => (ONE, 0),
            (along, aside) => unit_along(along as f64, aside as f64),
        };
        let distance = (dx as f64).hypot(dy as f64).round() as i128;
        Sighting { place: narrow(place), backsight: narrow((b, g)), angle: narrow(angle), distance: narrow((distance, 0)).0 }
    }

    /// A direction along an axis.
    fn axis(&mut self) -> (i128, i128) {
        self.of(&[(ONE, 0), (0, ONE), (-ONE, 0), (0, -ONE)])
    }

    /// A distance that is taken: at the ends of the range, an odd multiple of a power of two, short, or any.
    fn distance(&mut self) -> i128 {
        match self.below(8) {
            0 => self.of(&[0, 1, LONGEST_SIGHT - 1, LONGEST_SIGHT]),
            1 | 2 => self.odd_multiple(LONGEST_SIGHT).abs(),
            3 | 4 => self.between(0, 20_000),
            _ => self.between(0, LONGEST_SIGHT),
        }
    }

    /// A distance that mostly is not taken.
    fn wrong_distance(&mut self) -> i32 {
        let beyond = LONGEST_SIGHT as i32 + 1;
        if self.one_in(4) {
            self.bits() as i32
        } else {
            self.of(&[-1, beyond, -beyond, i32::MIN, i32::MAX])
        }
    }

    /// A run's bytes: fresh, full or nearly, or anything.
    pub fn run(&mut self) -> Vec<u8> {
        let mut run = if self.one_in(3) { vec![0; RUN_SIZE] } else { self.bytes(RUN_SIZE) };
        if self.one_in(2) {
            let answered = self.between(0, u16::MAX.into());
            let refused = i128::from(MOST_COUNTED) - answered + self.between(-2, 1);
            put_u16(&mut run, ANSWERED_AT, answered as u16);
            put_u16(&mut run, REFUSED_AT, refused.clamp(0, u16::MAX.into()) as u16);
        } else if self.one_in(2) {
            put_u16(&mut run, ANSWERED_AT, self.below(1_000) as u16);
            put_u16(&mut run, REFUSED_AT, self.below(1_000) as u16);
        }
        if self.one_in(2) {
            put_u16(&mut run, FIRST_AT, 0);
        }
        run
    }

    /// Bytes to lend where `len` are asked for: mostly so many, else any number.
    pub fn lent(&mut self, len: usize) -> Vec<u8> {
        let len = match self.below(8) {
            0 => self.of(&[0, 1, len - 1, len + 1, 2 * len, len + 256, 65_536 + len]),
            1 => self.below(3 * len),
            _ => len,
        };
        if len > 4_096 {
            vec![0x5a; len]
        } else {
            self.bytes(len)
        }
    }
}

/// A pair as a call takes it: the nearest numbers of 32 bits.
fn narrow((first, second): (i128, i128)) -> (i32, i32) {
    let narrow = |number: i128| number.clamp(i32::MIN.into(), i32::MAX.into()) as i32;
    (narrow(first), narrow(second))
}

/// Whole numbers of length ONE along a direction.
fn unit_along(x: f64, y: f64) -> (i128, i128) {
    let size = x.hypot(y);
    let one = ONE as f64;
    ((x / size * one).round() as i128, (y / size * one).round() as i128)
}

/// The 32 bytes of an element.
pub fn record_of(element: &Element) -> [u8; RECORD_SIZE] {
    let mut record = [0; RECORD_SIZE];
    record[KIND_AT] = element.kind;
    for (at, value) in [
        (RECORD_LENGTH_AT, element.length),
        (X_AT, element.x),
        (Y_AT, element.y),
        (C_AT, element.c),
        (S_AT, element.s),
        (RADIUS_AT, element.radius),
    ] {
        put_i32(&mut record, at, value);
    }
    record
}
