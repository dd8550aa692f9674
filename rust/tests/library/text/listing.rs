//! The library's listing beside the second one.
use super::writer::listing;
use crate::call::refused_at;
use crate::random::Random;
use dirmoog::{write_listing, Answer, Listable, Listed, Refusal};

/// The lists that a listing is made of. They may be of any lengths and hold anything.
#[derive(Clone, Default)]
struct Lists {
    place_num: Vec<i64>,
    place_den: Vec<i64>,
    left: Vec<u64>,
    right: Vec<u64>,
    distance: Vec<i64>,
}

impl Lists {
    fn place(&mut self, num: i64, den: i64) {
        self.place_num.push(num);
        self.place_den.push(den);
    }

    fn gap(&mut self, left: u64, right: u64, distance: i64) {
        self.left.push(left);
        self.right.push(right);
        self.distance.push(distance);
    }

    /// Places at 0 for so many labels, and so many gaps of 0 of the first.
    fn zeros(labels: usize, gaps: usize) -> Lists {
        let mut lists = Lists::default();
        (0..labels).for_each(|_| lists.place(0, 1));
        (0..gaps).for_each(|_| lists.gap(0, 0, 0));
        lists
    }

    /// Document 01's run, and one gap more that has room to spare.
    fn of_a_run() -> Lists {
        let mut lists = Lists::default();
        lists.place(-3, 2);
        lists.place(9, 2);
        lists.gap(0, 1, 6);
        lists.gap(1, 0, -20);
        lists
    }

    fn lent(&self) -> Listable<'_> {
        Listable {
            place_num: &self.place_num,
            place_den: &self.place_den,
            left: &self.left,
            right: &self.right,
            distance: &self.distance,
        }
    }

    fn is_ragged(&self) -> bool {
        let gaps = self.left.len();
        self.place_den.len() != self.place_num.len()
            || self.right.len() != gaps
            || self.distance.len() != gaps
    }
}

/// The refusal of a listing, if a rule is broken: 1 for more than 48 labels, 2 for more than 192 gaps, 3 for uneven
/// lists, 4 for a short buffer.
fn refused(answer: Answer, lists: &Lists, needed: usize, room: usize) -> Option<u64> {
    let placed = answer == Answer::Placed;
    match () {
        () if placed && lists.place_num.len() > 48 => Some(1),
        () if placed && lists.left.len() > 192 => Some(2),
        () if placed && lists.is_ragged() => Some(3),
        () if room < needed => Some(4),
        () => None,
    }
}

/// Checks the library's answer and the buffer afterwards, and gives the refusal's number, or 0.
fn check(answer: Answer, field: u64, lists: &Lists, before: &[u8]) -> u64 {
    let text = listing(answer, field, &lists.lent());
    let mut after = before.to_vec();
    let listed = write_listing(answer, field, &lists.lent(), &mut after);
    match refused(answer, lists, text.len(), before.len()) {
        Some(number) => {
            let (place, ring) = (0, 0);
            assert_eq!(
                listed,
                Listed::Refused(Refusal {
                    number,
                    place,
                    ring
                })
            );
            assert_eq!(after, before);
            number
        }
        None => {
            assert_eq!(listed, Listed::Written(text.len() as u64));
            assert_eq!(after, [&text, &before[text.len()..]].concat());
            0
        }
    }
}

/// Checks the listing of a placed sheet, which must be this text.
fn listed_as(lists: &Lists, records: &[&str]) {
    let text: String = records
        .iter()
        .map(|record| format!("{record}\r\n"))
        .collect();
    let second = listing(Answer::Placed, 0, &lists.lent());
    assert_eq!(String::from_utf8_lossy(&second), text);
    assert_eq!(check(Answer::Placed, 0, lists, &[7; 1_000]), 0);
}

fn any_number(random: &mut Random) -> i64 {
    let most = random.pick(&[3, 4_800, 5_472_000_000, i64::MAX]);
    random.between(-most, most)
}

/// Mostly a place within the limits of 12, else any two numbers.
fn any_place(random: &mut Random) -> (i64, i64) {
    let most = random.pick(&[30, 1_000_000, 5_472_000_000]);
    match random.below(4) {
        0 => (any_number(random), any_number(random)),
        _ => (random.between(-most, most), random.between(1, 4_800)),
    }
}

/// Mostly a label of so many, else a number that is none.
fn any_end(random: &mut Random, labels: usize) -> u64 {
    match random.below(8) {
        0 => random.pick(&[labels as u64, 48, 1 << 32, 1 << 63, u64::MAX]),
        _ => random.below(labels.max(1)) as u64,
    }
}

fn any_distance(random: &mut Random) -> i64 {
    match random.below(8) {
        0 => random.pick(&[-20_001, -20_000, 20_000, 20_001, i64::MIN, i64::MAX]),
        _ => random.between(-20_000, 20_000),
    }
}

fn any_lists(random: &mut Random) -> Lists {
    let labels = random.pick(&[0, 1, 3, 48, 48, 49]);
    let gaps = random.pick(&[0, 1, 4, 192, 192, 193]);
    let mut lists = Lists::default();
    for _ in 0..labels {
        let (num, den) = any_place(random);
        lists.place(num, den);
    }
    for _ in 0..gaps {
        let (left, right) = (any_end(random, labels), any_end(random, labels));
        lists.gap(left, right, any_distance(random));
    }
    match random.below(16) {
        0 => lists.place_den.resize(random.below(60), 1),
        1 => lists.right.resize(random.below(200), 0),
        2 => lists.distance.resize(random.below(200), 0),
        _ => (),
    }
    lists
}

/// Any number and any place; half of the numbers are those that name a field, or next to them.
fn any_refusal(random: &mut Random) -> Refusal {
    let number = match random.below(2) {
        0 => (random.next() >> random.below(64)).max(1),
        _ => random.between(12, 16) as u64,
    };
    Refusal {
        number,
        place: random.next() >> random.below(64),
        ring: random.next(),
    }
}

#[test]
fn generated_answers() {
    let mut random = Random::new(30_000_000);
    let (mut numbers, mut fields) = ([0; 5], 0);
    for _ in 0..40_000 {
        let lists = any_lists(&mut random);
        let field = random.next() >> random.below(64);
        let answer = match random.below(4) {
            0 => Answer::Refused(any_refusal(&mut random)),
            _ => Answer::Placed,
        };
        let needed = listing(answer, field, &lists.lent()).len();
        let room = random.pick(&[0, needed.saturating_sub(1), needed, needed + 1, needed + 90]);
        let before: Vec<_> = (0..room).map(|_| random.next() as u8).collect();
        let number = check(answer, field, &lists, &before);
        numbers[number as usize] += 1;
        let shown = matches!(answer, Answer::Refused(_)) && field != 0;
        fields += usize::from(shown && number == 0);
    }
    println!("listings by number: {numbers:?}; {fields} show a field");
    assert!(numbers.iter().all(|&count| count > 300) && fields > 1_000);
}

/// One record for each label, then one for each gap, both in the order of their numbers.
#[test]
fn places_then_slacks() {
    let places = ["place,0,-3,2,-1", "place,1,9,2,5"];
    let slacks = ["slack,0,0,1", "slack,1,14,1"];
    let mut lists = Lists::of_a_run();
    listed_as(&lists, &[places, slacks].concat());
    lists.gap(1, 1, 2);
    lists.gap(0, 1, 7);
    let broken = ["slack,2,-2,1", "slack,3,-1,1"];
    listed_as(&lists, &[places, slacks, broken].concat());
    listed_as(&Lists::zeros(0, 0), &[]);
    listed_as(&Lists::zeros(1, 0), &["place,0,0,1,0"]);
    listed_as(&Lists::zeros(0, 2), &["slack,0,0,1", "slack,1,0,1"]);
}

/// Document 02, Item 4: a whole unit is the nearest, halves go to the larger number, 0 has no sign, and a
/// fraction that is refused has 0.
#[test]
fn whole_units() {
    let mut lists = Lists::default();
    for (num, den) in [
        (-5, 2),
        (-3, 2),
        (-2, 3),
        (-1, 2),
        (-1, 3),
        (1, 2),
        (9, 2),
        (4_801, 4_801),
    ] {
        lists.place(num, den);
    }
    listed_as(
        &lists,
        &[
            "place,0,-5,2,-2",
            "place,1,-3,2,-1",
            "place,2,-2,3,-1",
            "place,3,-1,2,0",
            "place,4,-1,3,0",
            "place,5,1,2,1",
            "place,6,9,2,5",
            "place,7,4801,4801,0",
        ],
    );
}

/// The slack is 0/1 where an end is no label, or a place or the distance is outside its limits.
#[test]
fn slacks_that_cannot_be_taken() {
    let mut lists = Lists::default();
    [
        (1, 2),
        (5_472_000_001, 1),
        (7_000, 4_801),
        (i64::MIN, 1),
        (6, 4),
    ]
    .iter()
    .for_each(|&(num, den)| lists.place(num, den));
    let places = [
        "place,0,1,2,1",
        "place,1,5472000001,1,0",
        "place,2,7000,4801,0",
        "place,3,-9223372036854775808,1,0",
        "place,4,6,4,2",
    ];
    let ends = [(0, 5), (5, 0), (u64::MAX, 4), (4, 1 << 63), (5, 5)];
    ends.iter().for_each(|&(u, v)| lists.gap(u, v, -9));
    let outside = [(0, 1), (2, 0), (3, 4), (4, 3), (1, 1)];
    outside.iter().for_each(|&(u, v)| lists.gap(u, v, -9));
    let distances = [20_001, -20_001, i64::MIN, i64::MAX];
    distances.iter().for_each(|&g| lists.gap(0, 4, g));
    let mut records: Vec<String> = places.map(String::from).into();
    (0..14).for_each(|e| records.push(format!("slack,{e},0,1")));
    // beside them those that can
    lists.gap(0, 4, 20_000);
    lists.gap(0, 4, -20_000);
    lists.gap(4, 0, 0);
    records.extend(["slack,14,-19999,1", "slack,15,20001,1", "slack,16,-1,1"].map(String::from));
    let records: Vec<&str> = records.iter().map(String::as_str).collect();
    listed_as(&lists, &records);
}

/// So many labels and gaps are listed, and one more of either is refused, labels before gaps.
#[test]
fn too_many() {
    let room = [7; 24_576];
    for (labels, gaps, number) in [
        (48, 192, 0),
        (49, 0, 1),
        (49, 192, 1),
        (49, 193, 1),
        (48, 193, 2),
        (0, 193, 2),
    ] {
        let lists = Lists::zeros(labels, gaps);
        assert_eq!(check(Answer::Placed, 0, &lists, &room), number);
    }
}

/// Each list that is longer or shorter than the one it belongs to is refused; 1 and 2 come before, and 4 after.
#[test]
fn uneven_lists() {
    for (labels, gaps, number) in [(2, 3, 3), (49, 3, 1), (2, 193, 2)] {
        let even = Lists::zeros(labels, gaps);
        for by in [-1, 1] {
            let mut uneven = [even.clone(), even.clone(), even.clone()];
            let other = |count: usize| count.saturating_add_signed(by);
            uneven[0].place_den.resize(other(labels), 1);
            uneven[1].right.resize(other(gaps), 0);
            uneven[2].distance.resize(other(gaps), 0);
            for lists in uneven {
                assert_eq!(check(Answer::Placed, 0, &lists, &[7; 24_576]), number);
                assert_eq!(check(Answer::Placed, 0, &lists, &[]), number);
            }
        }
        let fits = if number == 3 { 0 } else { number };
        assert_eq!(check(Answer::Placed, 0, &even, &[7; 24_576]), fits);
    }
}

/// Every buffer that is shorter than the listing is refused and stays.
#[test]
fn short_buffers() {
    let lists = Lists::of_a_run();
    for (answer, field) in [
        (Answer::Placed, 0),
        (refused_at(9, 0), 0),
        (refused_at(14, 31), 4),
    ] {
        let needed = listing(answer, field, &lists.lent()).len();
        for room in 0..needed {
            assert_eq!(check(answer, field, &lists, &vec![7; room]), 4);
        }
        assert_eq!(check(answer, field, &lists, &vec![7; needed]), 0);
    }
    assert_eq!(check(Answer::Placed, 0, &Lists::default(), &[]), 0);
}

/// A refusal is listed whatever the lists are.
#[test]
fn refusals_ignore_the_lists() {
    let mut lists = Lists::zeros(49, 193);
    lists.place_den.clear();
    lists.right.push(1);
    lists.distance.pop();
    let mut text = [7; 16];
    let listed = write_listing(refused_at(10, 3), 0, &lists.lent(), &mut text);
    assert_eq!(listed, Listed::Written(16));
    assert_eq!(&text, b"refused,10,3,0\r\n");
    for (number, needed) in [(u64::MAX, 72), (15, 54)] {
        let (answer, field) = (refused_at(number, u64::MAX), u64::MAX);
        assert_eq!(check(answer, field, &lists, &vec![7; needed - 1]), 4);
        assert_eq!(check(answer, field, &lists, &vec![7; needed]), 0);
    }
}

/// Document 02, Item 5: a refused record has a fourth field, the one that is told. A placed sheet shows none.
#[test]
fn fields_of_refusals() {
    let lists = Lists::of_a_run();
    for field in [0, 1, 2, 4, 5, 77, u64::MAX] {
        for number in [1, 4, 5, 9, 10, 11, 12, 13, 14, 15, 16, 17, 113, u64::MAX] {
            let record = format!("refused,{number},31,{field}\r\n");
            let second = listing(refused_at(number, 31), field, &lists.lent());
            assert_eq!(String::from_utf8_lossy(&second), record);
            assert_eq!(check(refused_at(number, 31), field, &lists, &[7; 60]), 0);
        }
        assert_eq!(
            listing(Answer::Placed, field, &lists.lent()),
            listing(Answer::Placed, 0, &lists.lent())
        );
        assert_eq!(check(Answer::Placed, field, &lists, &[7; 90]), 0);
    }
}

/// The room that the header names is enough for every listing: for the longest places, and for the longest slacks.
#[test]
fn longest_listings() {
    let room = [7; 24_576];
    let mut places = Lists::default();
    (0..48).for_each(|_| places.place(i64::MIN, i64::MIN));
    (0..192).for_each(|_| places.gap(u64::MAX, u64::MAX, i64::MIN));
    assert_eq!(check(Answer::Placed, 0, &places, &room), 0);
    let mut slacks = Lists::default();
    (0..24).for_each(|_| slacks.place(5_472_000_000, 4_799));
    (0..24).for_each(|_| slacks.place(-5_471_999_999, 4_800));
    (0..192).for_each(|_| slacks.gap(0, 47, 20_000));
    assert_eq!(check(Answer::Placed, 0, &slacks, &room), 0);
    let last = b"slack,191,-52986431995201,23035200\r\n";
    assert!(listing(Answer::Placed, 0, &slacks.lent()).ends_with(last));
}
