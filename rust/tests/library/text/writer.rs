//! A second writer of the listing, written from document 01 and document 02, Items 1, 4 and 5, apart from the library's.
use crate::rounding::{half_up, whole};
use crate::slack;
use dirmoog::{Answer, Fraction, Listable, SlackAnswer};

/// The listing of an answer over its places and gaps, or with its field.
pub fn listing(answer: Answer, field: u64, lists: &Listable<'_>) -> Vec<u8> {
    let records: Vec<String> = match answer {
        Answer::Placed => {
            let places = (0..lists.place_num.len()).filter_map(|label| place_record(lists, label));
            let slacks = (0..lists.left.len()).filter_map(|gap| slack_record(lists, gap));
            places.chain(slacks).collect()
        }
        Answer::Refused(refusal) => {
            let (number, place) = (refusal.number, refusal.place);
            vec![format!("refused,{number},{place},{field}\r\n")]
        }
    };
    records.concat().into_bytes()
}

/// The place of a label, if the lists have it.
fn place(lists: &Listable<'_>, label: usize) -> Option<Fraction> {
    Some(Fraction {
        num: *lists.place_num.get(label)?,
        den: *lists.place_den.get(label)?,
    })
}

fn place_record(lists: &Listable<'_>, label: usize) -> Option<String> {
    let Fraction { num, den } = place(lists, label)?;
    let unit = whole(half_up(num, den));
    Some(format!("place,{label},{num},{den},{unit}\r\n"))
}

fn slack_record(lists: &Listable<'_>, gap: usize) -> Option<String> {
    let (left, right) = (*lists.left.get(gap)?, *lists.right.get(gap)?);
    let slack = printed_slack(lists, left, right, *lists.distance.get(gap)?);
    Some(format!("slack,{gap},{},{}\r\n", slack.num, slack.den))
}

/// The slack of a gap; 0/1 where an end is no label, or a place or the distance is outside its limits.
fn printed_slack(lists: &Listable<'_>, left: u64, right: u64, distance: i64) -> Fraction {
    let end = |label: u64| place(lists, usize::try_from(label).ok()?);
    let answer = match (end(left), end(right)) {
        (Some(left), Some(right)) => Some(slack::expected(left, right, distance)),
        _ => None,
    };
    match answer {
        Some(SlackAnswer::Slack(slack)) => slack,
        _ => Fraction { num: 0, den: 1 },
    }
}
