//! Whole runs: a text is read, laid out and listed, as the station program does.
use super::read::read_into;
use super::reader::read;
use super::typed::{damage, leaves_blank, typed};
use super::writer::listing;
use crate::call::{refused_at, Lent};
use crate::conditions::confirm_units;
use crate::generate::{sheet, SHAPES};
use crate::generated::Case;
use crate::random::Random;
use crate::records::Records;
use crate::refusals;
use crate::rounding::{away_from_zero, units_of};
use crate::sheet::{file, labels_text, Sheet, EXACTLY};
use crate::solver;
use dirmoog::{Answer, Listable};
use std::path::Path;

/// Lists that have room for every sheet.
fn roomy() -> Sheet {
    Sheet {
        wanted: vec![0; 48],
        weight: vec![0; 48],
        left: vec![0; 192],
        right: vec![0; 192],
        distance: vec![0; 192],
        kind: vec![0; 192],
    }
}

/// What the library prints for a text.
fn printed(text: &[u8]) -> Vec<u8> {
    let mut lists = roomy();
    match read_into(text, &mut lists).sheet() {
        Err(told) => {
            let answer = Answer::Refused(told.refusal);
            Lent::default().printed(answer, told.field, &Sheet::default())
        }
        Ok(counts) => {
            let (labels, gaps) = (counts.labels as usize, counts.gaps as usize);
            lists.wanted.truncate(labels);
            lists.weight.truncate(labels);
            lists.left.truncate(gaps);
            lists.right.truncate(gaps);
            lists.distance.truncate(gaps);
            lists.kind.truncate(gaps);
            let mut lent = Lent::zeros(labels, gaps);
            let answer = lent.call(&lists);
            lent.printed(answer, 0, &lists)
        }
    }
}

fn refused(number: u64, place: u64, field: u64) -> Vec<u8> {
    listing(refused_at(number, place), field, &Listable::default())
}

/// What the parts beside the library print for a text.
fn expected(text: &[u8]) -> Vec<u8> {
    let sheet = match read(text) {
        Ok(sheet) => sheet,
        Err((number, place, field)) => return refused(number, place, field),
    };
    let mut lent = Lent::zeros(sheet.labels(), sheet.gaps());
    if let Some((number, place)) = refusals::table(&sheet, &lent) {
        return refused(number, place, 0);
    }
    let Some(places) = solver::solve(&sheet) else {
        return refused(9, 0, 0);
    };
    lent.place_num = places.iter().map(|p| p.num as i64).collect();
    lent.place_den = places.iter().map(|p| p.den as i64).collect();
    listing(Answer::Placed, 0, &lent.listable(&sheet))
}

/// A text and what both sides print for it.
fn prints(text: &[u8], records: &str) {
    assert_eq!(String::from_utf8_lossy(&printed(text)), records);
    assert_eq!(String::from_utf8_lossy(&expected(text)), records);
}

#[test]
fn run_of_document_01() {
    prints(
        b"label,0,0,1\r\nlabel,1,3,1\r\ngap,0,1,6\r\n",
        "place,0,-3,2,-1\r\nplace,1,9,2,5\r\nslack,0,0,1\r\n",
    );
    prints(b"label,0,0,1\r\ngap,0,0,1\r\n", "refused,9,0,0\r\n");
    prints(
        b"label,0,0,1\r\ngap,0,0,-1\r\n",
        "place,0,0,1,0\r\nslack,0,1,1\r\n",
    );
    prints(b"", "");
}

/// P6: two gaps with room to spare, and one that holds the labels apart.
#[test]
fn slacks_of_p6() {
    prints(
        b"label,0,0,1\nlabel,1,0,1\nlabel,2,0,1\ngap,0,1,2\ngap,1,2,2\ngap,0,2,10\n",
        "place,0,-5,1,-5\r\nplace,1,0,1,0\r\nplace,2,5,1,5\r\n\
         slack,0,3,1\r\nslack,1,3,1\r\nslack,2,0,1\r\n",
    );
}

/// Two pairs that touch, and how far they are from each other.
#[test]
fn slacks_of_nearly_touching() {
    prints(
        &file("nearly-touching.csv"),
        "place,0,-8,3,-3\r\nplace,1,7,3,2\r\nplace,2,77,2,39\r\nplace,3,85,2,43\r\n\
         slack,0,0,1\r\nslack,1,0,1\r\nslack,2,37,6\r\n",
    );
}

/// Document 02, Item 3: a blank weight counts ten, so the other label gives way. A weight of zero is no blank one.
#[test]
fn blank_weight_counts_ten() {
    let text = file("mixed-weights.csv");
    assert_eq!(text, b"label,0,0,\r\nlabel,1,11,1\r\ngap,0,1,22\r\n");
    let records = "place,0,-1,1,-1\r\nplace,1,21,1,21\r\nslack,0,0,1\r\n";
    prints(&text, records);
    prints(b"label,0,0,10\nlabel,1,11,1\ngap,0,1,22\n", records);
    prints(
        b"label,0,0,1\nlabel,1,11,1\ngap,0,1,22\n",
        "place,0,-11,2,-5\r\nplace,1,33,2,17\r\nslack,0,0,1\r\n",
    );
    prints(b"label,0,0,0\n", "refused,6,0,0\r\n");
    prints(b"label,0,0,\r\n", "place,0,0,1,0\r\n");
    prints(b"label,0,0,\r", "refused,14,1,4\r\n");
}

/// Document 02, Item 4: two labels that may cross by one unit at most. Halves go to the larger number, so that the whole
/// units are no further apart than the gap allows.
#[test]
fn units_of_crossing_labels() {
    let text = file("crossing.csv");
    assert_eq!(text, b"label,0,2,1\r\nlabel,1,-2,1\r\ngap,0,1,-1\r\n");
    prints(&text, "place,0,1,2,1\r\nplace,1,-1,2,0\r\nslack,0,0,1\r\n");
}

/// Document 02, Item 5: which field of the line. Each text is printed so whether its last line lacks its end or not.
#[test]
fn which_field_of_the_line() {
    for (texts, record) in [
        (
            &["label,0,0", "\n", "x,0", "x,0,0,1,"][..],
            "refused,10,1,0",
        ),
        (
            &["Label,0,0,1", "\"label\",0,0,1", ",0,0,1"],
            "refused,13,1,1",
        ),
        (&["label,,0,1", "label,-0,0,1"], "refused,14,1,2"),
        (&["label,0000000000,0,1"], "refused,14,1,2"),
        (&["label,0,+5,1"], "refused,14,1,3"),
        (&["label,0,0,-1", "label,7,0,x"], "refused,14,1,4"),
        (&["label,1,0,1"], "refused,15,1,2"),
        (&["label,0,0,1\nlabel,5,0,1\nx"], "refused,15,2,2"),
        (&["label,0,0,1\nlabel,001,0,1\ngap,0,1,O"], "refused,14,3,4"),
    ] {
        for (text, end) in texts.iter().flat_map(|text| ENDS.map(|end| (text, end))) {
            prints(format!("{text}{end}").as_bytes(), &format!("{record}\r\n"));
        }
    }
    // a LF behind this CR would make it the line's end
    prints(b"label,0,0,1\r", "refused,14,1,4\r\n");
    prints(b"label,0,0,1\r\n", "place,0,0,1,0\r\n");
    // neither refusal names a line
    prints(&[b'x'; 16_385], "refused,11,0,0\r\n");
    prints(&file("ring.csv"), "refused,9,0,0\r\n");
}

/// Document 02, Item 6: an exact gap is typed with the word same, and has its slack record among the others.
#[test]
fn labels_joined_rigidly() {
    for (wants, gaps, records) in [
        (
            &["0,1", "10,1"][..],
            &["same,0,1,6"][..],
            "place,0,2,1,2\r\nplace,1,8,1,8\r\nslack,0,0,1\r\n",
        ),
        (
            &["0,1", "0,1", "0,1"],
            &["same,0,1,5", "same,1,2,5", "same,0,2,10"],
            "place,0,-5,1,-5\r\nplace,1,0,1,0\r\nplace,2,5,1,5\r\n\
             slack,0,0,1\r\nslack,1,0,1\r\nslack,2,0,1\r\n",
        ),
        (
            &["0,1", "0,2", "9,1"],
            &["same,0,1,4", "gap,1,2,3"],
            "place,0,-8,3,-3\r\nplace,1,4,3,1\r\nplace,2,9,1,9\r\nslack,0,0,1\r\nslack,1,14,3\r\n",
        ),
        (
            &["0,1", "0,1"],
            &["same,0,1,5", "gap,0,1,6"],
            "refused,9,0,0\r\n",
        ),
        (
            &["0,1", "0,1", "0,1"],
            &["same,0,1,5", "same,1,2,5", "same,0,2,9"],
            "refused,9,0,0\r\n",
        ),
        // one numbering with gaps, and refusals by it
        (&["0,1"], &["gap,0,0,0", "same,0,1,0"], "refused,7,1,0\r\n"),
        (
            &["0,1"],
            &["gap,0,0,0", "same,0,0,20001"],
            "refused,8,1,0\r\n",
        ),
    ] {
        let labels = (0..)
            .zip(wants)
            .map(|(i, want)| format!("label,{i},{want}"));
        let gaps = gaps.iter().map(|gap| gap.to_string());
        let lines: Vec<String> = labels.chain(gaps).collect();
        for end in ["\n", "\r\n"] {
            prints(lines.join(end).as_bytes(), records);
            prints((lines.join(end) + end).as_bytes(), records);
        }
        // the gaps first
        let turned = [&lines[wants.len()..], &lines[..wants.len()]].concat();
        prints(turned.join("\n").as_bytes(), records);
    }
}

/// Document 02, Item 6: three markers of two parts each, which stand 240 apart, in whole units too. With the word gap the
/// parts would stand as far apart as they want to.
#[test]
fn two_part_markers() {
    let text = file("two-part-markers.csv");
    prints(
        &text,
        "place,0,5,1,5\r\nplace,1,245,1,245\r\nplace,2,515,1,515\r\nplace,3,755,1,755\r\n\
         place,4,2635,2,1318\r\nplace,5,3115,2,1558\r\n\
         slack,0,0,1\r\nslack,1,0,1\r\nslack,2,0,1\r\nslack,3,585,2\r\nslack,4,0,1\r\n",
    );
    let loose = String::from_utf8(text).expect("a text");
    prints(
        loose.replace("same", "gap").as_bytes(),
        "place,0,0,1,0\r\nplace,1,245,1,245\r\nplace,2,515,1,515\r\nplace,3,760,1,760\r\n\
         place,4,1300,1,1300\r\nplace,5,1575,1,1575\r\n\
         slack,0,5,1\r\nslack,1,0,1\r\nslack,2,5,1\r\nslack,3,270,1\r\nslack,4,35,1\r\n",
    );
}

/// Document 02, Item 7: the same markers with one want moved up. Now the second stands apart from the first.
#[test]
fn two_part_markers_revised() {
    prints(
        &file("two-part-markers-revised.csv"),
        "place,0,10,1,10\r\nplace,1,250,1,250\r\nplace,2,560,1,560\r\nplace,3,800,1,800\r\n\
         place,4,2635,2,1318\r\nplace,5,3115,2,1558\r\n\
         slack,0,0,1\r\nslack,1,40,1\r\nslack,2,0,1\r\nslack,3,495,2\r\nslack,4,0,1\r\n",
    );
}

/// What may stand behind a line, or be lacking.
const ENDS: [&str; 3] = ["", "\n", "\r\n"];

/// A bad line comes before 1 and 2, also where it stands behind what they refuse, and 11 before all.
#[test]
fn bad_lines_beyond_the_limits() {
    let labels = labels_text(49);
    let gaps = "gap,0,0,0\n".repeat(193);
    prints(labels.as_bytes(), "refused,1,0,0\r\n");
    prints(gaps.as_bytes(), "refused,2,0,0\r\n");
    for (bad, number, field) in [
        ("x", 10, 0),
        ("x,0,0,1", 13, 1),
        ("label,50,x,1", 14, 3),
        ("label,48,0,1", 15, 2),
    ] {
        for (before, line) in [(&labels, 50), (&gaps, 194)] {
            let text = format!("{before}{bad}\n");
            let record = format!("refused,{number},{line},{field}\r\n");
            prints(text.as_bytes(), &record);
            let long = [text.as_bytes(), &[b'\n'; 16_384]].concat();
            prints(&long[..16_384], &record);
            prints(&long[..16_385], "refused,11,0,0\r\n");
        }
    }
}

/// The letter O for a zero.
#[test]
fn typing_slip() {
    let text = file("typing-slip.csv");
    assert!(text.ends_with(b"gap,1,2,26O\r\n"));
    prints(&text, "refused,14,5,4\r\n");
    let mended = String::from_utf8(text).expect("a text").replace('O', "0");
    prints(
        mended.as_bytes(),
        "place,0,-10,1,-10\r\nplace,1,250,1,250\r\nplace,2,510,1,510\r\nslack,0,0,1\r\nslack,1,0,1\r\n",
    );
}

/// Holds the whole units that are printed for a placed text to every gap, and tells whether halves away from zero would
/// break one.
fn check_units(text: &[u8], out: &[u8]) -> bool {
    let sheet = read(text).expect("a sheet");
    let records = Records::of(out, &sheet);
    confirm_units(&sheet, &records.units).expect("whole units");
    confirm_units(&sheet, &units_of(&records.places, away_from_zero)).is_err()
}

/// The texts of the program station_cases, generated ones among them: the library and the parts beside it print what its
/// file has, and the whole units meet every gap. Each text has its name in front and a byte 0 behind.
#[test]
fn station_cases() {
    let cases = Path::new(env!("CARGO_MANIFEST_DIR")).join("../crates/station_cases");
    let texts = std::fs::read(cases.join("stdin")).expect("the texts");
    // the program's buffer: it would not see what is beyond
    assert!(texts.len() <= 65_536);
    let (mut all, mut placed) = (Vec::new(), 0);
    for entry in texts.split_inclusive(|&byte| byte == 0) {
        let (text, end) = entry.split_at(entry.len() - 1);
        assert_eq!(end, [0]);
        let line = text.iter().position(|&byte| byte == b'\n').expect("a name");
        let (name, text) = text.split_at(line + 1);
        let out = printed(text);
        assert_eq!(out, expected(text), "{}", name.escape_ascii());
        if out.starts_with(b"place") {
            check_units(text, &out);
            placed += 1;
        }
        all.extend([name, &out].concat());
    }
    assert!(placed > 50, "{placed} placed");
    let told = std::fs::read(cases.join("stdout")).expect("the listings");
    assert!(all == told, "the listings differ from the file");
}

#[test]
fn generated_runs() {
    let (mut placed, mut blank, mut broken) = (0, 0, 0);
    let (mut joined, mut rings) = (0, 0);
    for seed in 40_000_000..40_010_000 {
        let _case = Case(seed);
        let mut random = Random::new(seed);
        let shape = random.pick(&SHAPES);
        let sheet = sheet(&mut random, shape, 0..=12);
        let mut text = typed(&mut random, &sheet);
        if random.once_in(2) {
            damage(&mut random, &mut text);
        }
        let out = printed(&text);
        assert_eq!(out, expected(&text), "{}", text.escape_ascii());
        assert!(!out.starts_with(b"refused,23,"), "no text gives 23");
        let shown = out.starts_with(b"place");
        let exact = read(&text).is_ok_and(|sheet| sheet.kind.contains(&EXACTLY));
        joined += usize::from(shown && exact);
        rings += usize::from(exact && out.starts_with(b"refused,9,"));
        placed += usize::from(shown);
        blank += usize::from(shown && leaves_blank(&text));
        broken += usize::from(shown && check_units(&text, &out));
    }
    println!("runs: {placed} placed of 10000, {blank} of them with a blank weight");
    assert!(placed > 3_000 && blank > 500);
    println!("with exact gaps: {joined} placed, {rings} refused with 9");
    assert!(joined > 1_000 && rings > 200);
    // so it is not by chance that the whole units meet every gap
    let teeth = format!("halves away from zero would break a gap on {broken} sheets of {placed}");
    println!("{teeth}");
    assert!(broken > 20, "{teeth}");
}
