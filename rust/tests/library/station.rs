//! The station program as it is run: a failed read is no short sheet, and a failed write is told. The exit status is 0
//! each time, and a failure is told on standard error alone.
use crate::sheet::file;
use std::fs::File;
use std::io::Write;
use std::os::fd::OwnedFd;
use std::os::unix::net::UnixStream;
use std::path::Path;
use std::process::{Child, Command, Stdio};
use std::thread::sleep;
use std::time::Duration;

const SHEET: &[u8] = b"label,0,0,1\r\nlabel,1,3,1\r\ngap,0,1,6\r\n";
const LISTING: &str = "place,0,-3,2,-1\r\nplace,1,9,2,5\r\nslack,0,0,1\r\n";
const UNREAD: &str = "station: the sheet could not be read\n";
const UNWRITTEN: &str = "station: the listing could not be written\n";

/// Starts the program, which `tools/build` proves and builds.
fn start(input: Stdio, output: Stdio) -> Child {
    let program = Path::new(env!("CARGO_MANIFEST_DIR")).join("../target/bin/station");
    Command::new(program)
        .stdin(input)
        .stdout(output)
        .stderr(Stdio::piped())
        .spawn()
        .expect("target/bin/station, which tools/build makes")
}

/// Holds what a run wrote to its standard output and its standard error.
fn ends(program: Child, output: &str, errors: &str) {
    let done = program.wait_with_output().expect("its output");
    assert_eq!(String::from_utf8_lossy(&done.stdout), output);
    assert_eq!(String::from_utf8_lossy(&done.stderr), errors);
    assert_eq!(done.status.code(), Some(0));
}

/// Runs the program on pieces of a text that come one after another.
fn fed(pieces: &[&[u8]], output: &str) {
    let mut program = start(Stdio::piped(), Stdio::piped());
    let mut input = program.stdin.take().expect("its input");
    for (at, piece) in pieces.iter().enumerate() {
        if at > 0 {
            sleep(Duration::from_millis(100));
        }
        input.write_all(piece).expect("a text that is read whole");
    }
    drop(input);
    ends(program, output, "");
}

#[test]
fn a_sheet_is_listed() {
    fed(&[SHEET], LISTING);
    fed(&[], "");
}

/// Slacks above zero, and as many labels and gaps as a sheet holds.
#[test]
fn slacks_are_listed() {
    fed(
        &[&file("nearly-touching.csv")],
        "place,0,-8,3,-3\r\nplace,1,7,3,2\r\nplace,2,77,2,39\r\nplace,3,85,2,43\r\n\
         slack,0,0,1\r\nslack,1,0,1\r\nslack,2,37,6\r\n",
    );
    let (mut text, mut listing) = (String::new(), String::new());
    for i in 0..48 {
        text += &format!("label,{i},{},1\n", 100 * i);
        listing += &format!("place,{i},{0},1,{0}\r\n", 100 * i);
    }
    for e in 0..192 {
        let left = e % 46;
        text += &format!("gap,{left},{},{e}\n", left + 1 + e / 100);
        listing += &format!("slack,{e},{},1\r\n", 100 * (1 + e / 100) - e);
    }
    fed(&[text.as_bytes()], &listing);
}

/// Document 02, Item 3: a blank weight counts ten.
#[test]
fn mixed_weights_are_listed() {
    fed(
        &[&file("mixed-weights.csv")],
        "place,0,-1,1,-1\r\nplace,1,21,1,21\r\nslack,0,0,1\r\n",
    );
}

/// Document 02, Item 4: halves go to the larger number.
#[test]
fn crossing_labels_are_listed() {
    fed(
        &[&file("crossing.csv")],
        "place,0,1,2,1\r\nplace,1,-1,2,0\r\nslack,0,0,1\r\n",
    );
}

/// Document 02, Item 6: the parts of each marker stand 240 apart, in whole units too.
#[test]
fn two_part_markers_are_listed() {
    fed(
        &[&file("two-part-markers.csv")],
        "place,0,5,1,5\r\nplace,1,245,1,245\r\nplace,2,515,1,515\r\nplace,3,755,1,755\r\n\
         place,4,2635,2,1318\r\nplace,5,3115,2,1558\r\n\
         slack,0,0,1\r\nslack,1,0,1\r\nslack,2,0,1\r\nslack,3,585,2\r\nslack,4,0,1\r\n",
    );
    fed(
        &[b"label,0,0,1\r\nlabel,1,10,1\r\nsame,0,1,6\r\n"],
        "place,0,2,1,2\r\nplace,1,8,1,8\r\nslack,0,0,1\r\n",
    );
    fed(
        &[b"label,0,0,1\r\nlabel,1,0,1\r\nsame,0,1,5\r\ngap,0,1,6\r\n"],
        "refused,9,0,0\r\n",
    );
    fed(&[b"same,0,1,6\r\nSame,0,1,6\r\n"], "refused,13,2,1\r\n");
}

/// Document 02, Item 7: a revision of the markers above; no want goes down, and no place does.
#[test]
fn a_revision_is_listed() {
    fed(
        &[&file("two-part-markers-revised.csv")],
        "place,0,10,1,10\r\nplace,1,250,1,250\r\nplace,2,560,1,560\r\nplace,3,800,1,800\r\n\
         place,4,2635,2,1318\r\nplace,5,3115,2,1558\r\n\
         slack,0,0,1\r\nslack,1,40,1\r\nslack,2,0,1\r\nslack,3,495,2\r\nslack,4,0,1\r\n",
    );
}

/// Document 02, Item 5: the line and its bad field; a ring has neither.
#[test]
fn bad_fields_are_told() {
    fed(&[&file("typing-slip.csv")], "refused,14,5,4\r\n");
    fed(&[b"label,0,0,1\r\nring,0,0,1\r\n"], "refused,13,2,1\r\n");
    fed(
        &[b"label,0,0,1\r\nlabel,5,0,1\r\nx\r\n"],
        "refused,15,2,2\r\n",
    );
    fed(&[&file("ring.csv")], "refused,9,0,0\r\n");
}

#[test]
fn a_short_read_is_no_end() {
    let (first, second) = SHEET.split_at(20);
    fed(&[first, second], LISTING);
    fed(&[first, &second[..1], &second[1..]], LISTING);
}

#[test]
fn a_long_text_is_refused() {
    // as many bytes as a text may have, and one more
    fed(&[&[b'\n'; 16_384]], "refused,10,1,0\r\n");
    fed(&[&[b'\n'; 16_385]], "refused,11,0,0\r\n");
}

#[test]
fn a_directory_cannot_be_read() {
    let folder = File::open(env!("CARGO_MANIFEST_DIR")).expect("the package's folder");
    ends(start(folder.into(), Stdio::piped()), "", UNREAD);
}

/// The first read gets a piece that is a sheet of its own; the second would have to wait, which this socket answers
/// with an error.
#[test]
fn half_a_sheet_is_not_listed() {
    let (mut feeder, input) = UnixStream::pair().expect("two joined sockets");
    input.set_nonblocking(true).expect("reads that do not wait");
    feeder.write_all(b"label,0,0,1\r\n").expect("half a sheet");
    let program = start(OwnedFd::from(input).into(), Stdio::piped());
    ends(program, "", UNREAD);
    drop(feeder);
}

#[test]
fn a_full_device_takes_no_listing() {
    let full = File::options()
        .write(true)
        .open("/dev/full")
        .expect("/dev/full");
    let mut program = start(Stdio::piped(), full.into());
    let mut input = program.stdin.take().expect("its input");
    input.write_all(SHEET).expect("a text that is read whole");
    drop(input);
    ends(program, "", UNWRITTEN);
}
