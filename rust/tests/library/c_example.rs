//! Programs in C are compiled with the header and the static library and run: the example on texts, and the calls over
//! single fractions.
use crate::sheet::{file, labels_text};
use std::fs::File;
use std::io::Write;
use std::path::{Path, PathBuf};
use std::process::{Command, Stdio};

/// Compiles a program of the tests' folder to a file beside this test.
fn compile(name: &str) -> PathBuf {
    let package = Path::new(env!("CARGO_MANIFEST_DIR"));
    let test = std::env::current_exe().expect("the test's own path");
    let program = test.with_file_name(format!("dirmoog_{name}"));
    let compiled = Command::new("cc")
        .args([
            "-std=c99",
            "-O1",
            "-Wall",
            "-Wextra",
            "-Werror",
            "-pedantic",
            "-I",
        ])
        .arg(package.join("../include"))
        .arg(package.join(format!("tests/{name}.c")))
        .arg(Path::new(env!("DIRMOOG_LIB")).join("libdirmoog_c.a"))
        .arg("-o")
        .arg(&program)
        .status()
        .expect("a C compiler, cc");
    assert!(compiled.success());
    program
}

/// What the example prints for a text.
fn printed(program: &Path, text: &[u8]) -> String {
    let mut child = Command::new(program)
        .stdin(Stdio::piped())
        .stdout(Stdio::piped())
        .spawn()
        .expect("the example");
    let mut input = child.stdin.take().expect("its input");
    input.write_all(text).expect("a text that is read whole");
    drop(input);
    let done = child.wait_with_output().expect("its output");
    assert!(done.status.success());
    String::from_utf8(done.stdout).expect("a listing")
}

#[test]
fn runs() {
    let program = compile("c_example");
    let run = b"label,0,0,1\r\nlabel,1,3,1\r\ngap,0,1,6\r\n";
    assert_eq!(
        printed(&program, run),
        "place,0,-3,2,-1\r\nplace,1,9,2,5\r\nslack,0,0,1\r\n"
    );
    let spare = b"label,0,0,\nlabel,1,9,\ngap,0,1,6\ngap,1,0,-9";
    assert_eq!(
        printed(&program, spare),
        "place,0,0,1,0\r\nplace,1,9,1,9\r\nslack,0,3,1\r\nslack,1,0,1\r\n"
    );
    let ring = b"label,0,0,\nlabel,1,0,\ngap,0,1,5\ngap,1,0,-4\n";
    assert_eq!(printed(&program, ring), "refused,9,0,0\r\n");
    let mixed = b"label,0,0,\nlabel,1,11,1\ngap,0,1,22\n";
    assert_eq!(
        printed(&program, mixed),
        "place,0,-1,1,-1\r\nplace,1,21,1,21\r\nslack,0,0,1\r\n"
    );
    let crossing = b"label,0,2,1\nlabel,1,-2,1\ngap,0,1,-1\n";
    assert_eq!(
        printed(&program, crossing),
        "place,0,1,2,1\r\nplace,1,-1,2,0\r\nslack,0,0,1\r\n"
    );
    let joined = b"label,0,0,1\nlabel,1,10,1\nsame,0,1,6\n";
    assert_eq!(
        printed(&program, joined),
        "place,0,2,1,2\r\nplace,1,8,1,8\r\nslack,0,0,1\r\n"
    );
    let contradiction = b"label,0,0,1\nlabel,1,0,1\nsame,0,1,5\ngap,0,1,6\n";
    assert_eq!(printed(&program, contradiction), "refused,9,0,0\r\n");
    assert_eq!(printed(&program, b"label,0,0,0"), "refused,6,0,0\r\n");
    assert_eq!(printed(&program, b""), "");
    bad_texts(&program);
    fails(&program);
}

/// Document 02, Item 5: the line and its bad field.
fn bad_texts(program: &Path) {
    for (text, record) in [
        (&b"label,0,0,1\n\n"[..], "refused,10,2,0\r\n"),
        (b"label,0,0,1\nGap,0,0,1\n", "refused,13,2,1\r\n"),
        (b"label,0,0,1\nSame,0,0,1\n", "refused,13,2,1\r\n"),
        (b"label,-0,0,1\n", "refused,14,1,2\r\n"),
        (b"label,0,+5,1\n", "refused,14,1,3\r\n"),
        (b"label,7,0,x\n", "refused,14,1,4\r\n"),
        (b"label,0,0,1\nlabel,5,0,1\nx", "refused,15,2,2\r\n"),
        (&[b'\n'; 16_385], "refused,11,0,0\r\n"),
    ] {
        assert_eq!(printed(program, text), record);
    }
    let slip = file("typing-slip.csv");
    assert_eq!(printed(program, &slip), "refused,14,5,4\r\n");
    let beyond = labels_text(49) + "x,0,0,1\n";
    assert_eq!(printed(program, beyond.as_bytes()), "refused,13,50,1\r\n");
}

/// A directory cannot be read, and a full device takes no listing.
fn fails(program: &Path) {
    let folder = File::open(env!("CARGO_MANIFEST_DIR")).expect("the package's folder");
    let unread = Command::new(program).stdin(folder).output().expect("a run");
    assert_eq!((unread.status.code(), unread.stdout), (Some(1), vec![]));
    let full = File::options().write(true).open("/dev/full");
    let sheet = File::open(concat!(
        env!("CARGO_MANIFEST_DIR"),
        "/../sheets/document-01.csv"
    ));
    let unwritten = Command::new(program)
        .stdin(sheet.expect("the sheet"))
        .stdout(full.expect("/dev/full"))
        .status();
    assert_eq!(unwritten.expect("a run").code(), Some(1));
}

/// What the program over single fractions prints for a call and its numbers: what it returns, and two entries.
fn fraction_call(program: &Path, call: &str, numbers: &[i64]) -> String {
    let words = numbers.iter().map(i64::to_string);
    let mut run = Command::new(program);
    let done = run.arg(call).args(words).output().expect("a run");
    assert!(done.status.success());
    String::from_utf8(done.stdout).expect("three numbers")
}

#[test]
fn single_fractions() {
    let program = compile("c_fractions");
    for (call, numbers, told) in [
        ("round", &[-3, 2][..], "0 -2 77\n"),
        ("round", &[1, 4_801], "12 0 77\n"),
        ("round_half_up", &[-3, 2], "0 -1 77\n"),
        ("round_half_up", &[-1, 2], "0 0 77\n"),
        ("round_half_up", &[9, 2], "0 5 77\n"),
        ("round_half_up", &[1, 4_801], "12 0 77\n"),
        ("round_half_up", &[i64::MIN; 2], "12 0 77\n"),
        ("slack", &[1, 2, 1, 3, 0], "0 -1 6\n"),
        ("slack", &[1, 3, 1, 2, 0], "0 1 6\n"),
        ("slack", &[1, 2, 10, 3, 2], "0 5 6\n"),
        ("slack", &[1, 0, 1, 1, 30_000], "12 0 1\n"),
        ("slack", &[1, 1, 1, 0, 30_000], "12 0 1\n"),
        ("slack", &[0, 1, 0, 1, 20_001], "8 0 1\n"),
        ("slack", &[i64::MIN; 5], "12 0 1\n"),
    ] {
        let said = fraction_call(&program, call, numbers);
        assert_eq!(said, told, "{call} of {numbers:?}");
    }
}
