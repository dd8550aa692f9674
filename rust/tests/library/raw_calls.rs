//! Lists for the answer that are shorter or longer than needed: what fits is told, and the entries beyond stay.
use crate::sheet::labels_text;
use dirmoog::raw;

/// A sheet of two labels and two gaps, the second with a distance and a kind that decide how it comes out.
fn layout(distance: i64, kind: u8, out: &mut [u64]) -> u64 {
    let (wanted, weight, left, right) = ([0i64; 2], [1i64; 2], [0u64, 1], [1u64, 0]);
    let (distance, kind) = ([5, distance], [0, kind]);
    let (mut carried, mut ring, mut back) = ([0u8; 2], [0u64; 2], [0u8; 2]);
    let mut room = [[0i64; 2]; 4];
    let [place_num, place_den, mult_num, mult_den] = &mut room;
    // SAFETY: each pointer is that of a list of the length given.
    unsafe {
        raw::dirmoog_layout(
            wanted.as_ptr(),
            2,
            weight.as_ptr(),
            2,
            left.as_ptr(),
            2,
            right.as_ptr(),
            2,
            distance.as_ptr(),
            2,
            kind.as_ptr(),
            2,
            carried.as_mut_ptr(),
            2,
            place_num.as_mut_ptr(),
            2,
            place_den.as_mut_ptr(),
            2,
            mult_num.as_mut_ptr(),
            2,
            mult_den.as_mut_ptr(),
            2,
            ring.as_mut_ptr(),
            2,
            back.as_mut_ptr(),
            2,
            out.as_mut_ptr(),
            out.len(),
        )
    }
}

/// What a layout tells in a list of so many entries, each of which was 77.
fn told(distance: i64, kind: u8, entries: usize) -> (u64, Vec<u64>) {
    let mut out = vec![77; entries];
    (layout(distance, kind, &mut out), out)
}

#[test]
fn layout_tells_what_fits() {
    // placed; a ring of both gaps; a bad gap at 1; a kind at 1 that is neither
    for (distance, kind, number, place, ring) in [
        (-5, 0, 0, 0, 0),
        (-5, 1, 0, 0, 0),
        (-4, 0, 9, 0, 2),
        (-4, 1, 9, 0, 2),
        (20_001, 2, 8, 1, 0),
        (-4, 2, 23, 1, 0),
    ] {
        assert_eq!(told(distance, kind, 0), (number, vec![]));
        assert_eq!(told(distance, kind, 1), (number, vec![place]));
        assert_eq!(told(distance, kind, 2), (number, vec![place, ring]));
        assert_eq!(told(distance, kind, 4), (number, vec![place, ring, 77, 77]));
    }
}

/// Checks what a rounding returns, and what it tells in lists of none, one and two entries, each of which was 77.
fn rounding_tells_what_fits(
    rounding: unsafe extern "C" fn(i64, i64, *mut i64, usize) -> u64,
    (num, den): (i64, i64),
    (number, whole): (u64, i64),
) {
    for entries in 0..3 {
        let mut out = vec![77; entries];
        let mut expected = out.clone();
        expected.iter_mut().take(1).for_each(|first| *first = whole);
        // SAFETY: the pointer is that of a list of the length given.
        let answer = unsafe { rounding(num, den, out.as_mut_ptr(), entries) };
        assert_eq!((answer, out), (number, expected));
    }
}

#[test]
fn roundings_tell_what_fits() {
    rounding_tells_what_fits(raw::dirmoog_round, (-3, 2), (0, -2));
    rounding_tells_what_fits(raw::dirmoog_round, (1, 0), (12, 0));
    rounding_tells_what_fits(raw::dirmoog_round_half_up, (-3, 2), (0, -1));
    rounding_tells_what_fits(raw::dirmoog_round_half_up, (1, 0), (12, 0));
}

#[test]
fn slack_tells_what_fits() {
    // 1/2, 1/3 and 0; a place of 1/0; a distance of 20,001
    for (den, distance, number, slack) in [
        (2, 0, 0, [-1, 6]),
        (0, 0, 12, [0, 1]),
        (2, 20_001, 8, [0, 1]),
    ] {
        for entries in 0..4 {
            let mut out = vec![77; entries];
            let mut expected = out.clone();
            expected.iter_mut().zip(slack).for_each(|(e, s)| *e = s);
            // SAFETY: the pointer is that of a list of the length given.
            let answer =
                unsafe { raw::dirmoog_slack(1, den, 1, 3, distance, out.as_mut_ptr(), entries) };
            assert_eq!((answer, out), (number, expected));
        }
    }
}

/// Reads a text into lists of one entry each.
fn read(text: &[u8], out: &mut [u64]) -> u64 {
    let (mut labels, mut ends) = ([[0i64; 1]; 2], [[0u64; 1]; 2]);
    let ([wanted, weight], [left, right]) = (&mut labels, &mut ends);
    let (mut distance, mut kind) = ([0i64; 1], [0u8; 1]);
    // SAFETY: each pointer is that of a list of the length given.
    unsafe {
        raw::dirmoog_read(
            text.as_ptr(),
            text.len(),
            wanted.as_mut_ptr(),
            1,
            weight.as_mut_ptr(),
            1,
            left.as_mut_ptr(),
            1,
            right.as_mut_ptr(),
            1,
            distance.as_mut_ptr(),
            1,
            kind.as_mut_ptr(),
            1,
            out.as_mut_ptr(),
            out.len(),
        )
    }
}

/// A sheet tells its counts of labels and gaps, a refused text its place and its field.
#[test]
fn read_tells_what_fits() {
    let labels = labels_text(49);
    for (text, number, told) in [
        (&b"label,0,7,\ngap,0,0,0\n"[..], 0, [1, 1]),
        (b"label,0,7,\nsame,0,0,0\n", 0, [1, 1]),
        (b"", 0, [0, 0]),
        (b"gap,0,0,0\ngap,0,0\n", 10, [2, 0]),
        (b"gap,0,0,0\n\ngap,0,0,0\n", 10, [2, 0]),
        (b"Gap,0,0,0\n", 13, [1, 1]),
        (b"same,0,0,0\nsame ,0,0,0\n", 13, [2, 1]),
        (b"same,0,0,x\n", 14, [1, 4]),
        (b"gap,0,0,0\nlabel,x,0,1\n", 14, [2, 2]),
        (b"label,0,7,\ngap,0,-1,0\n", 14, [2, 3]),
        (b"label,0,7,\ngap,0,0,0\nlabel,7,0,x\n", 14, [3, 4]),
        (b"gap,0,0,0\ngap,0,0,0\nlabel,1,0,1\n", 15, [3, 2]),
        (b"gap,0,0,0\ngap,0,0,0\n", 4, [0, 0]),
        (b"same,0,0,0\nsame,0,0,0\n", 4, [0, 0]),
        (labels.as_bytes(), 1, [0, 0]),
        (&b"gap,0,0,0\n".repeat(193), 2, [0, 0]),
        (&[b'x'; 16_385], 11, [0, 0]),
    ] {
        for entries in 0..4 {
            let mut out = vec![77; entries];
            let mut expected = out.clone();
            expected.iter_mut().zip(told).for_each(|(e, t)| *e = t);
            assert_eq!((read(text, &mut out), out), (number, expected));
        }
    }
}

/// Lists a label at 1/2 with a gap to itself, or a refusal: its number, its place and its field.
fn listing(answer: [u64; 3], text: &mut [u8], out: &mut [u64]) -> u64 {
    let [number, place, field] = answer;
    let (num, den, end, distance) = ([1i64], [2i64], [0u64], [-4i64]);
    // SAFETY: each pointer is that of a list of the length given.
    unsafe {
        raw::dirmoog_listing(
            number,
            place,
            field,
            num.as_ptr(),
            1,
            den.as_ptr(),
            1,
            end.as_ptr(),
            1,
            end.as_ptr(),
            1,
            distance.as_ptr(),
            1,
            text.as_mut_ptr(),
            text.len(),
            out.as_mut_ptr(),
            out.len(),
        )
    }
}

#[test]
fn listing_tells_what_fits() {
    let (placed, ring) = (b"place,0,1,2,1\r\nslack,0,4,1\r\n", b"refused,9,0,0\r\n");
    // placed whatever place and field are, refusals with the field as it is told, and buffers that are too short
    for (answer, room, told, text) in [
        ([0, 5, 4], 30, (0, 28), &placed[..]),
        ([9, 0, 0], 30, (0, 15), &ring[..]),
        ([10, 31, 0], 30, (0, 17), b"refused,10,31,0\r\n"),
        ([13, 1, 1], 30, (0, 16), b"refused,13,1,1\r\n"),
        ([14, 31, 4], 30, (0, 17), b"refused,14,31,4\r\n"),
        (
            [15, 2, 1 << 63],
            34,
            (0, 34),
            b"refused,15,2,9223372036854775808\r\n",
        ),
        ([16, 31, 7], 30, (0, 17), b"refused,16,31,7\r\n"),
        ([23, 5, 0], 30, (0, 16), b"refused,23,5,0\r\n"),
        ([0, 5, 4], 27, (4, 0), b""),
        ([9, 0, 2], 14, (4, 0), b""),
        ([14, 31, 4], 16, (4, 0), b""),
    ] {
        for entries in 0..3 {
            let (mut written, mut out) = (vec![77u8; room], vec![77u64; entries]);
            let mut expected = out.clone();
            expected
                .iter_mut()
                .take(1)
                .for_each(|first| *first = told.1);
            let number = listing(answer, &mut written, &mut out);
            assert_eq!((number, out), (told.0, expected));
            assert_eq!(written[..text.len()], *text);
            assert!(written[text.len()..].iter().all(|&byte| byte == 77));
        }
    }
}

/// Lists of these lengths are refused with 1, 2 or 3: 0 bytes are told, and the text stays.
#[test]
fn refused_listing_tells_what_fits() {
    for (lengths, number) in [
        ([49, 49, 0, 0, 0], 1),
        ([1, 1, 193, 193, 193], 2),
        ([1, 2, 1, 1, 1], 3),
        ([1, 1, 1, 0, 1], 3),
        ([1, 1, 1, 1, 2], 3),
    ] {
        let [nums, dens, lefts, rights, distances] = lengths;
        let (num, den, distance) = (vec![1i64; nums], vec![1i64; dens], vec![0i64; distances]);
        let (left, right) = (vec![0u64; lefts], vec![0u64; rights]);
        for entries in 0..3 {
            let (mut text, mut out) = ([77u8; 9], vec![77u64; entries]);
            let expected = [0, 77, 77][..entries].to_vec();
            // SAFETY: each pointer is that of a list of the length given.
            let answer = unsafe {
                raw::dirmoog_listing(
                    0,
                    0,
                    0,
                    num.as_ptr(),
                    nums,
                    den.as_ptr(),
                    dens,
                    left.as_ptr(),
                    lefts,
                    right.as_ptr(),
                    rights,
                    distance.as_ptr(),
                    distances,
                    text.as_mut_ptr(),
                    text.len(),
                    out.as_mut_ptr(),
                    out.len(),
                )
            };
            assert_eq!((answer, out, text), (number, expected, [77; 9]));
        }
    }
}
