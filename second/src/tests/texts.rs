//! The text reader: 12, 15, 16 and 2 with their places, and the step buffer.

use crate::log::Refusal;
use crate::report::report;
use crate::text::{read, BUFFER, BYTES};

const BEGIN: &str = "op=begin tx=1 obj=0 from=0\n";

fn answer(text: &[u8]) -> String {
    match read(text, &mut [0; BUFFER]) {
        Ok(_) => "ok".to_string(),
        Err(Refusal { number, place }) => format!("{number} at {place}"),
    }
}

const TEXTS: [(&[u8], &str); 32] = [
    (b"steps=1025", "16 at 0"),
    (b"steps=1025 \n", "16 at 0"),
    (b"steps=1025\r\n", "16 at 0"),
    (b"steps=1025\nanything", "2 at 0"),
    (b"steps=65535\n", "2 at 0"),
    (b"steps=01025\n", "16 at 0"),
    (b"steps=65536\n", "16 at 0"),
    (b"steps=2\nop=begin tx=1 obj=0 from=0", "16 at 1"),
    (b"steps=2\nop=begin tx=1 obj=0 from=0\n", "16 at 2"),
    (b"steps=1\nop=begin tx=1 obj=0 from=0", "16 at 1"),
    (b"steps=0", "16 at 0"),
    (b"", "16 at 0"),
    (b"\n", "16 at 0"),
    (b"steps=1\nop=begin tx=1 obj=0 from=0x\n", "16 at 1"),
    (b"steps=1\nop=begin tx=1 obj=0 from=0\r\n", "16 at 1"),
    (b"steps=1\nop=begin tx=1 obj=0 from=0\nx", "16 at 2"),
    (b"steps=0\n\n", "16 at 1"),
    (b"steps=18446744073709551617\n", "16 at 0"),
    (b"steps=1\nop=begin tx=65537 obj=0 from=0\n", "16 at 1"),
    (b"steps=1\nop=begin tx=65535 obj=0 from=0\n", "ok"),
    (b"steps=1\nop=begin tx=65536 obj=0 from=0\n", "16 at 1"),
    (b"steps=00\n", "16 at 0"),
    (b"steps=-0\n", "16 at 0"),
    (b"steps=+1\n", "16 at 0"),
    (b"steps=\n", "16 at 0"),
    (b"steps=1\nop=begin tx=01 obj=0 from=0\n", "16 at 1"),
    (b"steps=1\nop=begin  tx=1 obj=0 from=0\n", "16 at 1"),
    (b"steps=1\nop=begin tx=1 obj=0 from=0 \n", "16 at 1"),
    (b"steps=1\nop=begin obj=0 tx=1 from=0\n", "16 at 1"),
    (b"steps=1\nop=start tx=1 obj=0 from=0\n", "16 at 1"),
    (b"steps=1\nop=begin tx=1 obj=0\n", "16 at 1"),
    (b"steps=1\n\xff\xfe\0\n", "16 at 1"),
];

#[test]
fn places() {
    for (text, expected) in TEXTS {
        assert_eq!(answer(text), expected, "{}", String::from_utf8_lossy(text));
    }
}

#[test]
fn lengths() {
    let mut text = b"steps=1025\n".to_vec();
    text.resize(BYTES, b'x');
    assert_eq!(answer(&text), "2 at 0");
    text.push(b'x');
    assert_eq!(answer(&text), "15 at 0");
    assert_eq!(BYTES, "steps=1024\n".len() + 1024 * 33);
    assert_eq!("op=commit tx=128 obj=63 from=128\n".len(), 33);
    let long = "op=commit tx=65535 obj=65535 from=65535\n".repeat(900);
    assert_eq!(answer(format!("steps=900\n{long}").as_bytes()), "15 at 0");
}

/// The reader is done before the log is checked.
#[test]
fn text_before_log() {
    let text = format!("steps=2\nop=begin tx=0 obj=0 from=0\n{}", &BEGIN[1..]);
    assert_eq!(report(text.as_bytes()), "refused=16 at=2\n");
    let text = "steps=1\nop=begin tx=0 obj=0 from=0\n";
    assert_eq!(report(text.as_bytes()), "refused=4 at=0\n");
}

/// A line left out in the middle: the later lines move up.
#[test]
fn missing_line() {
    let text = format!("steps=4\n{}", BEGIN.repeat(3));
    assert_eq!(answer(text.as_bytes()), "16 at 4");
}

#[test]
fn step_buffer() {
    let text = format!("steps=1\n{BEGIN}");
    let mut buffer = vec![7; BUFFER];
    assert_eq!(read(text.as_bytes(), &mut buffer), Ok(1));
    assert_eq!(buffer[..4], [1, 1, 0, 0]);
    assert!(buffer[4..].iter().all(|&n| n == 0));
    buffer.fill(7);
    let refused = format!("steps=2\n{BEGIN}x");
    assert_eq!(
        read(refused.as_bytes(), &mut buffer),
        Err(Refusal {
            number: 16,
            place: 2
        })
    );
    assert!(buffer.iter().all(|&n| n == 7));
    for length in [0, BUFFER - 1, BUFFER + 1] {
        let wrong = read(b"", &mut vec![0; length]);
        assert_eq!(
            wrong,
            Err(Refusal {
                number: 12,
                place: 0
            })
        );
    }
}
