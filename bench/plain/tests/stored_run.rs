//! The five records told in `docs/SPEC.md`, and a text that a full shift stops.

use plain::frame::Frame;
use plain::matroid::Partition;
use plain::objective::Coverage;
use plain::picker::{Outcome, Picker, SHIFT};
use plain::refusal::Refusal;
use plain::text::Fault;

fn picker() -> Picker<Coverage, Partition> {
    let weights: Vec<u32> = (1..=64).collect();
    let coverage = Coverage::new(&weights).expect("good weights");
    let partition = Partition::new(&[1; 64]).expect("good caps");
    Picker::open(2, coverage, partition)
}

fn frame((frame, marks, lane): (u32, u64, u8)) -> Frame {
    Frame {
        frame,
        marks,
        lane,
        ..Frame::default()
    }
}

#[test]
fn stored_run() {
    let mut picker = picker();
    let frames = [(1, 3, 0), (2, 7, 0), (3, 4, 1), (4, 0x30, 0), (5, 4, 2)].map(frame);
    let outcomes = frames.map(|frame| picker.offer(&frame).expect("in range"));
    let light = Outcome::Light {
        place: 0,
        gain: 3,
        lost_to: 3,
    };
    let swapped = Outcome::Swapped {
        place: 0,
        gain: 11,
        left: frames[0],
    };
    let kept = |place| Outcome::Kept { place, gain: 3 };
    assert_eq!(outcomes, [kept(0), light, kept(1), swapped, Outcome::Empty]);
}

#[test]
fn full_shift() {
    let mut picker = picker();
    for _ in 0..SHIFT {
        assert!(picker.offer(&frame((1, 1, 0))).is_ok());
    }
    let text = b"frame=4\nmarks=0000000000000030\nlook=0\nlane=0\ntail=0\nhead=0\nside=0\n";
    let full = Fault {
        refusal: Refusal::ShiftFull,
        record: 1,
        line: 0,
        byte: 0,
    };
    assert_eq!(picker.offer_text(text), Err(full));
    assert_eq!(picker.offer(&frame((1, 1, 64))), Err(Refusal::TooHigh));
}
