//! Rows P1 to P12 of "Numbers to test on", and the edges of the layout's ranges.

use model::fault::{ControlFault, EntryFault, PlaceFault};
use model::layout::{
    Control, Entry, Mark, Place, capacity, lengths_permitted, slot_at, step_over, well_formed_place,
};

/// An end past every place of the table.
const FAR: usize = 8 * 512;

fn place(block: i32, offset: u16, deleted: bool, mark: Mark) -> Place {
    Place {
        block,
        offset,
        deleted,
        mark,
    }
}

#[test]
fn rows_p1_to_p8_are_the_entries() {
    let rows = [
        (3136, place(1, 64, false, Mark::New)),
        (2112, place(1, 64, false, Mark::Settled)),
        (-1472, place(1, 64, true, Mark::Changed)),
        (-960, place(1, 64, true, Mark::New)),
        (-1984, place(1, 64, true, Mark::Settled)),
        (4608, place(2, 0, false, Mark::Changed)),
    ];
    for (value, wanted) in rows {
        assert_eq!(
            Entry::decode(value, FAR),
            Ok(Entry::Place(wanted)),
            "{value}"
        );
        assert_eq!(wanted.encode(), value);
    }
    assert_eq!((-1472i32).to_le_bytes(), [0x40, 0xFA, 0xFF, 0xFF]);
    assert_eq!(Entry::decode(-2048, FAR), Ok(Entry::Gone));
    assert_eq!(
        Entry::decode(2560, FAR),
        Err(EntryFault::Place {
            value: 2560,
            fault: PlaceFault::BeforeFirst {
                block: 1,
                offset: 0
            }
        })
    );
}

#[test]
fn rows_p9_and_p10_are_the_stored_ends() {
    assert_eq!(step_over(64 + 434), 498);
    assert_eq!(step_over(64 + 436), 512);
}

#[test]
fn rows_p11_and_p12_are_the_slots() {
    assert_eq!(slot_at(127), 508);
    assert_eq!(slot_at(128), 516);
    assert_eq!(slot_at(1), 4);
}

#[test]
fn entry_0_and_both_marks_are_malformed() {
    assert_eq!(Entry::decode(0, FAR), Err(EntryFault::Unused));
    let value = 2048 + 64 + 512 + 1024;
    assert_eq!(
        Entry::decode(value, FAR),
        Err(EntryFault::BothMarks { value })
    );
    let value = -2048 + 64 + 512 + 1024;
    assert!(Entry::decode(value, FAR).is_err());
}

#[test]
fn the_quotient_is_rounded_toward_minus_infinity() {
    // Block 0 is no block: 1 to 2047 are malformed, and so is -1 = -1 x 2048 + 2047.
    for value in [1, 64, 2047, -1] {
        assert!(Entry::decode(value, FAR).is_err(), "{value}");
    }
    // -2047 = -1 x 2048 + 1: an odd offset. -1986 = -1 x 2048 + 62: before 64.
    assert!(Entry::decode(-2047, FAR).is_err());
    assert!(Entry::decode(-1986, FAR).is_err());
    // -4096 = -2 x 2048: block 2, offset 0, deleted, settled.
    assert_eq!(
        Entry::decode(-4096, FAR),
        Ok(Entry::Place(place(2, 0, true, Mark::Settled)))
    );
}

#[test]
fn the_extreme_entries_are_far_past_any_end() {
    assert!(Entry::decode(i32::MIN, FAR).is_err());
    assert!(Entry::decode(i32::MAX, FAR).is_err());
    let last = place(1_048_575, 0, false, Mark::Settled);
    let end = 1_048_575 * 512;
    assert_eq!(last.encode(), 1_048_575 * 2048);
    assert_eq!(Entry::decode(last.encode(), end), Ok(Entry::Place(last)));
    // Block 2^20, named by the lowest integer, has no 18 bytes before the longest MST's end.
    assert!(Entry::decode(i32::MIN, end).is_err());
}

#[test]
fn a_place_is_even_up_to_498_from_64_and_18_before_the_end() {
    assert_eq!(well_formed_place(1, 64, 82), Ok(64));
    assert!(well_formed_place(1, 64, 80).is_err());
    assert!(well_formed_place(1, 62, FAR).is_err());
    assert!(well_formed_place(1, 65, FAR).is_err());
    assert_eq!(well_formed_place(1, 498, FAR), Ok(498));
    assert!(well_formed_place(1, 500, FAR).is_err());
    assert!(well_formed_place(1, 512, FAR).is_err());
    assert_eq!(well_formed_place(2, 0, 530), Ok(512));
    assert!(well_formed_place(2, 0, 528).is_err());
    assert!(well_formed_place(0, 498, FAR).is_err());
    assert!(well_formed_place(-1, 64, FAR).is_err());
    assert!(well_formed_place(i32::MAX, 64, FAR).is_err());
    assert!(well_formed_place(i32::MIN, 64, FAR).is_err());
}

#[test]
fn permitted_lengths_are_whole_blocks_in_range() {
    let (mst, xrf) = (512, 512);
    assert!(lengths_permitted(mst, xrf));
    assert!(lengths_permitted(1_048_575 * 512, 4_096 * 512));
    for bad in [0, 1, 511, 513, 1_048_576 * 512, usize::MAX] {
        assert!(!lengths_permitted(bad, xrf), "MST {bad}");
    }
    for bad in [0, 1, 511, 513, 4_097 * 512] {
        assert!(!lengths_permitted(mst, bad), "XRF {bad}");
    }
    assert_eq!(capacity(512), 127);
    assert_eq!(capacity(4_096 * 512), 520_192);
}

/// A control record by its integers.
fn control(ctlmfn: i32, nxtmfn: i32, nxtmfb: i32, nxtmfp: u16, mftype: u16) -> Vec<u8> {
    let mut mst = vec![0xEE; 1024];
    mst[0..4].copy_from_slice(&ctlmfn.to_le_bytes());
    mst[4..8].copy_from_slice(&nxtmfn.to_le_bytes());
    mst[8..12].copy_from_slice(&nxtmfb.to_le_bytes());
    mst[12..14].copy_from_slice(&nxtmfp.to_le_bytes());
    mst[14..16].copy_from_slice(&mftype.to_le_bytes());
    mst
}

/// The edges of a control record whose NXTMFP counts the offset from a number.
fn edges(read: fn(&[u8], usize) -> Result<Control, ControlFault>, from: u16) {
    let end = |nxtmfn: i32, nxtmfb: i32, nxtmfp: u16| {
        let mst = control(0, nxtmfn, nxtmfb, nxtmfp, 0);
        read(&mst, 512).map(|control| (control.next_mfn, control.end))
    };
    let first = 64 + from;
    assert_eq!(end(1, 1, first), Ok((1, 64)));
    assert_eq!(end(128, 1, 498 + from), Ok((128, 498)));
    assert_eq!(end(128, 2, from), Ok((128, 512)));
    assert_eq!(end(7, 3, from), Ok((7, 1024)));
    let bad = [
        control(1, 1, 1, first, 0),
        control(-1, 1, 1, first, 0),
        control(0, 0, 1, first, 0),
        control(0, -1, 1, first, 0),
        control(0, 129, 1, first, 0),
        control(0, i32::MAX, 1, first, 0),
        control(0, 1, 1, first - 2, 0),
        control(0, 1, 1, first + 1, 0),
        control(0, 1, 1, 500 + from, 0),
        control(0, 1, 1, 512 + from, 0),
        control(0, 1, 0, first, 0),
        control(0, 1, -1, first, 0),
        control(0, 1, 3, 2 + from, 0),
        control(0, 1, 4, from, 0),
        control(0, 1, i32::MAX, first, 0),
        control(0, 1, i32::MIN, first, 0),
        control(0, 1, 1, first, 1),
        control(0, 1, 1, first, 0x8000),
    ];
    for (i, mst) in bad.into_iter().enumerate() {
        assert!(read(&mst, 512).is_err(), "control record {i}");
    }
}

#[test]
fn the_control_record_has_these_edges() {
    edges(Control::read, 1);
}

#[test]
fn the_old_rule_has_the_same_edges_counted_from_0() {
    edges(Control::read_old, 0);
}

/// NXTMFP is odd and at most 499; by the old rule it was even and at most 498. Of all its
/// values none is right by both, and block 2 makes every offset one of an MST of two blocks.
#[test]
fn no_nxtmfp_is_right_by_both_rules() {
    for count in 0..=u16::MAX {
        let mst = control(0, 1, 2, count, 0);
        let today = Control::read(&mst, 512).is_ok();
        assert_eq!(today, count % 2 == 1 && count <= 499, "NXTMFP {count}");
        let old = Control::read_old(&mst, 512).is_ok();
        assert_eq!(old, count % 2 == 0 && count <= 498, "NXTMFP {count}");
    }
}
