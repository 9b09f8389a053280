//! The record test: what is broken comes through the wrapper, and C's output is set by every call.

use isis::{Broken, Card, Refusal, raw, record_test};

/// The address of the first record.
const AT: usize = 64;

/// A card of one record with three fields, and its end.
fn card() -> (Vec<u8>, Vec<u8>, usize) {
    let (mut mst, mut xrf) = (vec![0; 512], vec![0; 512]);
    let mut card = Card::over(&mut mst, &mut xrf);
    card.format().unwrap();
    let fields = [(24, "Kite"), (70, "Hosseini"), (69, "novel")];
    assert_eq!(card.create(fields), Ok(1));
    let end = card.next().unwrap().end;
    (mst, xrf, end)
}

/// Where the TAG of an entry stands, which counts from 1; POS and LEN stand behind it.
fn tag(entry: usize) -> usize {
    AT + 12 + 6 * entry
}

#[test]
fn what_is_broken_comes_through() {
    let (mst, _, end) = card();
    assert_eq!(record_test(&mst[AT..end], 1, false), Ok(()));
    assert_eq!(record_test(&mst[AT..], 1, false), Ok(()));
    assert_eq!(record_test(&mst[AT..end], 1, true), Err(Broken::Leader));
    assert_eq!(record_test(&mst[AT..end], 2, false), Err(Broken::Leader));
    assert_eq!(
        record_test(&mst[AT..end - 2], 1, false),
        Err(Broken::Leader)
    );
    assert_eq!(record_test(&[], 1, false), Err(Broken::Leader));
    for entry in 1..=3 {
        for (at, byte) in [(0, 0), (2, 99), (4, 99)] {
            let mut mst = mst.clone();
            mst[tag(entry) + at] = byte;
            let broken = record_test(&mst[AT..end], 1, false);
            assert_eq!(broken, Err(Broken::Entry(entry as u32)));
        }
    }
}

/// A call that names the MFN is refused with 8, and nothing is deleted from a record that is.
#[test]
fn the_calls_refuse_what_the_test_refuses() {
    let (mut mst, mut xrf, end) = card();
    mst[tag(2) + 2] += 1;
    let mut card = Card::over(&mut mst, &mut xrf);
    assert_eq!(card.state(1), Err(Refusal::BadRecord));
    assert_eq!(card.check(), Err(Refusal::NotSound));
    mst[tag(2) + 2] -= 1;
    card = Card::over(&mut mst, &mut xrf);
    card.delete(1).unwrap();
    assert_eq!(record_test(&mst[AT..end], 1, true), Ok(()));
    assert_eq!(record_test(&mst[AT..end], 1, false), Err(Broken::Leader));
}

#[test]
fn what_is_broken_has_words() {
    assert_eq!(Broken::Leader.to_string(), "the leader is not right");
    let words = Broken::Entry(3).to_string();
    assert_eq!(words, "directory entry 3 is not right");
}

/// The output is set by every call: to 0 but where an entry is broken. Anything but 0 asks for a
/// deleted record.
#[test]
fn the_entry_is_set_by_every_call() {
    let (mut mst, _, end) = card();
    let test = |mst: &[u8], len: usize, mfn: u32, deleted: u32| {
        let mut entry = 0xEEEE_EEEE;
        // SAFETY: `len` is at most what stands behind the record's first byte.
        let number =
            unsafe { raw::isis_record_test(mst[AT..].as_ptr(), len, mfn, deleted, &mut entry) };
        (number, entry)
    };
    assert_eq!(test(&mst, end - AT, 1, 0), (0, 0));
    assert_eq!(test(&mst, end - AT, 0, 0), (8, 0));
    assert_eq!(test(&mst, 0, 1, 0), (8, 0));
    mst[tag(3)] = 0;
    assert_eq!(test(&mst, end - AT, 1, 0), (8, 3));
    mst[tag(3)] = 69;
    mst[AT + 16] = 1;
    for deleted in [1, 2, 256, u32::MAX] {
        assert_eq!(test(&mst, end - AT, 1, deleted), (0, 0));
    }
    assert_eq!(test(&mst, end - AT, 1, 0), (8, 0));
}
