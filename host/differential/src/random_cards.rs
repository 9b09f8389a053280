//! Random cards: any bytes, any length, and often just enough order in them that a call
//! goes on to the record.

use crate::damage::{live, near};
use crate::families::Family;
use crate::trial::{Run, Step};
use model::layout::{BLOCK, Control, PER_BLOCK, lengths_permitted, put_reccnt, slot_at};
use model::lists::{self, PLANTED, Taste};
use model::random::Random;

/// Cards of random bytes and any length, some with a control record and block numbers
/// that let a call go on to the rest.
#[derive(Debug, Default)]
pub struct RandomCards;

impl Family for RandomCards {
    fn card(&mut self, random: &mut Random) -> (Vec<u8>, Vec<u8>) {
        let lengths = [0, 1, 63, 64, 511, 512, 513, 1024, 1536, 2048, 4096, 4095];
        let (mst_len, xrf_len) = if random.one_in(4) {
            (random.pick(&lengths), random.pick(&lengths))
        } else {
            (random.between(1, 8) * BLOCK, random.between(1, 2) * BLOCK)
        };
        let (mut mst, mut xrf) = (vec![0; mst_len], vec![0; xrf_len]);
        if !random.one_in(8) {
            random.fill(&mut mst);
            random.fill(&mut xrf);
        }
        if lengths_permitted(mst_len, xrf_len) && !random.one_in(6) {
            plausible(random, &mut mst, &mut xrf);
        }
        (mst, xrf)
    }

    fn next(&mut self, random: &mut Random, run: &Run, done: usize) -> Option<Step> {
        let taste = Taste {
            format_in: 60,
            ..Taste::SHORT
        };
        let next_mfn = run.next_mfn().min(9);
        (done < 24).then(|| Step::Call(lists::any_call(random, taste, next_mfn)))
    }
}

/// Gives random bytes a right control record, right block numbers and entries that
/// name places, over leaders of which most numbers are nearly right. RECCNT is right for them,
/// at an edge, or any number.
fn plausible(random: &mut Random, mst: &mut [u8], xrf: &mut [u8]) {
    mst[..16].fill(0);
    let next = random.between(1, 9);
    let end = random.between(32, mst.len() / 2) * 2;
    let end = if end % BLOCK > 498 {
        end.next_multiple_of(BLOCK)
    } else {
        end
    };
    Control {
        next_mfn: next,
        end,
    }
    .write(mst);
    for block in 1..=xrf.len() / BLOCK {
        let first = model::layout::first_integer(xrf.len(), block);
        xrf[(block - 1) * BLOCK..][..4].copy_from_slice(&first.to_le_bytes());
    }
    for mfn in 1..next {
        let at = random.between(32, end / 2) * 2;
        let mark = random.pick(&[0, 0, 512, 1024]);
        let block = (at / BLOCK + 1) as i32 * random.pick(&[1, 1, 1, -1]);
        let entry = block * 2048 + (at % BLOCK) as i32 + mark;
        xrf[slot_at(mfn)..][..4].copy_from_slice(&entry.to_le_bytes());
        if at + 40 <= mst.len() {
            plausible_leader(random, &mut mst[at..], mfn, mark == 512, block < 0);
        }
    }
    for mfn in next..=xrf.len() / BLOCK * PER_BLOCK {
        xrf[slot_at(mfn)..][..4].fill(0);
    }
    match random.below(4) {
        0 => put_reccnt(mst, random.pick(&PLANTED)),
        1..=2 => put_reccnt(mst, live(mst, xrf)),
        _ => {}
    }
}

/// A leader, and a directory of empty fields, of which one number may be wrong.
fn plausible_leader(
    random: &mut Random,
    record: &mut [u8],
    mfn: usize,
    changed: bool,
    deleted: bool,
) {
    let nvf = random.below(3) as u16;
    let back = if changed {
        random.between(32, 120) as u16 * 2
    } else {
        0
    };
    let mut numbers = [
        mfn as u16,
        0,
        18 + 6 * nvf + 2 * random.below(4) as u16,
        u16::from(changed),
        0,
        back,
        18 + 6 * nvf,
        nvf,
        u16::from(deleted),
    ];
    if random.one_in(3) {
        let i = random.below(numbers.len());
        numbers[i] = near(random, numbers[i]);
    }
    for (bytes, number) in record.chunks_exact_mut(2).zip(numbers) {
        bytes.copy_from_slice(&number.to_le_bytes());
    }
    for item in record[18..].chunks_exact_mut(6).take(usize::from(nvf)) {
        item.copy_from_slice(&[24, 0, 0, 0, 0, 0]);
    }
}
