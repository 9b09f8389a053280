//! The stack that each call uses, measured: the stack below is painted, the call is
//! made, and the lowest byte that lost its paint is looked for.

use crate::lists::ascending;
use isis::raw;
use model::OwnedDraft;
use model::postings::build::in_turn;
use model::random::Random;
use std::hint::black_box;

use crate::cards::{Kind, card, draft};
use crate::clock::{head, row};
use crate::indexes::deepest;

/// So much of the stack is painted.
const PAINTED: usize = 128 * 1024;
const PAINT: u8 = 0xB7;

/// Bytes of stack below this function's own frame that some work uses. It makes a call
/// itself, so nothing of its own stands below the stack pointer.
#[inline(never)]
fn used(work: &mut dyn FnMut()) -> usize {
    let top: usize;
    // SAFETY: only reads the stack pointer.
    unsafe { std::arch::asm!("mov {}, rsp", out(reg) top, options(nomem, nostack)) };
    let mut at = top;
    while at > top - PAINTED {
        at -= 1;
        // SAFETY: the thread's stack is far larger, and nothing lives down there now.
        unsafe { (at as *mut u8).write_volatile(PAINT) };
    }
    work();
    // SAFETY: as above.
    while at < top && unsafe { (at as *const u8).read_volatile() } == PAINT {
        at += 1;
    }
    top - at
}

/// The most stack that a call uses over some inputs, without what the measuring uses.
fn report(name: &str, calls: &mut [&mut dyn FnMut()]) {
    let empty = used(&mut || {
        black_box(0);
    });
    let most = calls.iter_mut().map(|call| used(call)).max().unwrap_or(0);
    row(name, &[most.saturating_sub(empty).to_string()]);
}

/// Measures in a thread with a stack of known size.
pub fn run() {
    if cfg!(debug_assertions) {
        println!("stack: not measured in a build without optimisation");
        return;
    }
    head("a call", &["bytes of stack, x86-64"]);
    std::thread::Builder::new()
        .stack_size(4 << 20)
        .spawn(|| {
            reading();
            fields();
            telling();
            testing();
            drafts();
            acts();
            searching();
            lists();
        })
        .expect("a thread")
        .join()
        .expect("the measuring went wrong");
}

/// An MST and an XRF as the C functions take them.
type Arguments = (*mut u8, usize, *mut u8, usize);

/// The first four arguments for a fresh card of forty fields, which stays allocated.
fn arguments(kind: Kind) -> Arguments {
    let card = Box::leak(Box::new(card(50, &draft(40, 10), kind)));
    let (mst, xrf) = (&mut card.mst, &mut card.xrf);
    (mst.as_mut_ptr(), mst.len(), xrf.as_mut_ptr(), xrf.len())
}

fn reading() {
    let a = arguments(Kind::Changed);
    let (mut start, mut len, mut count) = (0, 0, 0);
    // SAFETY: the card's buffers are leaked and used by no one else.
    unsafe {
        report(
            "view",
            &mut [&mut || {
                black_box(raw::isis_view(
                    a.0, a.1, a.2, a.3, 7, 40, 1, &mut start, &mut len, &mut count,
                ));
            }],
        );
        report(
            "view settled",
            &mut [&mut || {
                black_box(raw::isis_view_settled(
                    a.0, a.1, a.2, a.3, 7, 40, 1, &mut start, &mut len, &mut count,
                ));
            }],
        );
        report(
            "check",
            &mut [&mut || {
                black_box(raw::isis_check(a.0, a.1, a.2, a.3));
            }],
        );
    }
}

/// Fields by their index.
fn fields() {
    let a = arguments(Kind::Changed);
    let (mut tag, mut start, mut len) = (0, 0, 0);
    // SAFETY: as in `reading`.
    unsafe {
        report(
            "field",
            &mut [&mut || {
                black_box(raw::isis_field(
                    a.0, a.1, a.2, a.3, 7, 39, &mut tag, &mut start, &mut len,
                ));
            }],
        );
        report(
            "field settled",
            &mut [&mut || {
                black_box(raw::isis_field_settled(
                    a.0, a.1, a.2, a.3, 7, 39, &mut tag, &mut start, &mut len,
                ));
            }],
        );
    }
}

/// The calls that tell something of a card.
fn telling() {
    let a = arguments(Kind::Changed);
    let (mut next, mut end, mut mark, mut deleted) = (0, 0, 0, 0);
    let (mut tags, mut starts, mut lens, mut count) = ([0; 40], [0; 40], [0; 40], 0);
    let (t, s, l) = (tags.as_mut_ptr(), starts.as_mut_ptr(), lens.as_mut_ptr());
    // SAFETY: as in `reading`; the lists have forty elements each.
    unsafe {
        report(
            "fields",
            &mut [&mut || {
                black_box(raw::isis_fields(
                    a.0, a.1, a.2, a.3, 7, t, 40, s, 40, l, 40, &mut count,
                ));
            }],
        );
        report(
            "fields settled",
            &mut [&mut || {
                black_box(raw::isis_fields_settled(
                    a.0, a.1, a.2, a.3, 7, t, 40, s, 40, l, 40, &mut count,
                ));
            }],
        );
        report(
            "state",
            &mut [&mut || {
                black_box(raw::isis_state(
                    a.0,
                    a.1,
                    a.2,
                    a.3,
                    7,
                    &mut mark,
                    &mut deleted,
                ));
            }],
        );
        report(
            "next",
            &mut [&mut || {
                black_box(raw::isis_next(a.0, a.1, a.2, a.3, &mut next, &mut end));
            }],
        );
    }
}

/// The test of a record that passes, and of one whose last entry is broken.
fn testing() {
    let a = arguments(Kind::Settled);
    let mut entry = 0;
    // SAFETY: as in `reading`; the first record stands behind the control record's 64 bytes, and
    // its last entry behind the leader and 39 others.
    let mut test = || unsafe {
        black_box(raw::isis_record_test(
            a.0.add(64),
            a.1 - 64,
            1,
            0,
            &mut entry,
        ));
        *a.0.add(64 + 18 + 6 * 39) = 0;
        black_box(raw::isis_record_test(
            a.0.add(64),
            a.1 - 64,
            1,
            0,
            &mut entry,
        ));
    };
    report("record test", &mut [&mut test]);
}

/// Calls that take a draft.
fn drafts() {
    let (new, settled) = (arguments(Kind::New), arguments(Kind::Settled));
    let OwnedDraft { tags, lens, data } = draft(40, 10);
    let (t, l, d) = (tags.as_ptr(), lens.as_ptr(), data.as_ptr());
    let (tl, ll, dl) = (tags.len(), lens.len(), data.len());
    let mut mfn = 0;
    // SAFETY: as in `reading`; the draft's lists live to the end of this function.
    let update = |a: Arguments| unsafe {
        black_box(raw::isis_update(a.0, a.1, a.2, a.3, 1, t, tl, l, ll, d, dl));
    };
    // SAFETY: the same.
    let mut create = |a: Arguments| unsafe {
        black_box(raw::isis_create(
            a.0, a.1, a.2, a.3, t, tl, l, ll, d, dl, &mut mfn,
        ));
    };
    report("create", &mut [&mut || create(new)]);
    report(
        "update",
        &mut [&mut || update(new), &mut || update(settled)],
    );
}

/// A function that names an MFN and may write.
type Act = unsafe extern "C" fn(*mut u8, usize, *mut u8, usize, u32) -> u32;

/// Calls that name an MFN, format, a migration and a recount.
fn acts() {
    let (new, settled, changed) = (
        arguments(Kind::New),
        arguments(Kind::Settled),
        arguments(Kind::Changed),
    );
    // SAFETY: as in `reading`.
    let call = |act: Act, a: Arguments, mfn| unsafe {
        black_box(act(a.0, a.1, a.2, a.3, mfn));
    };
    report(
        "delete",
        &mut [&mut || call(raw::isis_delete, new, 2), &mut || {
            call(raw::isis_delete, settled, 2)
        }],
    );
    report(
        "settle",
        &mut [&mut || call(raw::isis_settle, new, 3), &mut || {
            call(raw::isis_settle, changed, 3)
        }],
    );
    let (mfns, mut answers) = ([0, 5, 5, 51], [0; 4]);
    let mut list = |a: Arguments| {
        // SAFETY: as in `reading`; the two lists are this function's own.
        black_box(unsafe {
            raw::isis_settle_list(
                a.0,
                a.1,
                a.2,
                a.3,
                mfns.as_ptr(),
                4,
                answers.as_mut_ptr(),
                4,
            )
        });
    };
    report(
        "settle a list",
        &mut [&mut || {
            list(new);
            list(changed);
        }],
    );
    // MFN 2 of the settled card was deleted above, and is brought back.
    report(
        "revert",
        &mut [&mut || call(raw::isis_revert, changed, 4), &mut || {
            call(raw::isis_revert, settled, 2)
        }],
    );
    let mut format = || {
        // SAFETY: as in `reading`.
        black_box(unsafe { raw::isis_format(new.0, new.1, new.2, new.3) });
    };
    report("format", &mut [&mut format]);
    let mut migrate = || {
        // SAFETY: as in `reading`; the format before left a permitted MST, which is made old here.
        black_box(unsafe {
            *new.0.add(12) = 64;
            raw::isis_migrate(new.0, new.1, new.2, new.3)
        });
    };
    report("migrate", &mut [&mut migrate]);
    let mut recount = || {
        // SAFETY: as in `reading`; a number that is not right is put there first.
        black_box(unsafe {
            *changed.0.add(16) = 0xFF;
            raw::isis_recount(changed.0, changed.1, changed.2, changed.3)
        });
    };
    report("recount", &mut [&mut recount]);
}

/// The calls on an index whose ways have as many nodes as they may have.
fn searching() {
    let (files, terms) = deepest();
    let a = files.all().map(|file| (file.as_ptr(), file.len()));
    let (mut block, mut word) = (0, 0);
    // SAFETY: the files and the terms live to the end of this function.
    let mut lookup = |term: &[u8]| unsafe {
        let answer = raw::isis_lookup(
            a[0].0,
            a[0].1,
            a[1].0,
            a[1].1,
            a[2].0,
            a[2].1,
            a[3].0,
            a[3].1,
            a[4].0,
            a[4].1,
            term.as_ptr(),
            term.len(),
            &mut block,
            &mut word,
        );
        black_box(answer);
    };
    report(
        "lookup, 16 nodes",
        &mut [&mut || terms.iter().for_each(|term| lookup(term))],
    );
    // SAFETY: the same.
    let mut check = || unsafe {
        black_box(raw::isis_check_index(
            a[0].0, a[0].1, a[1].0, a[1].1, a[2].0, a[2].1, a[3].0, a[3].1, a[4].0, a[4].1,
        ));
    };
    report("index check, 16 nodes", &mut [&mut check]);
}

fn lists() {
    let mut random = Random::new(1);
    let lists = [(); 2].map(|()| ascending(500, &mut random));
    let built = in_turn(&lists, 20);
    let (file, starts) = (built.bytes(&mut |_| ()), built.starts());
    let (ifp, len) = (file.as_ptr(), file.len());
    let [(a, v), (b, w)] = [0, 1].map(|list| (starts[list].block, starts[list].word));
    let (mut postings, mut mfns, mut count) = ([0; 500], [0; 1_000], 0);
    // SAFETY: the file and the lists live to the end of this function.
    report(
        "postings",
        &mut [&mut || unsafe {
            let (out, room) = (postings.as_mut_ptr(), postings.len());
            black_box(raw::isis_postings(ifp, len, a, v, out, room, &mut count));
        }],
    );
    for (name, call) in [
        ("common", raw::isis_common as raw::Merge),
        ("joined", raw::isis_joined),
    ] {
        // The second time there is less room than the lists have postings.
        let mut with = |room| unsafe {
            let out = mfns.as_mut_ptr();
            black_box(call(ifp, len, a, v, b, w, out, room, &mut count));
        };
        report(
            name,
            &mut [&mut || [1_000, 400].into_iter().for_each(&mut with)],
        );
    }
}
