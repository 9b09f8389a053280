//! The tests are themselves tried: fakes that document 01 names, and slips that are
//! easy, must be found, and the list that shows them must come out short; a byte
//! outside a buffer must end the program with the seed printed.

use differential::archive::{Given, Subject};
use differential::damage::{Damaged, live};
use differential::families::{Family, FromFormat, Hostile, Planted, drive_subject};
use differential::guarded::{Area, Side, at_work, report_hits};
use model::bytes::i32_at;
use model::call::{Call, on_bytes};
use model::layout::{Control, put_reccnt, reccnt, slot_at};
use model::sound;
use std::process::Command;

/// A wrong library: it sees a card, a call and what the model gave before and after,
/// and spoils the result.
struct Fake {
    spoil: fn(&mut Fake, &mut Seen),
    updates: usize,
}

/// A call as a fake sees it.
struct Seen<'a> {
    call: &'a Call,
    given: Given,
    mst: &'a mut [u8],
    xrf: &'a mut [u8],
    before: (Vec<u8>, Vec<u8>),
}

impl Seen<'_> {
    fn put_back(&mut self) {
        self.mst.copy_from_slice(&self.before.0);
        self.xrf.copy_from_slice(&self.before.1);
    }
}

impl Subject for Fake {
    fn run(&mut self, mst: &mut [u8], xrf: &mut [u8], call: &Call, _: Side) -> Given {
        let before = (mst.to_vec(), xrf.to_vec());
        let (outcome, shown) = on_bytes(mst, xrf, call);
        let given = Given::wanted(&outcome, shown);
        let mut seen = Seen {
            call,
            given,
            mst,
            xrf,
            before,
        };
        (self.spoil)(self, &mut seen);
        seen.given
    }
}

/// The fake is found by a family within so many calls, by a list of at most `steps`.
fn found(family: &mut dyn Family, steps: usize, spoil: fn(&mut Fake, &mut Seen)) {
    let mut fake = Fake { spoil, updates: 0 };
    let words = drive_subject(&mut fake, family, 50_000, 1).expect_err("the fake was not found");
    let listed = words.lines().filter(|line| line.starts_with("  ")).count();
    assert!((1..=steps).contains(&listed), "{words}");
    assert!(words.starts_with("seed "), "{words}");
}

#[test]
fn a_store_that_always_refuses() {
    found(&mut FromFormat::new(), 2, |_, seen| {
        if matches!(seen.call, Call::Create(_)) {
            seen.put_back();
            seen.given.number = 13;
            seen.given.mfn = 0;
        }
    });
}

#[test]
fn one_that_answers_0_and_stores_nothing() {
    found(&mut FromFormat::new(), 4, |_, seen| {
        if matches!(seen.call, Call::Update(..)) && seen.given.number == 0 {
            seen.put_back();
        }
    });
}

#[test]
fn one_that_shows_the_same_field_for_every_mfn() {
    found(&mut FromFormat::new(), 5, |_, seen| {
        if let Call::View {
            tag, occurrence, ..
        } = seen.call
            && seen.given.number == 0
        {
            let first = model::store::view(seen.mst, seen.xrf, 1, *tag, *occurrence);
            seen.given.part = first.unwrap_or(0..0);
        }
    });
}

#[test]
fn one_that_writes_the_first_update_and_only_reports_the_later_ones() {
    found(&mut FromFormat::new(), 5, |fake, seen| {
        if *seen.call == Call::Format {
            fake.updates = 0;
        }
        if matches!(seen.call, Call::Update(..)) && seen.given.number == 0 {
            fake.updates += 1;
            if fake.updates > 1 {
                seen.put_back();
            }
        }
    });
}

#[test]
fn a_check_that_always_says_sound() {
    found(&mut Damaged::default(), 8, |_, seen| {
        if *seen.call == Call::Check && seen.given.number == 14 {
            seen.given.number = 0;
        }
    });
}

#[test]
fn a_quotient_toward_zero() {
    found(&mut FromFormat::new(), 4, |_, seen| {
        if seen.given.number == 9 {
            seen.given.number = 6;
        }
    });
}

#[test]
fn mfrl_shrunk_in_place() {
    found(&mut FromFormat::new(), 4, |_, seen| {
        let Call::Update(mfn, draft) = seen.call else {
            return;
        };
        if seen.given.number == 0 && seen.before.1 == seen.xrf {
            let slot = model::layout::slot_at(*mfn as usize);
            let entry = i32::from_le_bytes(seen.xrf[slot..slot + 4].try_into().unwrap());
            let at = (entry / 2048 - 1) * 512 + entry % 512;
            let need = model::draft::need(draft.tags.len(), draft.data.len()) as u16;
            seen.mst[at as usize + 4..][..2].copy_from_slice(&need.to_le_bytes());
        }
    });
}

#[test]
fn a_refusal_that_changes_a_byte() {
    found(&mut FromFormat::new(), 2, |_, seen| {
        if seen.given.number == 4 {
            seen.mst[40] ^= 1;
        }
    });
}

#[test]
fn the_gap_before_a_block_written_over() {
    found(&mut FromFormat::new(), 30, |_, seen| {
        let stops = |mst: &[u8]| u16::from_le_bytes([mst[12], mst[13]]);
        let moved = stops(seen.mst) == 1 && stops(&seen.before.0) != 1;
        if moved && matches!(seen.call, Call::Create(_)) {
            let block = seen.mst[8] as usize;
            seen.mst[(block - 1) * 512 - 1] = 0xAA;
        }
    });
}

#[test]
fn the_first_field_for_every_index() {
    found(&mut FromFormat::new(), 4, |_, seen| {
        if let Call::Field { mfn, .. } = *seen.call
            && seen.given.number == 0
        {
            let (tag, part) = model::store::field(seen.mst, seen.xrf, mfn, 0).unwrap();
            (seen.given.tag, seen.given.part) = (tag, part);
        }
    });
}

#[test]
fn one_index_too_many() {
    found(&mut FromFormat::new(), 3, |_, seen| {
        if let Call::Field { mfn, index } = *seen.call
            && seen.given.number == 12
            && index > 0
            && model::store::field(seen.mst, seen.xrf, mfn, index - 1).is_ok()
        {
            (seen.given.number, seen.given.tag) = (0, 0);
        }
    });
}

#[test]
fn the_current_field_for_the_settled_one() {
    found(&mut FromFormat::new(), 6, |_, seen| {
        if let Call::FieldSettled { mfn, index } = *seen.call
            && seen.given.number == 0
            && let Ok((tag, part)) = model::store::field(seen.mst, seen.xrf, mfn, index)
        {
            (seen.given.tag, seen.given.part) = (tag, part);
        }
    });
}

#[test]
fn a_tag_left_standing_by_a_refusal() {
    found(&mut FromFormat::new(), 2, |_, seen| {
        if matches!(seen.call, Call::Field { .. }) && seen.given.number != 0 {
            seen.given.tag = 24;
        }
    });
}

/// The damage stands where the record is, so the records before it stay in the list.
#[test]
fn a_field_of_a_damaged_record() {
    found(&mut Damaged::default(), 16, |_, seen| {
        if matches!(seen.call, Call::Field { .. }) && seen.given.number == 8 {
            seen.given.number = 12;
        }
    });
}

#[test]
fn one_element_too_many_of_a_list() {
    found(&mut FromFormat::new(), 3, |_, seen| {
        if matches!(seen.call, Call::Fields { .. })
            && seen.given.number == 0
            && let Some(next) = seen.given.lists.lens.get_mut(seen.given.count)
        {
            *next = 0;
        }
    });
}

#[test]
fn a_list_without_room_that_is_written_all_the_same() {
    found(&mut FromFormat::new(), 4, |_, seen| {
        if let Call::Fields { mfn, .. } = *seen.call
            && seen.given.number == 17
            && let Some(first) = seen.given.lists.tags.first_mut()
        {
            *first = model::store::field(seen.mst, seen.xrf, mfn, 0).unwrap().0;
        }
    });
}

#[test]
fn only_the_list_of_tags_looked_at_for_room() {
    found(&mut FromFormat::new(), 5, |_, seen| {
        if let Call::FieldsSettled { mfn, room } = seen.call
            && seen.given.number == 17
        {
            let longer = Call::FieldsSettled {
                mfn: *mfn,
                room: [room[0], 9, 9],
            };
            seen.given.number = on_bytes(seen.mst, seen.xrf, &longer).0.number;
        }
    });
}

#[test]
fn a_number_of_fields_that_stands_beside_a_refusal() {
    found(&mut FromFormat::new(), 5, |_, seen| {
        if seen.given.number == 17 {
            seen.given.count = 1;
        }
    });
}

#[test]
fn a_state_that_forgets_deletions() {
    found(&mut FromFormat::new(), 4, |_, seen| {
        seen.given.deleted = 0;
    });
}

#[test]
fn the_current_fields_for_the_settled_ones() {
    found(&mut FromFormat::new(), 6, |_, seen| {
        if let Call::FieldsSettled { mfn, room } = *seen.call
            && seen.given.number == 0
        {
            let current = Call::Fields { mfn, room };
            let (outcome, shown) = on_bytes(seen.mst, seen.xrf, &current);
            if outcome.number == 0 {
                seen.given = Given::wanted(&outcome, shown);
            }
        }
    });
}

#[test]
fn the_length_of_the_mst_for_the_end() {
    found(&mut FromFormat::new(), 2, |_, seen| {
        if *seen.call == Call::Next {
            seen.given.end = seen.mst.len();
        }
    });
}

#[test]
fn the_state_of_a_damaged_record() {
    found(&mut Damaged::default(), 10, |_, seen| {
        if matches!(seen.call, Call::State(_)) && seen.given.number == 8 {
            seen.given.number = 0;
        }
    });
}

#[test]
fn an_answer_one_place_off() {
    found(&mut FromFormat::new(), 4, |_, seen| {
        if matches!(seen.call, Call::SettleList { .. }) && seen.given.number == 0 {
            let places = seen.given.answers.len();
            seen.given.answers.rotate_right(places.min(1));
        }
    });
}

#[test]
fn the_second_of_two_equal_mfns_answered_0() {
    found(&mut FromFormat::new(), 4, |_, seen| {
        let Call::SettleList { mfns, .. } = seen.call else {
            return;
        };
        let answers = &mut seen.given.answers;
        for i in 1..mfns.len().min(answers.len()) {
            if answers[i] == 10 && mfns[..i].contains(&mfns[i]) {
                answers[i] = 0;
            }
        }
    });
}

#[test]
fn a_list_of_one_mfn_too_many_that_is_settled() {
    found(&mut FromFormat::new(), 3, |_, seen| {
        if let Call::SettleList { mfns, room } = seen.call
            && seen.given.number == 17
            && mfns.len() == *room
        {
            let longest = Call::settle_list(mfns[..mfns.len() - 1].iter().copied());
            let (outcome, _) = on_bytes(seen.mst, seen.xrf, &longest);
            seen.given.number = outcome.number;
            seen.given.answers[..outcome.answers.len()].copy_from_slice(&outcome.answers);
        }
    });
}

#[test]
fn a_refused_list_that_is_answered_all_the_same() {
    found(&mut FromFormat::new(), 2, |_, seen| {
        if matches!(seen.call, Call::SettleList { .. })
            && seen.given.number == 17
            && let Some(first) = seen.given.answers.first_mut()
        {
            *first = 17;
        }
    });
}

#[test]
fn only_the_answers_of_a_list() {
    found(&mut FromFormat::new(), 3, |_, seen| {
        if matches!(seen.call, Call::SettleList { .. }) {
            seen.put_back();
        }
    });
}

/// Whether a call shows a field by its tag.
fn views(call: &Call) -> bool {
    matches!(call, Call::View { .. } | Call::ViewSettled { .. })
}

#[test]
fn fewer_than_asked_told_as_none() {
    found(&mut FromFormat::new(), 4, |_, seen| {
        if seen.given.number == 15 {
            (seen.given.number, seen.given.occurrences) = (12, 0);
        }
    });
}

#[test]
fn fewer_than_asked_told_as_none_in_the_settled_version_only() {
    found(&mut FromFormat::new(), 5, |_, seen| {
        if seen.given.number == 15 && matches!(seen.call, Call::ViewSettled { .. }) {
            (seen.given.number, seen.given.occurrences) = (12, 0);
        }
    });
}

#[test]
fn one_occurrence_too_few() {
    found(&mut FromFormat::new(), 4, |_, seen| {
        if seen.given.number == 15 {
            seen.given.occurrences -= 1;
        }
    });
}

#[test]
fn one_occurrence_too_many() {
    found(&mut FromFormat::new(), 4, |_, seen| {
        if seen.given.number == 15 {
            seen.given.occurrences += 1;
        }
    });
}

/// What a search that counts down has left.
#[test]
fn how_many_are_missing_for_how_many_there_are() {
    found(&mut FromFormat::new(), 4, |_, seen| {
        if let Call::View { occurrence, .. } = *seen.call
            && seen.given.number == 15
        {
            seen.given.occurrences = occurrence - seen.given.occurrences;
        }
    });
}

#[test]
fn all_fields_counted_and_not_those_of_the_tag() {
    found(&mut FromFormat::new(), 4, |_, seen| {
        if let Call::View { mfn, .. } = *seen.call
            && seen.given.number == 15
        {
            let room = [9; 3];
            let (all, _) = on_bytes(seen.mst, seen.xrf, &Call::Fields { mfn, room });
            seen.given.occurrences = all.fields.len() as u32;
        }
    });
}

#[test]
fn occurrences_of_the_current_version_told_for_the_settled_one() {
    found(&mut FromFormat::new(), 6, |_, seen| {
        if let Call::ViewSettled {
            mfn,
            tag,
            occurrence,
        } = *seen.call
            && seen.given.number == 15
        {
            let current = Call::view(mfn, tag, occurrence);
            let (current, _) = on_bytes(seen.mst, seen.xrf, &current);
            if current.number == 15 {
                seen.given.occurrences = current.occurrences;
            }
        }
    });
}

#[test]
fn occurrence_0_told_as_fewer() {
    found(&mut FromFormat::new(), 4, |_, seen| {
        if let Call::View {
            mfn,
            tag,
            occurrence: 0,
        } = *seen.call
            && seen.given.number == 12
        {
            let most = Call::view(mfn, tag, u32::MAX);
            let (most, _) = on_bytes(seen.mst, seen.xrf, &most);
            (seen.given.number, seen.given.occurrences) = (most.number, most.occurrences);
        }
    });
}

#[test]
fn a_tag_that_does_not_occur_told_as_fewer() {
    found(&mut FromFormat::new(), 4, |_, seen| {
        if views(seen.call) && seen.given.number == 12 {
            seen.given.number = 15;
        }
    });
}

#[test]
fn occurrences_left_as_they_were_by_every_other_answer() {
    found(&mut FromFormat::new(), 2, |_, seen| {
        if views(seen.call) && seen.given.number != 15 {
            seen.given.occurrences = 0xEEEE_EEEE;
        }
    });
}

#[test]
fn occurrences_told_where_the_field_is_shown() {
    found(&mut FromFormat::new(), 4, |_, seen| {
        if let Call::View { occurrence, .. } = *seen.call
            && seen.given.number == 0
        {
            seen.given.occurrences = occurrence;
        }
    });
}

#[test]
fn fewer_told_by_index_too() {
    found(&mut FromFormat::new(), 4, |_, seen| {
        let by_index = matches!(seen.call, Call::Field { .. } | Call::FieldSettled { .. });
        if by_index && seen.given.number == 12 {
            seen.given.number = 15;
        }
    });
}

#[test]
fn fewer_told_of_a_deleted_record() {
    found(&mut FromFormat::new(), 6, |_, seen| {
        if let Call::View { mfn, tag, .. } = *seen.call
            && seen.given.number == 9
        {
            let most = Call::view_settled(mfn, tag, u32::MAX);
            let (most, _) = on_bytes(seen.mst, seen.xrf, &most);
            if most.number == 15 {
                (seen.given.number, seen.given.occurrences) = (15, most.occurrences);
            }
        }
    });
}

#[test]
fn fewer_told_of_a_damaged_record() {
    found(&mut Damaged::default(), 8, |_, seen| {
        if views(seen.call) && seen.given.number == 8 {
            (seen.given.number, seen.given.occurrences) = (15, 1);
        }
    });
}

/// Records of several thousand fields of one tag come among hostile arguments.
#[test]
fn occurrences_in_one_byte() {
    found(&mut Hostile, 4, |_, seen| {
        seen.given.occurrences %= 256;
    });
}

/// Changes a 2-byte number of the MST.
fn add_at(mst: &mut [u8], at: usize, more: u16) {
    let number = u16::from_le_bytes([mst[at], mst[at + 1]]).wrapping_add(more);
    mst[at..at + 2].copy_from_slice(&number.to_le_bytes());
}

/// The damage that shows it may put the end at the start of a block behind the first, so that
/// the records before it have to fill that one.
#[test]
fn an_even_count_that_is_accepted() {
    found(&mut Damaged::default(), 16, |_, seen| {
        if *seen.call == Call::Check && seen.given.number == 2 && seen.mst[12] % 2 == 0 {
            let mut odd = seen.mst.to_vec();
            add_at(&mut odd, 12, 1);
            seen.given.number = on_bytes(&mut odd, seen.xrf, seen.call).0.number;
        }
    });
}

#[test]
fn a_migration_that_adds_two() {
    found(&mut Damaged::default(), 4, |_, seen| {
        if *seen.call == Call::Migrate && seen.given.number == 0 {
            add_at(seen.mst, 12, 1);
        }
    });
}

#[test]
fn a_migration_that_also_moves_the_block() {
    found(&mut Damaged::default(), 4, |_, seen| {
        if *seen.call == Call::Migrate && seen.given.number == 0 {
            add_at(seen.mst, 8, 1);
        }
    });
}

#[test]
fn a_migration_that_is_made_twice() {
    found(&mut FromFormat::new(), 2, |_, seen| {
        if *seen.call == Call::Migrate {
            add_at(seen.mst, 12, 1);
            seen.given.number = 0;
        }
    });
}

/// Puts RECCNT back to what it was before the call.
fn forget(seen: &mut Seen) {
    put_reccnt(seen.mst, reccnt(&seen.before.0));
}

/// RECCNT changed by a little.
fn count_on(seen: &mut Seen, more: i32) {
    let count = reccnt(seen.mst);
    put_reccnt(seen.mst, count.wrapping_add(more));
}

/// The same call as if RECCNT were another number, which is put back where it is refused.
fn as_if(seen: &mut Seen, count: i32) {
    seen.put_back();
    put_reccnt(seen.mst, count);
    let (outcome, shown) = on_bytes(seen.mst, seen.xrf, seen.call);
    seen.given = Given::wanted(&outcome, shown);
    if seen.given.number != 0 {
        seen.put_back();
    }
}

#[test]
fn a_create_that_forgets_to_count() {
    found(&mut FromFormat::new(), 2, |_, seen| {
        if matches!(seen.call, Call::Create(_)) {
            forget(seen);
        }
    });
}

#[test]
fn a_delete_that_forgets_to_count() {
    found(&mut FromFormat::new(), 3, |_, seen| {
        if matches!(seen.call, Call::Delete(_)) {
            forget(seen);
        }
    });
}

/// Only the copy of a settled record is counted, not a deletion in place.
#[test]
fn a_delete_in_place_that_forgets_to_count() {
    found(&mut FromFormat::new(), 3, |_, seen| {
        if matches!(seen.call, Call::Delete(_)) && seen.before.0[8..14] == seen.mst[8..14] {
            forget(seen);
        }
    });
}

#[test]
fn a_revert_of_a_deletion_that_forgets_to_count() {
    found(&mut FromFormat::new(), 5, |_, seen| {
        if matches!(seen.call, Call::Revert(_)) {
            forget(seen);
        }
    });
}

#[test]
fn a_revert_of_a_live_record_that_adds_one() {
    found(&mut FromFormat::new(), 5, |_, seen| {
        let same = reccnt(seen.mst) == reccnt(&seen.before.0);
        if matches!(seen.call, Call::Revert(_)) && seen.given.number == 0 && same {
            count_on(seen, 1);
        }
    });
}

#[test]
fn a_delete_refused_for_room_that_takes_one() {
    found(&mut FromFormat::new(), 40, |_, seen| {
        if matches!(seen.call, Call::Delete(_)) && seen.given.number == 13 {
            count_on(seen, -1);
        }
    });
}

#[test]
fn a_refused_create_that_adds_one() {
    found(&mut FromFormat::new(), 2, |_, seen| {
        if matches!(seen.call, Call::Create(_)) && seen.given.number != 0 {
            count_on(seen, 1);
        }
    });
}

#[test]
fn a_settled_deletion_that_takes_one_more() {
    found(&mut FromFormat::new(), 4, |_, seen| {
        if let Call::Settle(mfn) = *seen.call
            && seen.given.number == 0
            && model::ask::state(seen.mst, seen.xrf, mfn).is_ok_and(|(_, deleted)| deleted == 1)
        {
            count_on(seen, -1);
        }
    });
}

#[test]
fn an_update_that_counts() {
    found(&mut FromFormat::new(), 4, |_, seen| {
        let appended = seen.before.0[8..14] != seen.mst[8..14];
        if matches!(seen.call, Call::Update(..)) && appended {
            count_on(seen, 1);
        }
    });
}

#[test]
fn a_format_that_keeps_reccnt() {
    found(&mut FromFormat::new(), 1, |_, seen| {
        if *seen.call == Call::Format {
            forget(seen);
        }
    });
}

/// Sound apart from RECCNT.
fn apart(seen: &Seen) -> bool {
    sound::is_sound_apart(seen.mst, seen.xrf)
}

#[test]
fn a_check_that_does_not_ask_for_reccnt() {
    found(&mut Planted::default(), 3, |_, seen| {
        if *seen.call == Call::Check && seen.given.number == 14 && apart(seen) {
            seen.given.number = 0;
        }
    });
}

#[test]
fn a_check_that_asks_only_for_enough() {
    found(&mut Planted::default(), 3, |_, seen| {
        if *seen.call == Call::Check && seen.given.number == 14 && apart(seen) {
            let live = live(seen.mst, seen.xrf);
            seen.given.number = if reccnt(seen.mst) >= live { 0 } else { 14 };
        }
    });
}

#[test]
fn a_check_that_compares_two_bytes_of_reccnt() {
    found(&mut Planted::default(), 3, |_, seen| {
        if *seen.call == Call::Check && seen.given.number == 14 && apart(seen) {
            let mut low = seen.mst.to_vec();
            low[18..20].fill(0);
            seen.given.number = on_bytes(&mut low, seen.xrf, seen.call).0.number;
        }
    });
}

/// What a recount writes if some entries count besides.
fn recounted_with(seen: &mut Seen, counts: fn(i32) -> bool) {
    if *seen.call == Call::Recount && seen.given.number == 0 {
        let next = Control::read(seen.mst, seen.xrf.len()).unwrap().next_mfn;
        let entry = |mfn: &usize| i32_at(seen.xrf, slot_at(*mfn));
        let more = (1..next).filter(|mfn| counts(entry(mfn))).count();
        count_on(seen, more as i32);
    }
}

#[test]
fn a_recount_that_counts_deleted_records() {
    found(&mut FromFormat::new(), 4, |_, seen| {
        recounted_with(seen, |entry| entry < 0 && entry != -2048);
    });
}

#[test]
fn a_recount_that_counts_gone_records() {
    found(&mut Damaged::default(), 6, |_, seen| {
        recounted_with(seen, |entry| entry == -2048);
    });
}

#[test]
fn a_recount_that_counts_pending_deletions() {
    found(&mut FromFormat::new(), 4, |_, seen| {
        recounted_with(seen, |entry| entry < 0 && entry.rem_euclid(2048) >= 512);
    });
}

#[test]
fn a_recount_that_only_answers() {
    found(&mut Planted::default(), 3, |_, seen| {
        if *seen.call == Call::Recount {
            seen.put_back();
        }
    });
}

#[test]
fn a_recount_that_is_refused_for_a_number_below_0() {
    found(&mut Planted::default(), 3, |_, seen| {
        if *seen.call == Call::Recount && reccnt(&seen.before.0) < 0 {
            seen.put_back();
            seen.given.number = 2;
        }
    });
}

#[test]
fn a_recount_that_is_refused_at_the_greatest_number() {
    found(&mut Planted::default(), 3, |_, seen| {
        if *seen.call == Call::Recount && reccnt(&seen.before.0) == i32::MAX {
            seen.put_back();
            seen.given.number = 2;
        }
    });
}

#[test]
fn a_recount_that_is_refused_where_the_check_is() {
    found(&mut Planted::default(), 3, |_, seen| {
        if *seen.call == Call::Recount && seen.before.0 != seen.mst {
            seen.put_back();
            seen.given.number = 14;
        }
    });
}

#[test]
fn a_recount_of_a_store_that_is_not_sound() {
    found(&mut Damaged::default(), 8, |_, seen| {
        if *seen.call == Call::Recount && seen.given.number == 14 {
            put_reccnt(seen.mst, live(seen.mst, seen.xrf));
            seen.given.number = 0;
        }
    });
}

#[test]
fn a_recount_that_writes_a_byte_more() {
    found(&mut FromFormat::new(), 2, |_, seen| {
        if *seen.call == Call::Recount {
            seen.mst[20] = 1;
        }
    });
}

#[test]
fn a_recount_of_an_old_card() {
    found(&mut Damaged::default(), 4, |_, seen| {
        if *seen.call == Call::Recount
            && seen.given.number == 2
            && let Ok(control) = Control::read_old(seen.mst, seen.xrf.len())
        {
            put_reccnt(seen.mst, sound::live(seen.xrf, control) as i32);
            seen.given.number = 0;
        }
    });
}

#[test]
fn a_migration_that_is_refused_for_reccnt() {
    found(&mut Damaged::default(), 6, |_, seen| {
        if *seen.call == Call::Migrate && seen.given.number == 0 && reccnt(seen.mst) < 0 {
            seen.put_back();
            seen.given.number = 2;
        }
    });
}

#[test]
fn a_migration_that_recounts() {
    found(&mut Damaged::default(), 6, |_, seen| {
        if *seen.call == Call::Migrate && seen.given.number == 0 {
            on_bytes(seen.mst, seen.xrf, &Call::Recount);
        }
    });
}

/// Where one of 4 to 9 applies, RECCNT is no reason for 2.
#[test]
fn a_delete_whose_2_comes_before_4_to_9() {
    found(&mut Planted::default(), 3, |_, seen| {
        if matches!(seen.call, Call::Delete(_))
            && (4..=9).contains(&seen.given.number)
            && reccnt(seen.mst) <= 0
        {
            seen.given.number = 2;
        }
    });
}

#[test]
fn a_delete_whose_2_comes_behind_13() {
    found(&mut Planted::default(), 40, |_, seen| {
        let count = reccnt(&seen.before.0);
        if matches!(seen.call, Call::Delete(_)) && seen.given.number == 2 && count <= 0 {
            as_if(seen, 1);
            seen.put_back();
            if seen.given.number != 13 {
                seen.given.number = 2;
            }
        }
    });
}

#[test]
fn a_delete_that_goes_below_0() {
    found(&mut Planted::default(), 4, |_, seen| {
        let count = reccnt(&seen.before.0);
        if matches!(seen.call, Call::Delete(_)) && seen.given.number == 2 && count == 0 {
            as_if(seen, 1);
            count_on(seen, if seen.given.number == 0 { -1 } else { 0 });
        }
    });
}

/// RECCNT taken for a number without a sign.
#[test]
fn a_delete_that_takes_one_from_a_number_below_0() {
    found(&mut Planted::default(), 4, |_, seen| {
        let count = reccnt(&seen.before.0);
        if matches!(seen.call, Call::Delete(_)) && seen.given.number == 2 && count < 0 {
            as_if(seen, 1);
            if seen.given.number == 0 {
                put_reccnt(seen.mst, count.wrapping_sub(1));
            }
        }
    });
}

#[test]
fn a_create_that_wraps() {
    found(&mut Planted::default(), 4, |_, seen| {
        let full = reccnt(&seen.before.0) == i32::MAX;
        if matches!(seen.call, Call::Create(_)) && full {
            as_if(seen, i32::MAX - 1);
            count_on(seen, i32::from(seen.given.number == 0));
        }
    });
}

#[test]
fn a_create_whose_2_comes_behind_3() {
    found(&mut Planted::default(), 4, |_, seen| {
        let full = reccnt(&seen.before.0) == i32::MAX;
        if let Call::Create(draft) = seen.call
            && seen.given.number == 2
            && full
            && draft.lent().need_if_right().is_none()
        {
            seen.given.number = 3;
        }
    });
}

#[test]
fn a_create_that_is_refused_one_too_early() {
    found(&mut Planted::default(), 3, |_, seen| {
        if matches!(seen.call, Call::Create(_)) && reccnt(&seen.before.0) == i32::MAX - 1 {
            seen.put_back();
            (seen.given.number, seen.given.mfn) = (2, 0);
        }
    });
}

#[test]
fn a_revert_whose_2_comes_behind_4_to_11() {
    found(&mut Planted::default(), 3, |_, seen| {
        let full = reccnt(&seen.before.0) == i32::MAX;
        if matches!(seen.call, Call::Revert(_)) && seen.given.number == 2 && full {
            as_if(seen, 1);
            seen.put_back();
            if seen.given.number == 0 {
                seen.given.number = 2;
            }
        }
    });
}

/// A revert of a live record leaves RECCNT as it is, and is 2 all the same.
#[test]
fn a_revert_that_is_2_only_where_it_would_count() {
    found(&mut Planted::default(), 6, |_, seen| {
        let full = reccnt(&seen.before.0) == i32::MAX;
        if matches!(seen.call, Call::Revert(_)) && seen.given.number == 2 && full {
            as_if(seen, 1);
            if seen.given.number == 0 && reccnt(seen.mst) == 1 {
                put_reccnt(seen.mst, i32::MAX);
            } else {
                seen.put_back();
                seen.given.number = 2;
            }
        }
    });
}

#[test]
fn a_count_in_one_byte() {
    found(&mut Planted::default(), 4, |_, seen| {
        let (before, after) = (reccnt(&seen.before.0), reccnt(seen.mst));
        let counts = matches!(
            seen.call,
            Call::Create(_) | Call::Delete(_) | Call::Revert(_)
        );
        if counts && before & !0xFF != after & !0xFF {
            put_reccnt(seen.mst, before & !0xFF | after & 0xFF);
        }
    });
}

#[test]
fn a_right_library_passes() {
    let mut fake = Fake {
        spoil: |_, _| {},
        updates: 0,
    };
    let passed = drive_subject(&mut fake, &mut FromFormat::new(), 2_000, 1);
    assert!(passed.is_ok());
}

/// Run by the next test in a process of its own.
#[test]
#[ignore = "ends the process"]
fn steps_outside() {
    report_hits();
    at_work(4711, 12);
    let mut area = Area::new(1536);
    let side = match std::env::var("ISIS_OUTSIDE").as_deref() {
        Ok("front") => Side::Front,
        _ => Side::Back,
    };
    let buffer = area.buffer(1536, side);
    let outside = match side {
        Side::Front => buffer.as_mut_ptr().wrapping_sub(1),
        Side::Back => buffer.as_mut_ptr().wrapping_add(1536),
    };
    // SAFETY: none; this is the fault that the guard page must catch.
    unsafe { outside.write_volatile(0) };
}

#[test]
fn a_byte_outside_ends_the_program_and_names_the_seed() {
    for side in ["front", "back"] {
        let output = Command::new(std::env::current_exe().unwrap())
            .args(["--exact", "steps_outside", "--ignored", "--nocapture"])
            .env("ISIS_OUTSIDE", side)
            .output()
            .unwrap();
        assert_eq!(output.status.code(), Some(139), "{side}: {output:?}");
        let words = String::from_utf8_lossy(&output.stderr);
        let numbers: Vec<&str> = words.split_whitespace().collect();
        assert!(words.contains("outside its buffers"), "{words}");
        assert!(
            numbers.contains(&"4711") && numbers.contains(&"12"),
            "{words}"
        );
    }
}

#[test]
fn bytes_beside_a_buffer_are_watched_where_no_guard_page_stands() {
    let mut area = Area::new(512);
    assert!(area.slack_kept(512, Side::Back));
    let buffer = area.buffer(512, Side::Back);
    let before = buffer.as_mut_ptr().wrapping_sub(1);
    // SAFETY: the byte belongs to the area's own page.
    unsafe { before.write_volatile(0) };
    assert!(!area.slack_kept(512, Side::Back));
}
