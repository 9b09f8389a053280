//! The worked run of the paper and every outcome of every call, through the archive:
//! the lines must be those that the model gives.

#[path = "../../model/examples/outcomes/script/mod.rs"]
mod script;

/// What the lines are made on: the archive of the proved library.
mod subject {
    use differential::archive::{Archive, Given, Subject};
    use differential::guarded::Side;
    use differential::index::{self, Reader};
    use differential::postings::{self as posted, Element, Reader as _};
    use differential::records::{self, Tester as _};
    use model::ask::{Lists, State};
    use model::call::{Call, OwnedDraft};
    use model::index::Files;
    use model::postings::read::Merge;
    use model::postings::{Place, Posting};
    use model::{Draft, Refusal};
    use std::ops::Range;

    pub type Answer<T> = Result<T, Refusal>;

    const REFUSALS: [Refusal; 19] = [
        Refusal::Length,
        Refusal::Control,
        Refusal::Draft,
        Refusal::Mfn,
        Refusal::Full,
        Refusal::Entry,
        Refusal::Gone,
        Refusal::Record,
        Refusal::Deleted,
        Refusal::NotPending,
        Refusal::New,
        Refusal::NoField,
        Refusal::NoRoom,
        Refusal::NotSound,
        Refusal::NoRoomInList,
        Refusal::Term,
        Refusal::Index,
        Refusal::NoTerm,
        Refusal::Postings,
    ];

    fn numbered<T>(number: u32, given: T) -> Answer<T> {
        if number == 0 {
            return Ok(given);
        }
        let refusal = REFUSALS.into_iter().find(|why| why.number() == number);
        Err(refusal.expect("an answer that some call has"))
    }

    /// How often a tag occurs comes with 15, and is 0 with every other answer.
    fn answered(given: Given) -> Answer<Given> {
        if given.number == 15 {
            return Err(Refusal::Fewer(given.occurrences));
        }
        assert_eq!(given.occurrences, 0, "answer {}", given.number);
        numbered(given.number, given)
    }

    fn run(mst: &mut [u8], xrf: &mut [u8], call: Call) -> Answer<Given> {
        answered(Archive::new().run(mst, xrf, &call, Side::Back))
    }

    fn only_read(mst: &[u8], xrf: &[u8], call: &Call) -> Given {
        let (mut own_mst, mut own_xrf) = (mst.to_vec(), xrf.to_vec());
        let given = Archive::new().run(&mut own_mst, &mut own_xrf, call, Side::Back);
        assert!(
            own_mst == mst && own_xrf == xrf,
            "a reading call changed a byte"
        );
        given
    }

    fn read(mst: &[u8], xrf: &[u8], call: Call) -> Answer<Given> {
        answered(only_read(mst, xrf, &call))
    }

    /// The lists come back as the call left them, refused or not.
    fn listed(mst: &[u8], xrf: &[u8], call: Call, lists: &mut Lists) -> Answer<usize> {
        let given = only_read(mst, xrf, &call);
        *lists = given.lists.clone();
        answered(given).map(|given| given.count)
    }

    fn owned(draft: &Draft) -> OwnedDraft {
        OwnedDraft {
            tags: draft.tags.to_vec(),
            lens: draft.lens.to_vec(),
            data: draft.data.to_vec(),
        }
    }

    pub fn format(mst: &mut [u8], xrf: &mut [u8]) -> Answer<()> {
        run(mst, xrf, Call::Format).map(drop)
    }

    pub fn view(
        mst: &[u8],
        xrf: &[u8],
        mfn: u32,
        tag: u16,
        occurrence: u32,
    ) -> Answer<Range<usize>> {
        let call = Call::view(mfn, tag, occurrence);
        read(mst, xrf, call).map(|given| given.part)
    }

    pub fn view_settled(
        mst: &[u8],
        xrf: &[u8],
        mfn: u32,
        tag: u16,
        occurrence: u32,
    ) -> Answer<Range<usize>> {
        let call = Call::view_settled(mfn, tag, occurrence);
        read(mst, xrf, call).map(|given| given.part)
    }

    pub type Indexed = (u16, Range<usize>);

    pub fn field(mst: &[u8], xrf: &[u8], mfn: u32, index: usize) -> Answer<Indexed> {
        let given = read(mst, xrf, Call::Field { mfn, index });
        given.map(|given| (given.tag, given.part))
    }

    pub fn field_settled(mst: &[u8], xrf: &[u8], mfn: u32, index: usize) -> Answer<Indexed> {
        let given = read(mst, xrf, Call::FieldSettled { mfn, index });
        given.map(|given| (given.tag, given.part))
    }

    pub fn next(mst: &[u8], xrf: &[u8]) -> Answer<(u32, usize)> {
        read(mst, xrf, Call::Next).map(|given| (given.mfn, given.end))
    }

    pub fn state(mst: &[u8], xrf: &[u8], mfn: u32) -> Answer<State> {
        let given = read(mst, xrf, Call::State(mfn));
        given.map(|given| (given.mark, given.deleted))
    }

    pub fn fields(mst: &[u8], xrf: &[u8], mfn: u32, lists: &mut Lists) -> Answer<usize> {
        let room = lists.room();
        listed(mst, xrf, Call::Fields { mfn, room }, lists)
    }

    pub fn fields_settled(mst: &[u8], xrf: &[u8], mfn: u32, lists: &mut Lists) -> Answer<usize> {
        let room = lists.room();
        listed(mst, xrf, Call::FieldsSettled { mfn, room }, lists)
    }

    pub fn create(mst: &mut [u8], xrf: &mut [u8], draft: &Draft) -> Answer<u32> {
        run(mst, xrf, Call::Create(owned(draft))).map(|given| given.mfn)
    }

    pub fn update(mst: &mut [u8], xrf: &mut [u8], mfn: u32, draft: &Draft) -> Answer<()> {
        run(mst, xrf, Call::Update(mfn, owned(draft))).map(drop)
    }

    pub fn delete(mst: &mut [u8], xrf: &mut [u8], mfn: u32) -> Answer<()> {
        run(mst, xrf, Call::Delete(mfn)).map(drop)
    }

    pub fn settle(mst: &mut [u8], xrf: &mut [u8], mfn: u32) -> Answer<()> {
        run(mst, xrf, Call::Settle(mfn)).map(drop)
    }

    pub fn settle_list(
        mst: &mut [u8],
        xrf: &mut [u8],
        mfns: &[u32],
        answers: &mut [u32],
    ) -> Answer<()> {
        let (mfns, room) = (mfns.to_vec(), answers.len());
        let call = Call::SettleList { mfns, room };
        let given = Archive::new().run(mst, xrf, &call, Side::Back);
        answers.copy_from_slice(&given.answers);
        answered(given).map(drop)
    }

    pub fn revert(mst: &mut [u8], xrf: &mut [u8], mfn: u32) -> Answer<()> {
        run(mst, xrf, Call::Revert(mfn)).map(drop)
    }

    pub fn migrate(mst: &mut [u8], xrf: &mut [u8]) -> Answer<()> {
        run(mst, xrf, Call::Migrate).map(drop)
    }

    pub fn recount(mst: &mut [u8], xrf: &mut [u8]) -> Answer<()> {
        run(mst, xrf, Call::Recount).map(drop)
    }

    pub fn check(mst: &[u8], xrf: &[u8]) -> Answer<()> {
        read(mst, xrf, Call::Check).map(drop)
    }

    /// The archive with an index lent to it.
    fn over(files: &Files) -> index::Archive {
        let mut archive = index::Archive::new();
        archive.lend(files, [Side::Back; 5]);
        archive
    }

    pub fn lookup(files: &Files, term: &[u8]) -> Answer<(i32, i32)> {
        let given = over(files).lookup(term, Side::Back);
        let place = (given.block, given.word);
        assert!(
            given.number == 0 || place == (0, 0),
            "a refusal with a place"
        );
        numbered(given.number, place)
    }

    pub fn check_index(files: &Files) -> Answer<()> {
        numbered(over(files).check(), ())
    }

    /// The archive with a postings file lent to it.
    fn posted(file: &[u8]) -> posted::Archive {
        let mut archive = posted::Archive::new();
        archive.lend(file, Side::Back);
        archive
    }

    /// A list as it was where the call is refused, and behind what it gives.
    fn taken<T: Element>(given: posted::Given<T>, list: &mut [T]) -> Answer<usize> {
        let (items, kept) = given.list.split_at(given.count);
        assert!(kept.iter().all(|item| *item == T::RUBBISH), "not kept");
        list[..items.len()].copy_from_slice(items);
        numbered(given.number, given.count)
    }

    pub fn postings(file: &[u8], from: Place, list: &mut [u64]) -> Answer<usize> {
        let given = posted(file).postings(from, list.len(), Side::Back);
        taken(given, list)
    }

    pub fn common(file: &[u8], from: [Place; 2], mfns: &mut [u32]) -> Answer<usize> {
        let given = posted(file).merged(Merge::Common, from, mfns.len(), Side::Back);
        taken(given, mfns)
    }

    pub fn joined(file: &[u8], from: [Place; 2], mfns: &mut [u32]) -> Answer<usize> {
        let given = posted(file).merged(Merge::Joined, from, mfns.len(), Side::Back);
        taken(given, mfns)
    }

    pub fn posting_read(bytes: &[u8]) -> Answer<Posting> {
        let (number, [mfn, tag, occurrence, sequence]) = posted(&[]).read(bytes, Side::Back);
        numbered(number, Posting::of(mfn, tag, occurrence, sequence))
    }

    pub fn posting_write(posting: Posting, out: &mut [u8]) -> Answer<()> {
        let (number, list) = posted(&[]).write(posting.numbers(), out.len(), Side::Back);
        let count = if number == 0 { 8 } else { 0 };
        let given = posted::Given {
            number,
            count,
            list,
        };
        taken(given, out).map(drop)
    }

    pub fn posting_compare(a: u64, b: u64) -> u32 {
        posted(&[]).compare(a, b)
    }

    pub fn record_test(record: &[u8], mfn: u32, deleted: u32) -> (u32, u32) {
        records::Archive::new().test(record, mfn, deleted, Side::Back)
    }
}

/// Every outcome, as the model has it.
const EXPECTED: &str = include_str!("../../model/examples/outcomes/expected.txt");

#[test]
fn the_archive_gives_the_outcomes_of_the_model() {
    let lines = script::lines();
    for (n, (given, wanted)) in lines.lines().zip(EXPECTED.lines()).enumerate() {
        assert_eq!(given, wanted, "line {}", n + 1);
    }
    assert!(lines == EXPECTED, "one text is longer than the other");
}
