//! The C interface as it stands in `include/isis.h`. The safe functions of
//! [`Card`](crate::Card), [`Index`](crate::Index) and [`Ifp`](crate::Ifp) are all that most
//! programs need.

/// What [`isis_view`] and [`isis_view_settled`] are: a call that shows a field.
pub type View = unsafe extern "C" fn(
    *const u8,
    usize,
    *const u8,
    usize,
    u32,
    u16,
    u32,
    *mut usize,
    *mut usize,
    *mut u32,
) -> u32;

/// What [`isis_common`] and [`isis_joined`] are: a call that gives MFNs of two lists.
pub type Merge =
    unsafe extern "C" fn(*const u8, usize, i32, i32, i32, i32, *mut u32, usize, *mut usize) -> u32;

unsafe extern "C" {
    /// Empties a card.
    pub fn isis_format(mst: *mut u8, mst_len: usize, xrf: *mut u8, xrf_len: usize) -> u32;

    /// Shows a field of the current version.
    pub fn isis_view(
        mst: *const u8,
        mst_len: usize,
        xrf: *const u8,
        xrf_len: usize,
        mfn: u32,
        tag: u16,
        occurrence: u32,
        start: *mut usize,
        len: *mut usize,
        occurrences: *mut u32,
    ) -> u32;

    /// Shows a field of the settled version.
    pub fn isis_view_settled(
        mst: *const u8,
        mst_len: usize,
        xrf: *const u8,
        xrf_len: usize,
        mfn: u32,
        tag: u16,
        occurrence: u32,
        start: *mut usize,
        len: *mut usize,
        occurrences: *mut u32,
    ) -> u32;

    /// Shows a field of the current version by its index in the directory.
    pub fn isis_field(
        mst: *const u8,
        mst_len: usize,
        xrf: *const u8,
        xrf_len: usize,
        mfn: u32,
        index: usize,
        tag: *mut u16,
        start: *mut usize,
        len: *mut usize,
    ) -> u32;

    /// Shows a field of the settled version by its index in the directory.
    pub fn isis_field_settled(
        mst: *const u8,
        mst_len: usize,
        xrf: *const u8,
        xrf_len: usize,
        mfn: u32,
        index: usize,
        tag: *mut u16,
        start: *mut usize,
        len: *mut usize,
    ) -> u32;

    /// Hands out all fields of the current version.
    pub fn isis_fields(
        mst: *const u8,
        mst_len: usize,
        xrf: *const u8,
        xrf_len: usize,
        mfn: u32,
        tags: *mut u16,
        tags_len: usize,
        starts: *mut usize,
        starts_len: usize,
        lens: *mut usize,
        lens_len: usize,
        count: *mut usize,
    ) -> u32;

    /// Hands out all fields of the settled version.
    pub fn isis_fields_settled(
        mst: *const u8,
        mst_len: usize,
        xrf: *const u8,
        xrf_len: usize,
        mfn: u32,
        tags: *mut u16,
        tags_len: usize,
        starts: *mut usize,
        starts_len: usize,
        lens: *mut usize,
        lens_len: usize,
        count: *mut usize,
    ) -> u32;

    /// Tells what the next create is given.
    pub fn isis_next(
        mst: *const u8,
        mst_len: usize,
        xrf: *const u8,
        xrf_len: usize,
        next: *mut u32,
        end: *mut usize,
    ) -> u32;

    /// Tells the state of a record.
    pub fn isis_state(
        mst: *const u8,
        mst_len: usize,
        xrf: *const u8,
        xrf_len: usize,
        mfn: u32,
        mark: *mut u32,
        deleted: *mut u32,
    ) -> u32;

    /// Writes a new record.
    pub fn isis_create(
        mst: *mut u8,
        mst_len: usize,
        xrf: *mut u8,
        xrf_len: usize,
        tags: *const u16,
        tags_len: usize,
        lens: *const u16,
        lens_len: usize,
        data: *const u8,
        data_len: usize,
        mfn: *mut u32,
    ) -> u32;

    /// Replaces the fields of a record.
    pub fn isis_update(
        mst: *mut u8,
        mst_len: usize,
        xrf: *mut u8,
        xrf_len: usize,
        mfn: u32,
        tags: *const u16,
        tags_len: usize,
        lens: *const u16,
        lens_len: usize,
        data: *const u8,
        data_len: usize,
    ) -> u32;

    /// Deletes a record.
    pub fn isis_delete(mst: *mut u8, mst_len: usize, xrf: *mut u8, xrf_len: usize, mfn: u32)
    -> u32;

    /// Makes a pending change final.
    pub fn isis_settle(mst: *mut u8, mst_len: usize, xrf: *mut u8, xrf_len: usize, mfn: u32)
    -> u32;

    /// Makes the settled version current again.
    pub fn isis_revert(mst: *mut u8, mst_len: usize, xrf: *mut u8, xrf_len: usize, mfn: u32)
    -> u32;

    /// Makes the pending changes of a list of records final.
    pub fn isis_settle_list(
        mst: *mut u8,
        mst_len: usize,
        xrf: *mut u8,
        xrf_len: usize,
        mfns: *const u32,
        mfns_len: usize,
        answers: *mut u32,
        answers_len: usize,
    ) -> u32;

    /// Counts the end of a card written before isis.h 2.0 from one.
    pub fn isis_migrate(mst: *mut u8, mst_len: usize, xrf: *mut u8, xrf_len: usize) -> u32;

    /// Writes RECCNT of a card that did not keep it.
    pub fn isis_recount(mst: *mut u8, mst_len: usize, xrf: *mut u8, xrf_len: usize) -> u32;

    /// Checks the whole store.
    pub fn isis_check(mst: *const u8, mst_len: usize, xrf: *const u8, xrf_len: usize) -> u32;

    /// Tests a single record and tells the first entry of its directory that breaks a rule.
    pub fn isis_record_test(
        record: *const u8,
        len: usize,
        mfn: u32,
        deleted: u32,
        entry: *mut u32,
    ) -> u32;

    /// Looks a term up in an index.
    pub fn isis_lookup(
        cnt: *const u8,
        cnt_len: usize,
        n01: *const u8,
        n01_len: usize,
        l01: *const u8,
        l01_len: usize,
        n02: *const u8,
        n02_len: usize,
        l02: *const u8,
        l02_len: usize,
        term: *const u8,
        term_len: usize,
        block: *mut i32,
        word: *mut i32,
    ) -> u32;

    /// Checks a whole index.
    pub fn isis_check_index(
        cnt: *const u8,
        cnt_len: usize,
        n01: *const u8,
        n01_len: usize,
        l01: *const u8,
        l01_len: usize,
        n02: *const u8,
        n02_len: usize,
        l02: *const u8,
        l02_len: usize,
    ) -> u32;

    /// Reads the four numbers of a posting.
    pub fn isis_posting_read(
        bytes: *const u8,
        len: usize,
        mfn: *mut u32,
        tag: *mut u32,
        occurrence: *mut u32,
        sequence: *mut u32,
    ) -> u32;

    /// Writes a posting.
    pub fn isis_posting_write(
        mfn: u32,
        tag: u32,
        occurrence: u32,
        sequence: u32,
        out: *mut u8,
        out_len: usize,
    ) -> u32;

    /// Compares two postings: 0 less, 1 equal, 2 greater.
    pub fn isis_posting_compare(a: u64, b: u64) -> u32;

    /// Hands out the postings of a list.
    pub fn isis_postings(
        ifp: *const u8,
        ifp_len: usize,
        block: i32,
        word: i32,
        out: *mut u64,
        out_len: usize,
        count: *mut usize,
    ) -> u32;

    /// Gives the MFNs that two lists have in common.
    pub fn isis_common(
        ifp: *const u8,
        ifp_len: usize,
        block_a: i32,
        word_a: i32,
        block_b: i32,
        word_b: i32,
        mfns: *mut u32,
        mfns_len: usize,
        count: *mut usize,
    ) -> u32;

    /// Gives the MFNs of either of two lists.
    pub fn isis_joined(
        ifp: *const u8,
        ifp_len: usize,
        block_a: i32,
        word_a: i32,
        block_b: i32,
        word_b: i32,
        mfns: *mut u32,
        mfns_len: usize,
        count: *mut usize,
    ) -> u32;
}
