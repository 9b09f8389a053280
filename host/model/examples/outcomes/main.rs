//! Prints every outcome as the model has it:
//! `cargo run --example outcomes > examples/outcomes/expected.txt`.

mod script;

/// What the lines are made on: the model.
mod subject {
    pub use model::ask::{fields, fields_settled, next, state};
    pub use model::index::{check as check_index, lookup};
    pub use model::postings::posting::{
        compare as posting_compare, read as posting_read, write as posting_write,
    };
    pub use model::postings::{common, joined, postings};
    pub use model::record_test::record_test;
    pub use model::store::{
        Answer, Indexed, check, create, delete, field, field_settled, format, migrate, recount,
        revert, settle, settle_list, update, view, view_settled,
    };
}

fn main() {
    print!("{}", script::lines());
}
