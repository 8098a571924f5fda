//! How many messages are explained.

use crate::advice::{self, Section};
use crate::log::{Message, Severity};
use std::collections::HashSet;

/// How many errors, and how many warnings, are explained; of the others the first of each kind.
const MOST_EXPLAINED: u64 = 1_000;

/// The messages that were explained.
#[derive(Debug, Default)]
pub(super) struct Explained {
    errors: u64,
    warnings: u64,
    /// The kinds of messages that were met: whether they are errors, and their rows of the advice.
    kinds: HashSet<(bool, Option<usize>)>,
    /// How many weren't explained.
    pub(super) left_out: u64,
}

impl Explained {
    /// Whether a message needn't be explained, since many were, and some of its kind; then it is counted. `is_new` says that it is of a new kind in any case.
    pub(super) fn is_enough(&mut self, message: &Message<'_>, is_new: bool) -> bool {
        const ALL: [Section; 6] =
            [Section::Aux, Section::Run, Section::Style, Section::Execution, Section::Database, Section::Entries];
        let is_error = message.severity == Severity::Error;
        let kind = (is_error, advice::find(&ALL, message.text).map(|advice| advice.number));
        let is_new = self.kinds.insert(kind) || is_new;
        let count = if is_error { &mut self.errors } else { &mut self.warnings };
        let is_enough = *count >= MOST_EXPLAINED && !is_new;
        *count += u64::from(!is_enough);
        self.left_out += u64::from(is_enough);
        is_enough
    }
}
