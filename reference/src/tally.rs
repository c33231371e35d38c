//! "One small tally record which each edit raises."

use crate::edits::Edit;
use crate::machine::Answer;

/// "Accepted, refused, added, removed, the last two counting visits."
#[derive(Clone, Copy, Debug, Default, PartialEq, Eq)]
pub struct Tally {
    pub accepted: u32,
    pub refused: u32,
    pub added: u32,
    pub removed: u32,
}

impl Tally {
    /// The tally after an edit and its answer, as the central machine gives them.
    pub fn raised(self, edit: &Edit, answer: Answer) -> Tally {
        if answer.refusal != 0 {
            return Tally { refused: self.refused + 1, ..self };
        }
        let adds = matches!(edit, Edit::Place(_) | Edit::Prepend(..) | Edit::Append(..));
        Tally {
            accepted: self.accepted + 1,
            added: self.added + u32::from(adds),
            removed: self.removed + answer.removed,
            ..self
        }
    }
}
