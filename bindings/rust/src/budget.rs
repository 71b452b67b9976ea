//! A bound on requests that are reset before their answer (RFC 9114, sections 4.1.1 and 10.5).
use crate::error::Code;
use crate::sys;

/// How many requests of a connection were answered, and how many its client reset before their answer.
///
/// A client that sends requests and resets them at once costs a server work, and QUIC's limit of streams does
/// not bound it: a stream that is reset makes room for the next one. A server keeps one budget for all
/// requests of a connection.
///
/// ```
/// use vesgrauf::budget::RequestBudget;
/// use vesgrauf::error::Code;
///
/// let mut budget = RequestBudget::with_excess(1);
/// budget.answered();
/// assert_eq!(budget.reset_unanswered(), None);
/// assert_eq!(budget.reset_unanswered(), None);
/// assert_eq!(budget.reset_unanswered(), Some(Code::H3_EXCESSIVE_LOAD));
/// ```
#[derive(Clone, Debug, PartialEq, Eq)]
pub struct RequestBudget {
    state: sys::RequestBudget,
}

impl Default for RequestBudget {
    fn default() -> Self {
        RequestBudget::new()
    }
}

impl RequestBudget {
    /// Creates the budget of a connection without requests. At most 100 more requests may be reset before
    /// their answer than are answered.
    pub const fn new() -> Self {
        RequestBudget::with_excess(100)
    }

    /// The same with another number in place of 100.
    pub const fn with_excess(excess: u64) -> Self {
        RequestBudget { state: sys::RequestBudget { excess, answers: 0, resets: 0 } }
    }

    /// Counts a request that was answered: one whose final response was sent. Nothing changes once too many
    /// were reset.
    pub fn answered(&mut self) {
        sys::request_answered(&mut self.state);
    }

    /// Counts a request that its client reset before it was answered. Returns
    /// [`Code::H3_EXCESSIVE_LOAD`] if more were reset than were answered and the excess together: close the
    /// connection with it. Every later call then returns it too, and counts nothing.
    pub fn reset_unanswered(&mut self) -> Option<Code> {
        sys::request_reset(&mut self.state).map(Code::new)
    }
}
