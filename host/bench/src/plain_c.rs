//! The plain C versions of the folder c as a back end of the timed calls.

/// Plain C as a back end.
pub struct PlainC;

interface::timed_in_c!(PlainC, "plain_");
