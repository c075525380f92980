//! A record of Version 1 as one of Version 2, by the bytes that are moved and apart
//! from the model's tables.

use crate::model::Version;
use std::borrow::Cow;

/// What Version 2 puts in between: so many blanks behind byte so many of Version 1
/// (the tails of Street Name and Location, Customer Code to TAR, Reserved).
const BLANKS: [(usize, usize); 4] = [(67, 20), (127, 40), (226, 69), (239, 143)];

/// A filed record as it has to be kept.
pub fn wide(version: Version, whole: &[u8]) -> Cow<'_, [u8]> {
    if version == Version::Two {
        return Cow::Borrowed(whole);
    }
    let mut kept = whole.to_vec();
    // From the last one on, so that those before it stay where they are.
    for (behind, blanks) in BLANKS.into_iter().rev() {
        kept.splice(behind..behind, vec![b' '; blanks]);
    }
    Cow::Owned(kept)
}

/// Whether a kept record can be written in a version: with nothing in those places.
pub fn has_form(version: Version, whole: &[u8]) -> bool {
    let mut before = 0;
    version == Version::Two
        || BLANKS.into_iter().all(|(behind, blanks)| {
            let at = behind + before;
            before += blanks;
            whole[at..at + blanks].iter().all(|&byte| byte == b' ')
        })
}
