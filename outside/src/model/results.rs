//! What the functions give back.

/// The answer to a check and to an apply.
#[repr(C)]
#[derive(Clone, Copy, Debug, Default, PartialEq, Eq)]
pub struct Taken {
    /// The refusal's number, 0 if none.
    pub refusal: u32,
    /// First bad record from 1, only in refusal 9.
    pub place: u32,
    /// First byte of its first bad field, only in refusal 9.
    pub position: u32,
    /// Records of a file that is not refused.
    pub records: u32,
    /// Answers that are 0; a check gives none.
    pub done: u32,
    /// Answers that are not.
    pub undone: u32,
    /// The last cycle afterwards: a check leaves it as given.
    pub last: u32,
}

/// The answer to the writing of a load file.
#[repr(C)]
#[derive(Clone, Copy, Debug, Default, PartialEq, Eq)]
pub struct Loaded {
    /// The refusal's number, 0 if none.
    pub refusal: u32,
    /// Bytes written.
    pub bytes: u32,
    /// Entries written.
    pub entries: u32,
    /// The lowest entry's slot, from 0, that has no form in Version 1; only in
    /// refusal 27.
    pub slot: u32,
}

/// The answer to a lookup.
#[derive(Clone, Copy, Debug, Default, PartialEq, Eq)]
pub struct Found {
    /// The refusal's number, 0 if none.
    pub refusal: u32,
    /// The slot's state, 0 if absent.
    pub state: u32,
    /// The slot from 0, 0 if absent.
    pub slot: u32,
    /// Slots looked at.
    pub looked: u32,
}

/// The answer to a conversion.
#[repr(C)]
#[derive(Clone, Copy, Debug, Default, PartialEq, Eq)]
pub struct Converted {
    /// The refusal's number, 0 if none.
    pub refusal: u32,
    /// The lowest slot, from 0, whose day has no reading now; only in refusal 28.
    pub slot: u32,
}

/// The answer to the reading and to the writing of a tagged text.
#[repr(C)]
#[derive(Clone, Copy, Debug, Default, PartialEq, Eq)]
pub struct Tagged {
    /// The refusal's number, 0 if none.
    pub refusal: u32,
    /// First byte of the record's first bad field, only in refusal 9; 0 where the
    /// record to write has another length.
    pub position: u32,
    /// Bytes written.
    pub bytes: u32,
}
