//! The layouts as tables. "The positions are one constant table that reading,
//! checking and writing all use."

/// Bytes of a data record of Version 2, and of every record that is stored.
pub const RECORD: usize = 512;
/// Bytes of a data record of Version 1.
pub const NARROW_RECORD: usize = 240;
/// Bytes of a guide row.
pub const ROW: usize = 200;
/// Bytes of a header, and of a trailer.
pub const EDGE: usize = 200;
/// The same in Version 1.
pub const NARROW_EDGE: usize = 160;
/// "A file has 0 to 9999 records."
pub const MOST_RECORDS: usize = 9999;
/// "Register and guide have 1 to 4096 slots each."
pub const MOST_SLOTS: usize = 4096;
/// Bytes before the record or row in its slot.
pub const SLOT_HEAD: usize = 8;
/// Bytes of a register slot.
pub const REGISTER_SLOT: usize = SLOT_HEAD + RECORD;
/// Bytes of a guide slot.
pub const GUIDE_SLOT: usize = SLOT_HEAD + ROW;

/// What the bytes of a field that is not blank must look like.
#[derive(Clone, Copy, Debug, PartialEq, Eq)]
pub enum Form {
    /// Any printable bytes, not even left-justified.
    Free,
    /// Printable and left-justified.
    Text,
    /// Exactly these bytes.
    Mark(&'static [u8]),
    /// One byte of these.
    OneOf(&'static [u8]),
    /// One digit up to this one.
    DigitTo(u8),
    /// Digits only, to the last byte.
    AllDigits,
    /// One to so many digits, then only spaces.
    Digits(usize),
    /// N S E W NE NW SE SW.
    Directional,
    /// Capitals only, to the last byte.
    Capitals,
    /// Capitals and digits, then only spaces.
    CompanyId,
    /// MMDDYY, a real calendar day.
    Date,
    /// Right-justified, leading spaces, no leading zero, zero is one `0`.
    Count,
}

/// When a field may be blank.
#[derive(Clone, Copy, Debug, PartialEq, Eq)]
pub enum Blank {
    /// Always.
    May,
    /// "May be blank only in D and U."
    OnlyInDAndU,
    /// Never.
    Never,
}

/// A field of a layout.
#[derive(Clone, Copy, Debug, PartialEq, Eq)]
pub struct Field {
    /// The description's name.
    pub name: &'static str,
    /// First byte, from 1.
    pub first: usize,
    /// Last byte, from 1.
    pub last: usize,
    /// The form of its bytes.
    pub form: Form,
    /// When it may be blank.
    pub blank: Blank,
}

impl Field {
    const fn new(name: &'static str, first: usize, last: usize, form: Form, blank: Blank) -> Self {
        Field {
            name,
            first,
            last,
            form,
            blank,
        }
    }

    /// The field's bytes in a whole record, row, header or trailer.
    #[inline(always)]
    pub fn of(self, whole: &[u8]) -> &[u8] {
        &whole[self.first - 1..self.last]
    }

    /// The field's bytes, to be written.
    #[inline(always)]
    pub fn of_mut(self, whole: &mut [u8]) -> &mut [u8] {
        &mut whole[self.first - 1..self.last]
    }

    /// How many bytes the field has.
    pub const fn length(self) -> usize {
        self.last - self.first + 1
    }
}

/// A test that every field of a layout is put to.
pub trait Test {
    /// Whether the field passes.
    fn passes(&self, field: Field) -> bool;
}

/// Names each field as a constant and lays them all in one table.
macro_rules! layout {
    ($(#[$doc:meta])* $table:ident, $count:literal:
     $($id:ident $name:literal $first:literal $last:literal $form:expr, $blank:ident;)*) => {
        $(#[doc = $name] pub const $id: Field =
            Field::new($name, $first, $last, $form, Blank::$blank);)*
        $(#[$doc])* pub const $table: [Field; $count] = [$($id),*];

        /// First byte, from 1, of the first field that fails: the table written
        /// out, so that each field's test is made for its form and length.
        #[inline(always)]
        pub fn first_fault(test: &impl Test) -> Option<usize> {
            $(if !test.passes($id) {
                return Some($first);
            })*
            None
        }
    };
}

/// A layout of Version 1, each field beside the one of Version 2 that it is.
macro_rules! narrow_layout {
    ($(#[$doc:meta])* $table:ident, $count:literal, $wide:path:
     $($id:ident $name:literal $first:literal $last:literal $form:expr, $blank:ident;)*) => {
        layout! {
            $(#[$doc])* $table, $count:
            $($id $name $first $last $form, $blank;)*
        }

        /// Every field and the field of Version 2 that it is: the table written
        /// out, so that each copy is made for its length.
        #[inline(always)]
        pub fn each_with_wide(mut visit: impl FnMut(Field, Field)) {
            use $wide as wide;
            $(visit($id, wide::$id);)*
        }
    };
}

/// The data record's fields in Version 2 (Exhibit 5, positions decide).
pub mod record {
    use super::{Blank, Field, Form, Test};
    layout! {
        /// All fields of the data record.
        FIELDS, 37:
        FUNCTION "Function" 1 1 Form::OneOf(b"CDIUM"), Never;
        NPA "NPA" 2 4 Form::AllDigits, Never;
        CALLING_NUMBER "Calling Number" 5 11 Form::AllDigits, Never;
        HOUSE "House Number" 12 21 Form::Digits(8), May;
        HOUSE_SUFFIX "House Suffix" 22 25 Form::Text, May;
        PREFIX "Prefix Directional" 26 27 Form::Directional, May;
        STREET "Street Name" 28 87 Form::Text, OnlyInDAndU;
        SUFFIX "Street Suffix" 88 91 Form::Text, May;
        POST "Post Directional" 92 93 Form::Directional, May;
        COMMUNITY "Community" 94 125 Form::Text, OnlyInDAndU;
        STATE "State" 126 127 Form::Capitals, OnlyInDAndU;
        LOCATION "Location" 128 187 Form::Text, May;
        CUSTOMER_NAME "Customer Name" 188 219 Form::Text, May;
        CLASS "Class" 220 220 Form::DigitTo(b'9'), OnlyInDAndU;
        TYPE "Type" 221 221 Form::DigitTo(b'5'), OnlyInDAndU;
        EXCHANGE "Exchange" 222 225 Form::Text, May;
        ESN "ESN" 226 230 Form::Digits(5), May;
        MAIN_NPA "Main NPA" 231 233 Form::Text, May;
        MAIN_NUMBER "Main Number" 234 240 Form::Text, May;
        ORDER "Order" 241 250 Form::Text, May;
        DATE "Date" 251 256 Form::Date, Never;
        COUNTY "County" 257 260 Form::Text, May;
        COMPANY_ID "Company ID" 261 265 Form::CompanyId, Never;
        SOURCE "Source" 266 266 Form::OneOf(b"C"), May;
        ZIP "Zip" 267 271 Form::Text, May;
        ZIP4 "Zip+4" 272 275 Form::Text, May;
        GENERAL_USE "General Use" 276 286 Form::Free, May;
        CUSTOMER_CODE "Customer Code" 287 289 Form::Text, May;
        COMMENTS "Comments" 290 319 Form::Text, May;
        X "X" 320 328 Form::Text, May;
        Y "Y" 329 337 Form::Text, May;
        Z "Z" 338 342 Form::Text, May;
        CELL "Cell" 343 348 Form::Text, May;
        SECTOR "Sector" 349 349 Form::Text, May;
        TAR "TAR" 350 355 Form::Text, May;
        RESERVED "Reserved" 356 511 Form::Free, May;
        STAR "*" 512 512 Form::OneOf(b"*"), Never;
    }
}

/// The guide row's fields.
pub mod row {
    use super::{Blank, Field, Form, Test};
    layout! {
        /// All fields of the guide row.
        FIELDS, 13:
        PREFIX "Prefix" 1 2 Form::Directional, May;
        STREET "Street" 3 62 Form::Text, Never;
        SUFFIX "Suffix" 63 66 Form::Text, May;
        POST "Post" 67 68 Form::Directional, May;
        LOW "Low" 69 78 Form::Digits(8), Never;
        HIGH "High" 79 88 Form::Digits(8), Never;
        COMMUNITY "Community" 89 120 Form::Text, Never;
        STATE "State" 121 122 Form::Capitals, Never;
        PARITY "parity" 123 123 Form::OneOf(b"OEB"), Never;
        ESN "ESN" 124 128 Form::Digits(5), Never;
        FREE "free" 129 198 Form::Free, May;
        FUNCTION "Function" 199 199 Form::OneOf(b"ID"), Never;
        STAR "*" 200 200 Form::OneOf(b"*"), Never;
    }
}

/// The header's fields.
pub mod header {
    use super::{Blank, Field, Form, Test};
    layout! {
        /// All fields of the header.
        FIELDS, 6:
        MARK "UHL" 1 5 Form::Mark(b"UHL  "), Never;
        DATE "date" 6 11 Form::Date, Never;
        NAME "company name" 12 61 Form::Text, Never;
        CYCLE "cycle" 62 67 Form::Digits(6), Never;
        FREE "free" 68 199 Form::Free, May;
        STAR "*" 200 200 Form::OneOf(b"*"), Never;
    }
}

/// The trailer's fields.
pub mod trailer {
    use super::{Blank, Field, Form, Test};
    layout! {
        /// All fields of the trailer.
        FIELDS, 6:
        MARK "UTL" 1 5 Form::Mark(b"UTL  "), Never;
        DATE "date" 6 11 Form::Date, Never;
        NAME "name" 12 61 Form::Text, Never;
        COUNT "record count" 62 70 Form::Count, Never;
        FREE "free" 71 199 Form::Free, May;
        STAR "*" 200 200 Form::OneOf(b"*"), Never;
    }
}

/// "The 240-byte record of document 003, Exhibit 1, with 160-byte header and
/// trailer: ours, with the free part shortened."
pub mod narrow {
    /// The data record's fields in Version 1: eight of Version 2 are not among
    /// them, and Street Name, Location and Reserved are shorter.
    pub mod record {
        use super::super::{Blank, Field, Form, Test};
        narrow_layout! {
            /// All fields of the data record. "Version 1 knows only C, D and I."
            FIELDS, 29, super::super::record:
            FUNCTION "Function" 1 1 Form::OneOf(b"CDI"), Never;
            NPA "NPA" 2 4 Form::AllDigits, Never;
            CALLING_NUMBER "Calling Number" 5 11 Form::AllDigits, Never;
            HOUSE "House Number" 12 21 Form::Digits(8), May;
            HOUSE_SUFFIX "House Suffix" 22 25 Form::Text, May;
            PREFIX "Prefix Directional" 26 27 Form::Directional, May;
            STREET "Street Name" 28 67 Form::Text, OnlyInDAndU;
            SUFFIX "Street Suffix" 68 71 Form::Text, May;
            POST "Post Directional" 72 73 Form::Directional, May;
            COMMUNITY "Community" 74 105 Form::Text, OnlyInDAndU;
            STATE "State" 106 107 Form::Capitals, OnlyInDAndU;
            LOCATION "Location" 108 127 Form::Text, May;
            CUSTOMER_NAME "Customer Name" 128 159 Form::Text, May;
            CLASS "Class" 160 160 Form::DigitTo(b'9'), OnlyInDAndU;
            TYPE "Type" 161 161 Form::DigitTo(b'5'), OnlyInDAndU;
            EXCHANGE "Exchange" 162 165 Form::Text, May;
            ESN "ESN" 166 170 Form::Digits(5), May;
            MAIN_NPA "Main NPA" 171 173 Form::Text, May;
            MAIN_NUMBER "Main Number" 174 180 Form::Text, May;
            ORDER "Order" 181 190 Form::Text, May;
            DATE "Date" 191 196 Form::Date, Never;
            COUNTY "County" 197 200 Form::Text, May;
            COMPANY_ID "Company ID" 201 205 Form::CompanyId, Never;
            SOURCE "Source" 206 206 Form::OneOf(b"C"), May;
            ZIP "Zip" 207 211 Form::Text, May;
            ZIP4 "Zip+4" 212 215 Form::Text, May;
            GENERAL_USE "General Use" 216 226 Form::Free, May;
            RESERVED "Reserved" 227 239 Form::Free, May;
            STAR "*" 240 240 Form::OneOf(b"*"), Never;
        }
    }

    /// The header's fields.
    pub mod header {
        use super::super::{Blank, Field, Form, Test};
        layout! {
            /// All fields of the header.
            FIELDS, 6:
            MARK "UHL" 1 5 Form::Mark(b"UHL  "), Never;
            DATE "date" 6 11 Form::Date, Never;
            NAME "company name" 12 61 Form::Text, Never;
            CYCLE "cycle" 62 67 Form::Digits(6), Never;
            FREE "free" 68 159 Form::Free, May;
            STAR "*" 160 160 Form::OneOf(b"*"), Never;
        }
    }

    /// The trailer's fields.
    pub mod trailer {
        use super::super::{Blank, Field, Form, Test};
        layout! {
            /// All fields of the trailer.
            FIELDS, 6:
            MARK "UTL" 1 5 Form::Mark(b"UTL  "), Never;
            DATE "date" 6 11 Form::Date, Never;
            NAME "name" 12 61 Form::Text, Never;
            COUNT "record count" 62 70 Form::Count, Never;
            FREE "free" 71 159 Form::Free, May;
            STAR "*" 160 160 Form::OneOf(b"*"), Never;
        }
    }
}

#[cfg(test)]
mod tests {
    use super::*;

    fn tiles(fields: &[Field], length: usize) {
        let mut next = 1;
        for field in fields {
            assert_eq!(field.first, next, "{}", field.name);
            next = field.last + 1;
        }
        assert_eq!(next, length + 1);
    }

    #[test]
    fn every_layout_tiles_its_length_without_gap() {
        tiles(&record::FIELDS, RECORD);
        tiles(&row::FIELDS, ROW);
        tiles(&header::FIELDS, EDGE);
        tiles(&trailer::FIELDS, EDGE);
        tiles(&narrow::record::FIELDS, NARROW_RECORD);
        tiles(&narrow::header::FIELDS, NARROW_EDGE);
        tiles(&narrow::trailer::FIELDS, NARROW_EDGE);
    }

    #[test]
    fn header_and_trailer_differ_in_their_free_part_alone() {
        assert_eq!(header::FIELDS[..4], narrow::header::FIELDS[..4]);
        assert_eq!(trailer::FIELDS[..4], narrow::trailer::FIELDS[..4]);
    }
}
