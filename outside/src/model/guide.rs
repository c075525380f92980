//! Which rows cover an address, and which rows clash.

use super::form::{number, parity_allows};
use super::layout::{record, row, SLOT_HEAD};
use super::rules::Rules;
use super::store::{rows, PRESENT};

/// Directionals, street and suffix stand together in record and row.
#[inline(always)]
fn row_street(whole: &[u8]) -> &[u8] {
    &whole[row::PREFIX.first - 1..row::POST.last]
}

/// Community and state stand together in record and row.
#[inline(always)]
fn row_place(whole: &[u8]) -> &[u8] {
    &whole[row::COMMUNITY.first - 1..row::STATE.last]
}

/// Bytes of prefix and street that nearly always tell two streets apart.
const HEAD: usize = 16;

/// Equal byte for byte; the first bytes are tested apart, since they mostly
/// decide, and without a look at the rest.
#[inline(always)]
fn equal_streets(one: &[u8], other: &[u8]) -> bool {
    one[..HEAD] == other[..HEAD] && one[HEAD..] == other[HEAD..]
}

/// An address as a record gives it.
pub struct Address<'a> {
    street: &'a [u8; 68],
    place: &'a [u8; 34],
    house: u32,
}

impl<'a> Address<'a> {
    /// The address of a record of good form; "blank counts as 0".
    #[inline]
    pub fn of(whole: &'a [u8]) -> Self {
        let street = &whole[record::PREFIX.first - 1..record::POST.last];
        let place = &whole[record::COMMUNITY.first - 1..record::STATE.last];
        Address {
            street: street.try_into().expect("26 to 93"),
            place: place.try_into().expect("94 to 127"),
            house: number(record::HOUSE.of(whole)),
        }
    }

    /// "A row covers an address when the street fields are equal byte for byte,
    /// the house number lies in Low to High, and parity allows it."
    #[inline]
    pub fn is_under(&self, whole: &[u8]) -> bool {
        equal_streets(row_street(whole), self.street)
            && row_place(whole) == self.place
            && (number(row::LOW.of(whole))..=number(row::HIGH.of(whole))).contains(&self.house)
            && parity_allows(row::PARITY.of(whole)[0], self.house)
    }
}

/// The lowest row that covers the address.
#[inline]
pub fn lowest_cover<'a>(guide: &'a [u8], address: &Address) -> Option<&'a [u8]> {
    rows(guide)
        .filter(|slot| slot[0] == PRESENT)
        .map(|slot| &slot[SLOT_HEAD..])
        .find(|whole| address.is_under(whole))
}

/// Whether the street fields of two rows are the same.
#[inline]
pub fn same_street(one: &[u8], other: &[u8]) -> bool {
    equal_streets(row_street(one), row_street(other)) && row_place(one) == row_place(other)
}

/// Whether "some house number is covered" by both rows of one street.
pub fn clash<R: Rules>(one: &[u8], other: &[u8]) -> bool {
    let low = number(row::LOW.of(one)).max(number(row::LOW.of(other)));
    let high = number(row::HIGH.of(one)).min(number(row::HIGH.of(other)));
    if low > high || !R::CLASH_BY_PARITY {
        return low <= high;
    }
    // Two neighbours hold both parities, so no third number need be tried.
    let parities = [row::PARITY.of(one)[0], row::PARITY.of(other)[0]];
    (low..=high.min(low + 1))
        .any(|house| parities.iter().all(|&parity| parity_allows(parity, house)))
}

/// "Same street fields, Low and High as numbers, parity and ESN bytes."
#[inline]
pub fn same_row(one: &[u8], other: &[u8]) -> bool {
    same_street(one, other)
        && row::PARITY.of(one) == row::PARITY.of(other)
        && row::ESN.of(one) == row::ESN.of(other)
        && number(row::LOW.of(one)) == number(row::LOW.of(other))
        && number(row::HIGH.of(one)) == number(row::HIGH.of(other))
}
