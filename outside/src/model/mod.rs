//! The description as plain, safe Rust, without indexes or copies: it says what
//! is right, and it is the speed that the product is measured against.

pub mod apply;
pub mod convert;
pub mod date;
pub mod desk;
pub mod file;
pub mod form;
pub mod guide;
pub mod layout;
pub mod load;
pub mod lookup;
pub mod results;
pub mod rules;
pub mod store;
pub mod tagged;
pub mod take;
pub mod versions;

#[cfg(test)]
mod cases;
#[cfg(test)]
mod tagged_cases;

pub use convert::convert_register;
pub use load::write_load;
pub use lookup::lookup;
pub use results::{Converted, Found, Loaded, Tagged, Taken};
pub use rules::{Described, Former, Rules};
pub use tagged::{read_tagged, write_tagged};
pub use take::{apply_data, apply_guide, check_data, check_guide};
pub use versions::Version;
