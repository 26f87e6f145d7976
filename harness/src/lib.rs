//! Generated cases, comparisons and measurements for the proved emulator. The
//! reference emulator says what is right.

pub mod arguments;
pub mod case_words;
pub mod crosscheck;
pub mod definition_cases;
pub mod example;
pub mod text;

#[cfg(feature = "library")]
pub mod baseline;
#[cfg(feature = "library")]
pub mod bench;
#[cfg(feature = "library")]
pub mod codes;
#[cfg(feature = "library")]
pub mod differential;
#[cfg(feature = "library")]
pub mod words;
