//! The two rules of a traverse, which are the versions of an image.

use crate::Refused;

/// What a traverse takes back where one of its files is undone. As a number it is the
/// image's version.
#[derive(Clone, Copy, Debug, PartialEq, Eq)]
pub enum Rule {
    /// That file alone; the next one follows.
    PerFile = 1,
    /// The whole traverse; later files do not run.
    PerTraverse = 2,
}

impl From<Rule> for u32 {
    fn from(rule: Rule) -> u32 {
        rule as u32
    }
}

impl TryFrom<u32> for Rule {
    type Error = Refused;

    /// As the library, refuses a version that is neither 1 nor 2 with 11.
    fn try_from(version: u32) -> Result<Rule, Refused> {
        match version {
            1 => Ok(Rule::PerFile),
            2 => Ok(Rule::PerTraverse),
            _ => Err(Refused(11)),
        }
    }
}
