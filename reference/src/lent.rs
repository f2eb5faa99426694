//! What a call is lent, and the numbers that come before its line is read.

use crate::expand::Expander;
use crate::image::{self, Pair};
use crate::limits;
use crate::number::{Number, Refusal};
use crate::seen::Seen;
use crate::variables::Variables;

/// What a call reads; the variables are the whole buffer, and the assignments' job has no paths.
pub struct Lent<'a> {
    pub line: &'a [u8],
    pub variables: &'a [u8],
    pub used: usize,
    pub homes: &'a [u8],
    pub paths: Option<&'a [u8]>,
    pub parameters: &'a [u8],
    pub shout: bool,
    pub work: usize,
}

/// The tables of a call whose line may be read.
pub struct Checked {
    variables: Variables,
    homes: Vec<Pair>,
    pub paths: Vec<Vec<u8>>,
    parameters: Vec<Vec<u8>>,
}

impl Lent<'_> {
    /// The numbers 1 to 4, 23, 5 and 6 in this order; without paths there is no 4.
    pub fn check(&self) -> Result<Checked, Refusal> {
        if self.work < limits::WORK_AREA {
            return Err(Number::WorkArea.at(0));
        }
        let variables = self.variables.get(..self.used).and_then(image::variables);
        let variables = variables.ok_or(Number::Variables.at(0))?;
        let homes = image::homes(self.homes).ok_or(Number::Homes.at(0))?;
        let paths = match self.paths {
            Some(paths) => image::paths(paths).ok_or(Number::Paths.at(0))?,
            None => Vec::new(),
        };
        let parameters = image::fields(self.parameters).ok_or(Number::Parameters.at(0))?;
        if self.line.len() > limits::LINE {
            return Err(Number::LineTooLong.at(0));
        }
        if self.line.contains(&0) {
            return Err(Number::ZeroByte.at(0));
        }
        let variables = Variables::new(variables, self.variables.len().min(limits::IMAGE), self.shout);
        Ok(Checked { variables, homes, paths, parameters })
    }
}

impl Checked {
    /// What expands with these tables; the variables are its own.
    pub fn expander(&self) -> Expander<'_> {
        Expander {
            variables: self.variables.clone(),
            homes: &self.homes,
            parameters: &self.parameters,
            message: Vec::new(),
            seen: Seen::default(),
        }
    }
}
