//! What the port is to answer to a request.

use crate::path::smoothing::reach::{self, Built};
use crate::refusal::Refusal;
use crate::request::Request;

impl Request {
    /// What the port is to answer: the source's answer, with the checks that documents 01 and 02 add.
    pub fn answer(&self) -> Result<Built, Refusal> {
        match self.refused_before_source() {
            Some(number) => Err(number.into()),
            None => self.answer_with_room(),
        }
    }

    /// The same where 18, 20 and 19 do not hold: the source's answer, with 26 after its 4.
    pub fn answer_with_room(&self) -> Result<Built, Refusal> {
        if self.is_too_fine() && self.first_refusal() > 4 {
            return Err(26.into());
        }
        reach::build(self).map_err(Refusal::from)
    }

    /// The source's number with no segment allowed: of 1 to 8 the first.
    fn first_refusal(&self) -> usize {
        let none = self.clone().with(|q| q.config.max_segments = 0);
        reach::build(&none).map_or_else(|e| Refusal::from(e).number, |_| 0)
    }
}
