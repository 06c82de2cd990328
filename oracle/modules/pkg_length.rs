//! Stand-in: the length of a package, from the ACPI specification (6.4, 20.2.4).
use crate::parser::{ParseResult, Parser, Propagate};
use crate::{AmlContext, AmlError};

#[derive(Clone, Copy)]
pub struct PkgLength {
    /// How many bytes of the stream lie behind the package.
    pub end_offset: u32,
}

impl PkgLength {
    pub fn from_raw_length(stream: &[u8], raw_length: u32) -> Result<PkgLength, AmlError> {
        match (stream.len() as u32).checked_sub(raw_length) {
            Some(end_offset) => Ok(PkgLength { end_offset }),
            None => Err(AmlError::InvalidPkgLength),
        }
    }

    pub fn still_parsing(&self, stream: &[u8]) -> bool {
        stream.len() as u32 > self.end_offset
    }
}

/// The highest two bits of the first byte say how many bytes follow; the length counts from the first byte on.
pub fn pkg_length<'a, 'c>() -> impl Parser<'a, 'c, PkgLength>
where
    'c: 'a,
{
    |input: &'a [u8], context: &'c mut AmlContext| -> ParseResult<'a, 'c, PkgLength> {
        let lead = match input.first() {
            Some(&lead) => lead,
            None => return Err((input, context, Propagate::Err(AmlError::UnexpectedEndOfStream))),
        };
        let more = (lead >> 6) as usize;
        if input.len() < 1 + more {
            return Err((input, context, Propagate::Err(AmlError::UnexpectedEndOfStream)));
        }
        let mut length = if more == 0 { (lead & 0x3f) as u32 } else { (lead & 0x0f) as u32 };
        for i in 0..more {
            length += (input[1 + i] as u32) << (4 + 8 * i);
        }
        match PkgLength::from_raw_length(input, length) {
            Ok(known) => Ok((&input[1 + more..], context, known)),
            Err(why) => Err((input, context, Propagate::Err(why))),
        }
    }
}
