//! Stand-in: the opcodes that the text names, from the ACPI specification (6.4, 20.3), each a single byte.
use crate::parser::{ParseResult, Parser, Propagate};
use crate::{AmlContext, AmlError};

pub const DEF_STORE_OP: u8 = 0x70;
pub const DEF_ADD_OP: u8 = 0x72;
pub const DEF_CONCAT_OP: u8 = 0x73;
pub const DEF_INCREMENT_OP: u8 = 0x75;
pub const DEF_DECREMENT_OP: u8 = 0x76;
pub const DEF_SHIFT_LEFT: u8 = 0x79;
pub const DEF_SHIFT_RIGHT: u8 = 0x7a;
pub const DEF_AND_OP: u8 = 0x7b;
pub const DEF_CONCAT_RES_OP: u8 = 0x84;
pub const DEF_OBJECT_TYPE_OP: u8 = 0x8e;
pub const DEF_L_AND_OP: u8 = 0x90;
pub const DEF_L_OR_OP: u8 = 0x91;
pub const DEF_L_NOT_OP: u8 = 0x92;
pub const DEF_L_EQUAL_OP: u8 = 0x93;
pub const DEF_L_GREATER_OP: u8 = 0x94;
pub const DEF_L_LESS_OP: u8 = 0x95;
pub const DEF_TO_INTEGER_OP: u8 = 0x99;
pub const DEF_MID_OP: u8 = 0x9e;
pub const DEF_RETURN_OP: u8 = 0xa4;
pub const DEF_BUFFER_OP: u8 = 0x11;
pub const DEF_PACKAGE_OP: u8 = 0x12;

pub fn opcode<'a, 'c>(wanted: u8) -> impl Parser<'a, 'c, ()>
where
    'c: 'a,
{
    move |input: &'a [u8], context: &'c mut AmlContext| -> ParseResult<'a, 'c, ()> {
        match input.first() {
            Some(&byte) if byte == wanted => Ok((&input[1..], context, ())),
            Some(_) => Err((input, context, Propagate::Err(AmlError::WrongParser))),
            None => Err((input, context, Propagate::Err(AmlError::UnexpectedEndOfStream))),
        }
    }
}
