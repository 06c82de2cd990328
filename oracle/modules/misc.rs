//! Stand-in: arguments by number; the others (locals, the debug object) are in no job, and fit nothing.
use crate::opcode::opcode;
use crate::parser::{choice, none_fits, Parser};

pub type ArgNum = u8;
pub type LocalNum = u8;

pub fn debug_obj<'a, 'c>() -> impl Parser<'a, 'c, ()>
where
    'c: 'a,
{
    none_fits()
}

pub fn arg_obj<'a, 'c>() -> impl Parser<'a, 'c, ArgNum>
where
    'c: 'a,
{
    choice!(opcode(0x68).map(|()| Ok(0)), opcode(0x69).map(|()| Ok(1)), opcode(0x6a).map(|()| Ok(2)))
}
