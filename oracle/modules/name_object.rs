//! Stand-in: a target is an argument, or nothing. Names in the stream are in no job, and fit nothing.
use crate::misc::{arg_obj, ArgNum, LocalNum};
use crate::namespace::AmlName;
use crate::opcode::opcode;
use crate::parser::{choice, none_fits, Parser};
use crate::AmlError;
use alloc::string::{String, ToString};

#[derive(Clone, Debug)]
pub enum Target {
    Null,
    Name(AmlName),
    Debug,
    Arg(ArgNum),
    Local(LocalNum),
}

#[derive(Clone, PartialEq, Eq, PartialOrd, Ord, Debug)]
pub struct NameSeg(String);

impl NameSeg {
    pub fn from_str(name: &str) -> Result<NameSeg, AmlError> {
        Ok(NameSeg(name.to_string()))
    }
}

pub fn target<'a, 'c>() -> impl Parser<'a, 'c, Target>
where
    'c: 'a,
{
    choice!(opcode(0).map(|()| Ok(Target::Null)), super_name())
}

pub fn super_name<'a, 'c>() -> impl Parser<'a, 'c, Target>
where
    'c: 'a,
{
    simple_name()
}

pub fn simple_name<'a, 'c>() -> impl Parser<'a, 'c, Target>
where
    'c: 'a,
{
    arg_obj().map(|arg| Ok(Target::Arg(arg)))
}

pub fn name_string<'a, 'c>() -> impl Parser<'a, 'c, AmlName>
where
    'c: 'a,
{
    none_fits()
}
