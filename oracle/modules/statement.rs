//! Stand-in: Return of an expression, by which an operator's answer leaves the method.
use crate::expression::expression_opcode;
use crate::opcode::{self, opcode};
use crate::parser::{Parser, Propagate};

pub fn def_return<'a, 'c>() -> impl Parser<'a, 'c, ()>
where
    'c: 'a,
{
    opcode(opcode::DEF_RETURN_OP).then(expression_opcode()).map(|((), value)| Err(Propagate::Return(value)))
}
