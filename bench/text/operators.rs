//! Stands in the place of aml's `resource`, of which nothing is used: a way in to the parsers of `expression`.
use crate::expression::expression_opcode;
use crate::parser::Parser;
use crate::value::Args;
use crate::{AmlContext, AmlValue, MethodContext};

/// The arguments that the operators below see.
pub fn set_arguments(context: &mut AmlContext, arguments: Args) {
    context.method_context = Some(MethodContext::new(arguments));
}

/// The value of the operator that this code holds.
pub fn operate(context: &mut AmlContext, code: &[u8]) -> Option<AmlValue> {
    expression_opcode().parse(code, context).ok().map(|(_, _, value)| value)
}
