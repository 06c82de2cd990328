//! Stand-in: an operand is an argument of the method that runs; a method is a list of Return.
use crate::misc::arg_obj;
use crate::parser::{none_fits, try_with_context, ParseResult, Parser, Propagate};
use crate::pkg_length::PkgLength;
use crate::statement::def_return;
use crate::{AmlContext, AmlValue};

pub fn term_arg<'a, 'c>() -> impl Parser<'a, 'c, AmlValue>
where
    'c: 'a,
{
    arg_obj().map_with_context(|arg, context| {
        let value = try_with_context!(context, context.current_arg(arg)).clone();
        (Ok(value), context)
    })
}

pub fn data_ref_object<'a, 'c>() -> impl Parser<'a, 'c, AmlValue>
where
    'c: 'a,
{
    none_fits()
}

pub fn def_cond_ref_of<'a, 'c>() -> impl Parser<'a, 'c, AmlValue>
where
    'c: 'a,
{
    none_fits()
}

pub fn term_list<'a, 'c>(length: PkgLength) -> impl Parser<'a, 'c, ()>
where
    'c: 'a,
{
    move |mut input: &'a [u8], mut context: &'c mut AmlContext| -> ParseResult<'a, 'c, ()> {
        while length.still_parsing(input) {
            let (rest, same, ()) = def_return().parse(input, context)?;
            input = rest;
            context = same;
        }
        Ok((input, context, ()))
    }
}
