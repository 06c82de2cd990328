//! Stand-in for the parser's combinators: a parser takes the input and the context, and gives them back with a result.
use crate::pkg_length::PkgLength;
use crate::{AmlContext, AmlError, AmlValue, DebugVerbosity};
use alloc::vec::Vec;
use core::marker::PhantomData;

#[derive(Debug)]
pub enum Propagate {
    Err(AmlError),
    Return(AmlValue),
    Break,
    Continue,
}

pub type ParseResult<'a, 'c, R> = Result<(&'a [u8], &'c mut AmlContext, R), (&'a [u8], &'c mut AmlContext, Propagate)>;

pub trait Parser<'a, 'c, R>: Sized
where
    'c: 'a,
{
    fn parse(&self, input: &'a [u8], context: &'c mut AmlContext) -> ParseResult<'a, 'c, R>;

    fn map<F, A>(self, f: F) -> Map<Self, F, R>
    where
        F: Fn(R) -> Result<A, Propagate>,
    {
        Map { parser: self, f, _from: PhantomData }
    }

    fn map_with_context<F, A>(self, f: F) -> MapWithContext<Self, F, R>
    where
        F: Fn(R, &'c mut AmlContext) -> (Result<A, Propagate>, &'c mut AmlContext),
    {
        MapWithContext { parser: self, f, _from: PhantomData }
    }

    fn then<P, A>(self, next: P) -> Then<Self, P>
    where
        P: Parser<'a, 'c, A>,
    {
        Then { first: self, next }
    }

    fn or<P>(self, other: P) -> Or<Self, P>
    where
        P: Parser<'a, 'c, R>,
    {
        Or { first: self, other }
    }

    fn feed<F, P, A>(self, f: F) -> Feed<Self, F, R>
    where
        F: Fn(R) -> P,
        P: Parser<'a, 'c, A>,
    {
        Feed { parser: self, f, _from: PhantomData }
    }
}

impl<'a, 'c, F, R> Parser<'a, 'c, R> for F
where
    'c: 'a,
    F: Fn(&'a [u8], &'c mut AmlContext) -> ParseResult<'a, 'c, R>,
{
    fn parse(&self, input: &'a [u8], context: &'c mut AmlContext) -> ParseResult<'a, 'c, R> {
        self(input, context)
    }
}

pub struct Map<P, F, R> {
    parser: P,
    f: F,
    _from: PhantomData<R>,
}

impl<'a, 'c, P, F, R, A> Parser<'a, 'c, A> for Map<P, F, R>
where
    'c: 'a,
    P: Parser<'a, 'c, R>,
    F: Fn(R) -> Result<A, Propagate>,
{
    fn parse(&self, input: &'a [u8], context: &'c mut AmlContext) -> ParseResult<'a, 'c, A> {
        let (rest, context, result) = self.parser.parse(input, context)?;
        match (self.f)(result) {
            Ok(result) => Ok((rest, context, result)),
            Err(why) => Err((input, context, why)),
        }
    }
}

pub struct MapWithContext<P, F, R> {
    parser: P,
    f: F,
    _from: PhantomData<R>,
}

impl<'a, 'c, P, F, R, A> Parser<'a, 'c, A> for MapWithContext<P, F, R>
where
    'c: 'a,
    P: Parser<'a, 'c, R>,
    F: Fn(R, &'c mut AmlContext) -> (Result<A, Propagate>, &'c mut AmlContext),
{
    fn parse(&self, input: &'a [u8], context: &'c mut AmlContext) -> ParseResult<'a, 'c, A> {
        let (rest, context, result) = self.parser.parse(input, context)?;
        match (self.f)(result, context) {
            (Ok(result), context) => Ok((rest, context, result)),
            (Err(why), context) => Err((input, context, why)),
        }
    }
}

pub struct Then<P, Q> {
    first: P,
    next: Q,
}

impl<'a, 'c, P, Q, R, A> Parser<'a, 'c, (R, A)> for Then<P, Q>
where
    'c: 'a,
    P: Parser<'a, 'c, R>,
    Q: Parser<'a, 'c, A>,
{
    fn parse(&self, input: &'a [u8], context: &'c mut AmlContext) -> ParseResult<'a, 'c, (R, A)> {
        let (input, context, first) = self.first.parse(input, context)?;
        let (input, context, next) = self.next.parse(input, context)?;
        Ok((input, context, (first, next)))
    }
}

pub struct Or<P, Q> {
    first: P,
    other: Q,
}

impl<'a, 'c, P, Q, R> Parser<'a, 'c, R> for Or<P, Q>
where
    'c: 'a,
    P: Parser<'a, 'c, R>,
    Q: Parser<'a, 'c, R>,
{
    fn parse(&self, input: &'a [u8], context: &'c mut AmlContext) -> ParseResult<'a, 'c, R> {
        match self.first.parse(input, context) {
            Err((_, context, Propagate::Err(AmlError::WrongParser))) => self.other.parse(input, context),
            given => given,
        }
    }
}

pub struct Feed<P, F, R> {
    parser: P,
    f: F,
    _from: PhantomData<R>,
}

impl<'a, 'c, P, F, Q, R, A> Parser<'a, 'c, A> for Feed<P, F, R>
where
    'c: 'a,
    P: Parser<'a, 'c, R>,
    F: Fn(R) -> Q,
    Q: Parser<'a, 'c, A>,
{
    fn parse(&self, input: &'a [u8], context: &'c mut AmlContext) -> ParseResult<'a, 'c, A> {
        let (input, context, result) = self.parser.parse(input, context)?;
        (self.f)(result).parse(input, context)
    }
}

/// The crate writes the scope's name when it is told to; here the parser alone is run.
pub fn comment_scope<'a, 'c, P, R>(_verbosity: DebugVerbosity, _scope: &'a str, parser: P) -> impl Parser<'a, 'c, R>
where
    'c: 'a,
    P: Parser<'a, 'c, R>,
{
    move |input: &'a [u8], context: &'c mut AmlContext| parser.parse(input, context)
}

pub fn take<'a, 'c>() -> impl Parser<'a, 'c, u8>
where
    'c: 'a,
{
    |input: &'a [u8], context: &'c mut AmlContext| -> ParseResult<'a, 'c, u8> {
        match input.first() {
            Some(&byte) => Ok((&input[1..], context, byte)),
            None => Err((input, context, Propagate::Err(AmlError::UnexpectedEndOfStream))),
        }
    }
}

pub fn take_to_end_of_pkglength<'a, 'c>(length: PkgLength) -> impl Parser<'a, 'c, &'a [u8]>
where
    'c: 'a,
{
    move |input: &'a [u8], context: &'c mut AmlContext| -> ParseResult<'a, 'c, &'a [u8]> {
        match input.len().checked_sub(length.end_offset as usize) {
            Some(taken) => Ok((&input[taken..], context, &input[..taken])),
            None => Err((input, context, Propagate::Err(AmlError::InvalidPkgLength))),
        }
    }
}

pub fn n_of<'a, 'c, P, R>(parser: P, n: usize) -> impl Parser<'a, 'c, Vec<R>>
where
    'c: 'a,
    P: Parser<'a, 'c, R>,
{
    move |mut input: &'a [u8], mut context: &'c mut AmlContext| -> ParseResult<'a, 'c, Vec<R>> {
        let mut results = Vec::new();
        for _ in 0..n {
            let (rest, same, result) = parser.parse(input, context)?;
            input = rest;
            context = same;
            results.push(result);
        }
        Ok((input, context, results))
    }
}

/// No parser of a choice fits.
pub fn none_fits<'a, 'c, R>() -> impl Parser<'a, 'c, R>
where
    'c: 'a,
{
    |input: &'a [u8], context: &'c mut AmlContext| -> ParseResult<'a, 'c, R> { Err((input, context, Propagate::Err(AmlError::WrongParser))) }
}

pub(crate) macro choice($first:expr $(, $other:expr)* $(,)?) {
    $first $( .or($other) )* .or(crate::parser::none_fits())
}

pub(crate) macro try_with_context($context:expr, $tried:expr) {
    match $tried {
        Ok(result) => result,
        Err(why) => return (Err(Propagate::Err(why)), $context),
    }
}
