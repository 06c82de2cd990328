//! Stand-in for the crate log: nothing is written.
#![no_std]

#[macro_export]
macro_rules! error { ($($said:tt)*) => { { let _ = ::core::format_args!($($said)*); } }; }
#[macro_export]
macro_rules! warn { ($($said:tt)*) => { { let _ = ::core::format_args!($($said)*); } }; }
#[macro_export]
macro_rules! info { ($($said:tt)*) => { { let _ = ::core::format_args!($($said)*); } }; }
