//! Stands in for the crate `sprintf`: `%d` and `%x`, the only two that the JP2 layer's messages use.

use std::fmt::Write;

/// A number that a message may hold.
pub trait Number {
    fn decimal(&self, out: &mut String);
    fn hexadecimal(&self, out: &mut String);
}

macro_rules! number {
    ($($kind:ty)*) => {$(
        impl Number for $kind {
            fn decimal(&self, out: &mut String) {
                let _ = write!(out, "{self}");
            }
            fn hexadecimal(&self, out: &mut String) {
                let _ = write!(out, "{self:x}");
            }
        }
    )*};
}

number!(u8 u16 u32 u64 usize i32 i64);

/// A format that asks for more than this stand-in, or the numbers handed in, can give.
#[derive(Debug)]
pub struct Unprintable;

pub fn print(format: &str, numbers: &[&dyn Number]) -> Result<String, Unprintable> {
    let mut out = String::with_capacity(format.len());
    let mut numbers = numbers.iter();
    let mut letters = format.chars();
    while let Some(letter) = letters.next() {
        if letter != '%' {
            out.push(letter);
            continue;
        }
        let kind = letters.next();
        let number = numbers.next().ok_or(Unprintable)?;
        match kind {
            Some('d') => number.decimal(&mut out),
            Some('x') => number.hexadecimal(&mut out),
            _ => return Err(Unprintable),
        }
    }
    Ok(out)
}

#[macro_export]
macro_rules! sprintf {
    ($format:expr, $($number:expr),* $(,)?) => {
        $crate::print($format, &[$(&$number as &dyn $crate::Number),*])
    };
}
