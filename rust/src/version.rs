//! The archive's version against the crate's.
use crate::ffi;

/// First number * 100 + second, of the crate.
const CRATE: usize = number(env!("CARGO_PKG_VERSION_MAJOR")) * 100 + number(env!("CARGO_PKG_VERSION_MINOR"));

const fn number(digits: &str) -> usize {
    let (digits, mut number, mut i) = (digits.as_bytes(), 0, 0);
    while i < digits.len() {
        number = number * 10 + (digits[i] - b'0') as usize;
        i += 1;
    }
    number
}

/// Panics where the archive is of another version, by the first two numbers: it may take and answer records of other lengths.
#[inline]
pub fn check() {
    compare(ffi::version());
}

#[inline]
fn compare(archive: usize) {
    if archive / 100 != CRATE {
        differ(archive);
    }
}

#[cold]
#[inline(never)]
fn differ(archive: usize) -> ! {
    let (first, second, third) = (archive / 10_000, archive / 100 % 100, archive % 100);
    let own = env!("CARGO_PKG_VERSION");
    panic!("lipvezor: the crate is {own} and liblipvezor.a is {first}.{second}.{third}; the first two numbers must be the same");
}

#[cfg(test)]
mod tests {
    use super::*;

    #[test]
    fn another_third_number_will_do() {
        (0..100).for_each(|third| compare(CRATE * 100 + third));
        check();
    }

    #[test]
    #[should_panic(expected = " and liblipvezor.a is 1.20.3; ")]
    fn another_first_number_will_not() {
        compare(12_003);
    }

    #[test]
    #[should_panic(expected = " and liblipvezor.a is ")]
    fn the_next_second_number_will_not() {
        compare((CRATE + 1) * 100);
    }

    #[test]
    #[should_panic(expected = " and liblipvezor.a is ")]
    fn the_second_number_before_will_not() {
        compare(CRATE * 100 - 1);
    }
}
