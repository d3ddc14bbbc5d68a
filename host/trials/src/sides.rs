//! The implementations that are tried, each as one function over what is lent to a call.

use reference::call::Entry;

/// Answers a call: number, place and length; of a lookup the part, with a zero behind it where it is of one register.
pub type Side = fn(Entry, &[u8], &[u8], u32, &mut [u8]) -> [u64; 3];

/// Both implementations have the calls under the same names, which take and answer the same.
macro_rules! side {
    ($name:ident, $calls:ident $(:: $inner:ident)*) => {
        pub fn $name(entry: Entry, first: &[u8], second: &[u8], number: u32, buffer: &mut [u8]) -> [u64; 3] {
            use $calls $(:: $inner)* as calls;
            let answer = match entry {
                Entry::Calculate => calls::calculate(first, buffer),
                Entry::Combine => calls::combine(first, second, buffer),
                Entry::Remove => calls::remove(first, number, buffer),
                Entry::Check => calls::check(first),
                Entry::Text => calls::text(first, buffer),
                Entry::Name => {
                    let part = calls::name(first, number);
                    return [part.offset, part.length, 0];
                }
                Entry::NameOfTwo => {
                    let found = calls::name_of_two(first, second, number);
                    return [u64::from(found.which), found.offset, found.length];
                }
                Entry::Amounts => calls::amounts(first, buffer),
            };
            [u64::from(answer.number), answer.place, answer.length]
        }
    };
}

side!(proved, kopristen::raw);
side!(rival, rival);
