//! "A property value is one of five kinds, and a Real carries its float."

/// The five kinds; "Schema types are the same five numbers."
#[derive(Clone, Copy, Debug, PartialEq, Eq)]
pub enum Kind {
    Boolean,
    Integer,
    Real,
    Date,
    Text,
}

/// A property's value. A text is borrowed from the file, since "parts may
/// overlap": copies of 16,384 long parts would come to gigabytes.
#[derive(Clone, Copy, Debug, PartialEq)]
pub enum Value<'a> {
    Boolean(bool),
    Integer(i64),
    Real(f64),
    Date(u32),
    Text(&'a [u8]),
}

impl Kind {
    /// The kind with this number, if the number is known.
    pub fn numbered(number: u64) -> Option<Kind> {
        match number {
            1 => Some(Kind::Boolean),
            2 => Some(Kind::Integer),
            3 => Some(Kind::Real),
            4 => Some(Kind::Date),
            5 => Some(Kind::Text),
            _ => None,
        }
    }
}

impl<'a> Value<'a> {
    pub fn kind(&self) -> Kind {
        match self {
            Value::Boolean(_) => Kind::Boolean,
            Value::Integer(_) => Kind::Integer,
            Value::Real(_) => Kind::Real,
            Value::Date(_) => Kind::Date,
            Value::Text(_) => Kind::Text,
        }
    }

    /// The value that a row's length and value fields say, if they are right.
    pub fn read(kind: Kind, length: u64, value: u64, text: &'a [u8]) -> Option<Value<'a>> {
        // "Kinds 1 to 4 have length 0."
        if kind != Kind::Text && length != 0 {
            return None;
        }
        match kind {
            Kind::Boolean => boolean(value).map(Value::Boolean),
            Kind::Integer => Some(Value::Integer(value as i64)),
            Kind::Real => real(value).map(Value::Real),
            Kind::Date => date(value).map(Value::Date),
            Kind::Text => part(text, value, length).map(Value::Text),
        }
    }
}

/// "Boolean (value 0 or 1)."
fn boolean(value: u64) -> Option<bool> {
    match value {
        0 => Some(false),
        1 => Some(true),
        _ => None,
    }
}

/// "Real (bits of an f64 that is neither infinite nor NaN)."
fn real(bits: u64) -> Option<f64> {
    Some(f64::from_bits(bits)).filter(|float| float.is_finite())
}

/// "Month lengths stand as two rows of twelve, common and leap."
const MONTH_LENGTHS: [[u8; 12]; 2] = [
    [31, 28, 31, 30, 31, 30, 31, 31, 30, 31, 30, 31],
    [31, 29, 31, 30, 31, 30, 31, 31, 30, 31, 30, 31],
];

/// "Date (year x 10,000 + month x 100 + day, year 1 to 9999, month 1 to 12,
/// day 1 to the month's length)."
fn date(value: u64) -> Option<u32> {
    let (year, month, day) = (value / 10_000, value / 100 % 100, value % 100);
    if !(1..=9999).contains(&year) || !(1..=12).contains(&month) {
        return None;
    }
    // "a year is leap if four divides it"; Ask 3: "a year that 100 divides is
    // leap only if 400 divides it".
    let leap = year % 4 == 0 && (year % 100 != 0 || year % 400 == 0);
    let length = MONTH_LENGTHS[usize::from(leap)][month as usize - 1];
    if (1..=u64::from(length)).contains(&day) {
        Some(value as u32)
    } else {
        None
    }
}

/// The text part of this offset and length, if it lies within the text bytes;
/// "length 0 is allowed with an offset up to T".
fn part(text: &[u8], offset: u64, length: u64) -> Option<&[u8]> {
    let end = offset.checked_add(length)?;
    if end <= text.len() as u64 {
        Some(&text[offset as usize..end as usize])
    } else {
        None
    }
}
