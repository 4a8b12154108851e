//! Numbers as people write them.

/// How a word is written.
#[derive(Clone, Copy, Debug)]
pub enum Form {
    /// Digits alone.
    Decimal,
    /// Behind `0x`.
    Hexadecimal,
    /// Behind `0b`.
    Binary,
}

impl Form {
    /// A word of n qubits in this form; in binary, every qubit is shown.
    pub fn show(self, word: u64, n: u32) -> String {
        match self {
            Form::Decimal => format!("{word}"),
            Form::Hexadecimal => format!("{word:#x}"),
            Form::Binary => format!("0b{word:0width$b}", width = n as usize),
        }
    }
}

/// A word and its form, where this is one.
pub fn word(written: &str) -> Option<(u64, Form)> {
    let (digits, radix, form) = if let Some(digits) = written.strip_prefix("0x") {
        (digits, 16, Form::Hexadecimal)
    } else if let Some(digits) = written.strip_prefix("0b") {
        (digits, 2, Form::Binary)
    } else {
        (written, 10, Form::Decimal)
    };
    // A sign is no digit, though the standard library would take it.
    if digits.starts_with('+') {
        return None;
    }
    Some((u64::from_str_radix(digits, radix).ok()?, form))
}
