//! Words of a line as antt's terms. `None` where a word has another shape.

use crate::words;

/// The words of a question or an answer, taken one after the other.
pub struct Words<'a>(std::str::Split<'a, char>);

impl<'a> Words<'a> {
    pub fn of(line: &'a str) -> Self {
        Words(line.split(' '))
    }

    /// The next word as it stands.
    pub fn word(&mut self) -> Option<&'a str> {
        self.0.next()
    }

    /// The next word, a number of so many digits.
    pub fn number(&mut self, digits: usize) -> Option<String> {
        number(self.word()?, digits)
    }

    /// The next word, a place or a count.
    pub fn decimal(&mut self) -> Option<String> {
        decimal(self.word()?)
    }

    /// The next word, a flag.
    pub fn flag(&mut self) -> Option<&'static str> {
        flag(self.word()?)
    }

    /// The next word, bytes.
    pub fn bytes(&mut self) -> Option<String> {
        bytes(self.word()?)
    }

    /// The next word, clusters.
    pub fn clusters(&mut self) -> Option<String> {
        clusters(self.word()?)
    }

    /// The words that are left.
    pub fn rest(self) -> Vec<&'a str> {
        self.0.collect()
    }

    /// Nothing is left.
    pub fn end(mut self) -> Option<()> {
        self.word().is_none().then_some(())
    }
}

/// The digits of one word that holds several values, taken one after the other.
pub struct Digits<'a>(&'a str);

impl<'a> Digits<'a> {
    pub fn of(word: &'a str) -> Option<Self> {
        word.is_ascii().then_some(Digits(word))
    }

    /// The next so many digits as they stand.
    pub fn take(&mut self, digits: usize) -> Option<&'a str> {
        let (front, rest) = self.0.split_at_checked(digits)?;
        self.0 = rest;
        Some(front)
    }

    /// The next number of so many digits.
    pub fn number(&mut self, digits: usize) -> Option<String> {
        number(self.take(digits)?, digits)
    }

    /// Nothing is left.
    pub fn end(self) -> Option<()> {
        self.0.is_empty().then_some(())
    }
}

/// A number of exactly so many hexadecimal digits.
pub fn number(word: &str, digits: usize) -> Option<String> {
    words::number(word, digits).map(|_| format!("0x{word}"))
}

/// A place or a count.
pub fn decimal(word: &str) -> Option<String> {
    words::decimal(word).map(|n| n.to_string())
}

/// A flag.
pub fn flag(word: &str) -> Option<&'static str> {
    words::flag(word).map(|f| if f { "true" } else { "false" })
}

/// Bytes.
pub fn bytes(word: &str) -> Option<String> {
    words::pieces(word, 2)?
        .into_iter()
        .map(|b| number(b, 2))
        .collect::<Option<_>>()
        .map(list)
}

/// Clusters.
pub fn clusters(word: &str) -> Option<String> {
    words::pieces(word, 4)?
        .into_iter()
        .map(|c| number(c, 4))
        .collect::<Option<_>>()
        .map(list)
}

/// A list of terms.
pub fn list(terms: Vec<String>) -> String {
    let all: String = terms.into_iter().map(|t| t + " ∷ ").collect();
    if all.is_empty() {
        "[]".to_string()
    } else {
        format!("({all}[])")
    }
}

/// A record of fields, each a name and a term.
pub fn record(fields: &[(&str, &str)]) -> String {
    let field = |(name, term): &(&str, &str)| format!("{name} = {term}");
    format!(
        "(record {{ {} }})",
        fields.iter().map(field).collect::<Vec<_>>().join("; ")
    )
}

/// An address of any of the three kinds.
pub fn address(number: &str) -> String {
    record(&[("0", number)])
}

/// The names of an enum's values: how its module is called, and each value with its number.
pub struct Names {
    module: &'static str,
    values: &'static [(u8, &'static str)],
}

pub const TYPE: Names = Names {
    module: "type",
    values: &[(0, "Coordinator"), (1, "Router"), (2, "EndDevice")],
};

pub const MODE: Names = Names {
    module: "mode",
    values: &[(0, "Synchronized"), (1, "Periodically"), (2, "Stimulated")],
};

pub const SOURCE: Names = Names {
    module: "source",
    values: &[
        (1, "ConstantMainPower"),
        (2, "RechargeableBattery"),
        (4, "DisposableBattery"),
    ],
};

pub const LEVEL: Names = Names {
    module: "level",
    values: &[
        (0, "Critical"),
        (4, "OneThird"),
        (8, "TwoThirds"),
        (12, "Full"),
    ],
};

pub const DISCOVERY: Names = Names {
    module: "error",
    values: &[(0, "InvalidRequestType"), (1, "DeviceNotFound")],
};

pub const BIND: Names = Names {
    module: "bound",
    values: &[
        (0, "Success"),
        (1, "InvalidEndpoint"),
        (2, "TableFull"),
        (3, "NoEntry"),
        (4, "NotSupported"),
    ],
};

pub const LEAVE: Names = Names {
    module: "leave",
    values: &[
        (0, "Success"),
        (1, "InvalidRequest"),
        (2, "UnknownDevice"),
        (3, "MacError"),
        (4, "NotAuthorized"),
    ],
};

impl Names {
    /// The value that has a name.
    pub fn value(&self, word: &str) -> Option<String> {
        let number = words::u8_of(word)?;
        let (_, name) = self.values.iter().find(|(n, _)| *n == number)?;
        Some(format!("{}.{name}", self.module))
    }

    /// A value by four digits: one that has a name, or a reserved one.
    pub fn named(&self, word: &str) -> Option<String> {
        match word.split_at_checked(2)? {
            ("00", value) => self.value(value),
            ("01", held) => Some(format!("({}.Reserved {})", self.module, number(held, 2)?)),
            _ => None,
        }
    }

    /// A list of such values.
    pub fn nameds(&self, word: &str) -> Option<String> {
        words::pieces(word, 4)?
            .into_iter()
            .map(|v| self.named(v))
            .collect::<Option<_>>()
            .map(list)
    }
}
