//! Requests, taken from their lines.

use oracle::{Component, Definition};
use std::str::FromStr;

pub enum Request {
    Read {
        file: Vec<u8>,
    },
    Finish {
        file: Vec<u8>,
        ignore: bool,
        components: Vec<Component>,
        samples: Vec<i32>,
    },
    Order {
        components: Vec<Component>,
        definitions: Vec<Definition>,
    },
    Write(Write),
    Header {
        bytes: Vec<u8>,
        max: usize,
    },
    Kind {
        number: u32,
    },
    Content {
        length: u32,
        header: u32,
    },
    Head {
        length: u32,
        kind: u32,
    },
    Number {
        bytes: Vec<u8>,
    },
    Bytes {
        value: u32,
        count: u32,
    },
}

pub struct Write {
    pub components: Vec<Component>,
    pub x0: u32,
    pub y0: u32,
    pub x1: u32,
    pub y1: u32,
    pub color_space: u32,
    pub profile: Vec<u8>,
    pub store_profile: bool,
    pub codestream_length: u32,
}

/// A line that is no request, and why.
pub struct Malformed(pub String);

impl Malformed {
    pub fn new(why: impl Into<String>) -> Self {
        Malformed(why.into())
    }
}

pub fn parse(line: &str) -> Result<Request, Malformed> {
    let mut words = line.split_ascii_whitespace();
    let name = words
        .next()
        .ok_or_else(|| Malformed::new("the line is empty"))?;
    let mut fields = Fields(words.collect());
    let request = match name {
        "read" => Request::Read {
            file: fields.bytes()?,
        },
        "finish" => Request::Finish {
            file: fields.bytes()?,
            ignore: fields.flag("ignore")?,
            components: fields.components()?,
            samples: fields.list("samples")?,
        },
        "order" => Request::Order {
            components: fields.components()?,
            definitions: fields.definitions()?,
        },
        "write" => Request::Write(parse_write(&mut fields)?),
        "header" => Request::Header {
            bytes: fields.bytes()?,
            max: fields.number("max")?,
        },
        "kind" => Request::Kind {
            number: parse_number(fields.plain()?)?,
        },
        "content" => Request::Content {
            length: fields.number("length")?,
            header: fields.number("header")?,
        },
        "head" => Request::Head {
            length: fields.number("length")?,
            kind: fields.number("kind")?,
        },
        "number" => Request::Number {
            bytes: fields.bytes()?,
        },
        "bytes" => Request::Bytes {
            value: fields.number("value")?,
            count: fields.number("count")?,
        },
        _ => return Err(Malformed::new(format!("no request is called {name}"))),
    };
    match fields.0.first() {
        None => Ok(request),
        Some(word) => Err(Malformed::new(format!(
            "{name} has no use for {}",
            shorten(word)
        ))),
    }
}

fn parse_write(fields: &mut Fields) -> Result<Write, Malformed> {
    Ok(Write {
        components: fields.components()?,
        x0: fields.number("x0")?,
        y0: fields.number("y0")?,
        x1: fields.number("x1")?,
        y1: fields.number("y1")?,
        color_space: fields.number("space")?,
        profile: parse_bytes(fields.value("profile")?)?,
        store_profile: fields.flag("stored")?,
        codestream_length: fields.number("length")?,
    })
}

/// The words behind a request's name, each taken out when it is used.
struct Fields<'a>(Vec<&'a str>);

impl<'a> Fields<'a> {
    /// The first word that is no `key=value`.
    fn plain(&mut self) -> Result<&'a str, Malformed> {
        let at = self.0.iter().position(|word| !word.contains('='));
        let at = at.ok_or_else(|| Malformed::new("a word without = is missing"))?;
        Ok(self.0.remove(at))
    }

    fn bytes(&mut self) -> Result<Vec<u8>, Malformed> {
        parse_bytes(self.plain()?)
    }

    fn value(&mut self, key: &str) -> Result<&'a str, Malformed> {
        let found = self.0.iter().enumerate().find_map(|(at, word)| {
            let value = word.strip_prefix(key)?.strip_prefix('=')?;
            Some((at, value))
        });
        let (at, value) = found.ok_or_else(|| Malformed::new(format!("{key}= is missing")))?;
        self.0.remove(at);
        Ok(value)
    }

    fn number<N: FromStr>(&mut self, key: &str) -> Result<N, Malformed> {
        parse_number(self.value(key)?)
    }

    fn flag(&mut self, key: &str) -> Result<bool, Malformed> {
        match self.value(key)? {
            "0" => Ok(false),
            "1" => Ok(true),
            _ => Err(Malformed::new(format!("{key}= is neither 0 nor 1"))),
        }
    }

    fn list<N: FromStr>(&mut self, key: &str) -> Result<Vec<N>, Malformed> {
        parse_list(self.value(key)?)
    }

    fn components(&mut self) -> Result<Vec<Component>, Malformed> {
        let text = self.value("comps")?;
        let parts = text.split(';').filter(|_| !text.is_empty());
        parts.map(parse_component).collect()
    }

    fn definitions(&mut self) -> Result<Vec<Definition>, Malformed> {
        let text = self.value("defs")?;
        let parts = text.split(';').filter(|_| !text.is_empty());
        parts.map(parse_definition).collect()
    }
}

fn parse_definition(text: &str) -> Result<Definition, Malformed> {
    match parse_list::<u16>(text)?[..] {
        [cn, typ, asoc] => Ok(Definition { cn, typ, asoc }),
        _ => Err(Malformed::new("a definition has 3 numbers")),
    }
}

fn parse_component(text: &str) -> Result<Component, Malformed> {
    let numbers = parse_list::<u32>(text)?;
    let numbers = <[u32; 13]>::try_from(numbers).map_err(|numbers| {
        Malformed::new(format!("a component has 13 numbers, not {}", numbers.len()))
    })?;
    Component::from_numbers(&numbers).ok_or_else(|| Malformed::new("a mark has more than 16 bits"))
}

fn parse_list<N: FromStr>(text: &str) -> Result<Vec<N>, Malformed> {
    text.split(',')
        .filter(|_| !text.is_empty())
        .map(parse_number)
        .collect()
}

fn parse_number<N: FromStr>(text: &str) -> Result<N, Malformed> {
    text.parse()
        .map_err(|_| Malformed::new(format!("no number of that size: {}", shorten(text))))
}

/// Two hexadecimal digits a byte, or `-` for no bytes at all.
fn parse_bytes(text: &str) -> Result<Vec<u8>, Malformed> {
    if text == "-" {
        return Ok(Vec::new());
    }
    if text.is_empty() || text.len() % 2 != 0 {
        return Err(Malformed::new(
            "bytes are two hexadecimal digits each, or -",
        ));
    }
    let digit = |letter: u8| (letter as char).to_digit(16).map(|digit| digit as u8);
    let pairs = text.as_bytes().chunks_exact(2);
    let bytes = pairs.map(|pair| Some(digit(pair[0])? << 4 | digit(pair[1])?));
    bytes
        .collect::<Option<_>>()
        .ok_or_else(|| Malformed::new("no hexadecimal digit"))
}

/// Enough of a word to know it by.
fn shorten(word: &str) -> String {
    word.chars().take(40).collect()
}
