// A reader of JSON that goes over the bytes once and makes no tree.
use std::borrow::Cow;

pub struct Reader<'a> {
    bytes: &'a [u8],
    at: usize,
}

pub struct NotJson;

pub type Read<T> = Result<T, NotJson>;

impl<'a> Reader<'a> {
    pub fn new(bytes: &'a [u8]) -> Self {
        Reader { bytes, at: 0 }
    }

    pub fn peek(&mut self) -> u8 {
        while matches!(self.bytes.get(self.at), Some(b' ' | b'\t' | b'\n' | b'\r')) {
            self.at += 1;
        }
        self.bytes.get(self.at).copied().unwrap_or(0)
    }

    /// The position of the next value.
    pub fn at(&mut self) -> usize {
        self.peek();
        self.at
    }

    fn take(&mut self, byte: u8) -> bool {
        let is_next = self.peek() == byte;
        self.at += usize::from(is_next);
        is_next
    }

    fn demand(&mut self, byte: u8) -> Read<()> {
        if self.take(byte) { Ok(()) } else { Err(NotJson) }
    }

    pub fn end(&mut self) -> Read<()> {
        if self.peek() == 0 && self.at >= self.bytes.len() { Ok(()) } else { Err(NotJson) }
    }

    pub fn list(&mut self, mut each: impl FnMut(&mut Self) -> Read<()>) -> Read<()> {
        self.demand(b'[')?;
        if self.take(b']') {
            return Ok(());
        }
        loop {
            each(self)?;
            if !self.take(b',') {
                return self.demand(b']');
            }
        }
    }

    pub fn object(&mut self, mut each: impl FnMut(&mut Self, &str) -> Read<()>) -> Read<()> {
        self.demand(b'{')?;
        if self.take(b'}') {
            return Ok(());
        }
        loop {
            let key = self.text()?;
            self.demand(b':')?;
            each(self, &key)?;
            if !self.take(b',') {
                return self.demand(b'}');
            }
        }
    }

    pub fn int(&mut self) -> Read<i64> {
        let minus = self.take(b'-');
        let digits = self.bytes[self.at.min(self.bytes.len())..].iter().take_while(|byte| byte.is_ascii_digit()).count();
        let mut number = 0i64;
        for digit in &self.bytes[self.at..self.at + digits] {
            let digit = i64::from(digit - b'0');
            let next = number.checked_mul(10).and_then(|it| if minus { it.checked_sub(digit) } else { it.checked_add(digit) });
            number = next.ok_or(NotJson)?;
        }
        self.at += digits;
        let goes_on = matches!(self.bytes.get(self.at), Some(b'.' | b'e' | b'E'));
        if digits == 0 || goes_on || minus && number == 0 { Err(NotJson) } else { Ok(number) }
    }

    pub fn bool(&mut self) -> Read<bool> {
        self.peek();
        for (word, value) in [("true", true), ("false", false)] {
            if self.bytes[self.at..].starts_with(word.as_bytes()) {
                self.at += word.len();
                return Ok(value);
            }
        }
        Err(NotJson)
    }

    pub fn text(&mut self) -> Read<Cow<'a, str>> {
        self.demand(b'"')?;
        let from = self.at;
        while !matches!(self.bytes.get(self.at), None | Some(b'"' | b'\\')) {
            self.at += 1;
        }
        let plain = std::str::from_utf8(&self.bytes[from..self.at]).map_err(|_| NotJson)?;
        if self.bytes.get(self.at) == Some(&b'"') {
            self.at += 1;
            return Ok(Cow::Borrowed(plain));
        }
        self.escaped(plain.to_string()).map(Cow::Owned)
    }

    fn escaped(&mut self, mut text: String) -> Read<String> {
        loop {
            let from = self.at;
            while !matches!(self.bytes.get(self.at), None | Some(b'"' | b'\\')) {
                self.at += 1;
            }
            text.push_str(std::str::from_utf8(&self.bytes[from..self.at]).map_err(|_| NotJson)?);
            self.at += 1;
            match self.bytes.get(self.at - 1) {
                Some(b'"') => return Ok(text),
                Some(_) => text.push(self.escape()?),
                None => return Err(NotJson),
            }
        }
    }

    fn escape(&mut self) -> Read<char> {
        let byte = *self.bytes.get(self.at).ok_or(NotJson)?;
        self.at += 1;
        Ok(match byte {
            b'b' => '\u{8}',
            b'f' => '\u{c}',
            b'n' => '\n',
            b'r' => '\r',
            b't' => '\t',
            b'u' => return self.code(),
            b'"' | b'\\' | b'/' => char::from(byte),
            _ => return Err(NotJson),
        })
    }

    fn unit(&mut self) -> Read<u32> {
        let digits = self.bytes.get(self.at..self.at + 4).ok_or(NotJson)?;
        self.at += 4;
        u32::from_str_radix(std::str::from_utf8(digits).map_err(|_| NotJson)?, 16).map_err(|_| NotJson)
    }

    fn code(&mut self) -> Read<char> {
        let unit = self.unit()?;
        if !(0xD800..0xDC00).contains(&unit) {
            return char::from_u32(unit).ok_or(NotJson);
        }
        if self.bytes.get(self.at..self.at + 2) != Some(b"\\u".as_slice()) {
            return Err(NotJson);
        }
        self.at += 2;
        let low = self.unit()?.checked_sub(0xDC00).filter(|low| *low < 0x400).ok_or(NotJson)?;
        char::from_u32(0x10000 + ((unit - 0xD800) << 10) + low).ok_or(NotJson)
    }

    /// Goes back, and over the value that begins there.
    pub fn skip_from(&mut self, from: usize) -> Read<()> {
        self.at = from;
        self.skip()
    }

    /// Goes over a value of any type.
    pub fn skip(&mut self) -> Read<()> {
        match self.peek() {
            b'{' => self.object(|it, _| it.skip()),
            b'[' => self.list(Self::skip),
            b'"' => self.text().map(|_| ()),
            _ => {
                let rest = &self.bytes[self.at.min(self.bytes.len())..];
                let length = rest.iter().take_while(|byte| byte.is_ascii_alphanumeric() || matches!(byte, b'+' | b'-' | b'.')).count();
                self.at += length;
                if length == 0 { Err(NotJson) } else { Ok(()) }
            }
        }
    }
}

/// Puts a text with its quotes and escapes behind what is there.
pub fn push_text(to: &mut String, text: &str) {
    to.push('"');
    for letter in text.chars() {
        match letter {
            '"' => to.push_str("\\\""),
            '\\' => to.push_str("\\\\"),
            '\u{8}' => to.push_str("\\b"),
            '\u{c}' => to.push_str("\\f"),
            '\n' => to.push_str("\\n"),
            '\r' => to.push_str("\\r"),
            '\t' => to.push_str("\\t"),
            '\0'..='\u{1f}' => to.push_str(&format!("\\u{:04x}", u32::from(letter))),
            _ => to.push(letter),
        }
    }
    to.push('"');
}
