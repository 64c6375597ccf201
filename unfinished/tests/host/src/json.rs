//! JSON, as strictly as the host writes it: numbers are whole, and no key comes twice in an object.

use std::iter::Peekable;
use std::str::Chars;

#[derive(Debug, Clone, PartialEq, Eq)]
pub enum Value {
    Null,
    Truth(bool),
    Number(i64),
    Text(String),
    List(Vec<Value>),
    /// In the order of the text.
    Object(Vec<(String, Value)>),
}

impl Value {
    /// A member of an object.
    pub fn get(&self, key: &str) -> Option<&Value> {
        let Value::Object(members) = self else {
            return None;
        };
        members
            .iter()
            .find(|(name, _)| name == key)
            .map(|(_, value)| value)
    }

    pub fn number(&self) -> Option<i64> {
        match self {
            Value::Number(number) => Some(*number),
            _ => None,
        }
    }

    pub fn text(&self) -> Option<&str> {
        match self {
            Value::Text(text) => Some(text),
            _ => None,
        }
    }
}

/// The value that is the whole text, with spaces and newlines around its parts.
pub fn parsed(text: &str) -> Result<Value, String> {
    let mut parser = Parser {
        rest: text.chars().peekable(),
    };
    let value = parser.value()?;
    parser.pass_spaces();
    match parser.rest.next() {
        None => Ok(value),
        Some(character) => Err(format!("{character:?} stands behind the value")),
    }
}

struct Parser<'a> {
    rest: Peekable<Chars<'a>>,
}

impl Parser<'_> {
    fn pass_spaces(&mut self) {
        while self
            .rest
            .next_if(|next| " \n\r\t".contains(*next))
            .is_some()
        {}
    }

    /// The next character but for spaces, without taking it.
    fn peek(&mut self) -> Option<char> {
        self.pass_spaces();
        self.rest.peek().copied()
    }

    fn take(&mut self, wanted: char) -> Result<(), String> {
        match self.peek() {
            Some(found) if found == wanted => {
                self.rest.next();
                Ok(())
            }
            found => Err(format!("{wanted:?} is expected, not {found:?}")),
        }
    }

    fn value(&mut self) -> Result<Value, String> {
        match self.peek() {
            Some('{') => self.members('{', '}', Parser::member).and_then(object),
            Some('[') => self.members('[', ']', Parser::value).map(Value::List),
            Some('"') => self.text().map(Value::Text),
            _ => self.word(),
        }
    }

    /// What stands between two brackets with commas between.
    fn members<Member>(
        &mut self,
        open: char,
        close: char,
        member: fn(&mut Self) -> Result<Member, String>,
    ) -> Result<Vec<Member>, String> {
        let mut found = Vec::new();
        self.take(open)?;
        if self.peek() != Some(close) {
            found.push(member(self)?);
            while self.peek() == Some(',') {
                self.take(',')?;
                found.push(member(self)?);
            }
        }
        self.take(close)?;
        Ok(found)
    }

    fn member(&mut self) -> Result<(String, Value), String> {
        self.pass_spaces();
        let key = self.text()?;
        self.take(':')?;
        Ok((key, self.value()?))
    }

    fn text(&mut self) -> Result<String, String> {
        let mut text = String::new();
        self.take('"')?;
        loop {
            match self.rest.next().ok_or("a text has no end")? {
                '"' => return Ok(text),
                '\\' => text.push(self.escaped()?),
                control if control < ' ' => return Err(format!("{control:?} in a text")),
                character => text.push(character),
            }
        }
    }

    /// What stands behind a backslash. The host escapes no half of a pair.
    fn escaped(&mut self) -> Result<char, String> {
        match self.rest.next() {
            Some(itself @ ('"' | '\\' | '/')) => Ok(itself),
            Some('n') => Ok('\n'),
            Some('r') => Ok('\r'),
            Some('t') => Ok('\t'),
            Some('b') => Ok('\u{8}'),
            Some('f') => Ok('\u{C}'),
            Some('u') => {
                let digits: String = self.rest.by_ref().take(4).collect();
                let is_hexadecimal =
                    digits.len() == 4 && digits.chars().all(|digit| digit.is_ascii_hexdigit());
                let code = u32::from_str_radix(&digits, 16)
                    .ok()
                    .filter(|_| is_hexadecimal);
                code.and_then(char::from_u32)
                    .ok_or(format!("\\u{digits} is no character"))
            }
            other => Err(format!("{other:?} behind a backslash")),
        }
    }

    /// A number, or one of the three names.
    fn word(&mut self) -> Result<Value, String> {
        let mut word = String::new();
        while let Some(next) = self
            .rest
            .next_if(|next| next.is_ascii_alphanumeric() || "+-.".contains(*next))
        {
            word.push(next);
        }
        match word.as_str() {
            "null" => Ok(Value::Null),
            "true" => Ok(Value::Truth(true)),
            "false" => Ok(Value::Truth(false)),
            _ => number(&word),
        }
    }
}

/// "0", or digits that do not begin with 0, after a minus or none.
fn number(word: &str) -> Result<Value, String> {
    let digits = word.strip_prefix('-').unwrap_or(word);
    let is_plain = digits == "0" || !digits.starts_with(['0', '+', '-']);
    let number = word.parse().ok().filter(|_| is_plain);
    number
        .map(Value::Number)
        .ok_or(format!("{word:?} is no whole number of 64 bits"))
}

fn object(members: Vec<(String, Value)>) -> Result<Value, String> {
    for (at, (key, _)) in members.iter().enumerate() {
        if members[..at].iter().any(|(earlier, _)| earlier == key) {
            return Err(format!("the key {key:?} comes twice"));
        }
    }
    Ok(Value::Object(members))
}
