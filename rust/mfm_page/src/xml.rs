//! As much of XML as a PEF file needs: its elements, and the characters in them.

#[cfg(test)]
mod tests;

/// What an XML file is made of, as far as it matters here. Names stand without their prefix.
#[derive(Clone, Debug, PartialEq, Eq)]
pub enum Event<'a> {
    Begin(&'a str),
    End(&'a str),
    Character(char),
}

/// Reads a file from front to back. It takes no document type with declarations of its own, so that what stands in the
/// file is all there is.
pub struct Reader<'a> {
    file: &'a str,
    rest: &'a str,
    /// elements that are not ended
    open: Vec<&'a str>,
    /// an element that ends where it begins
    ends: Option<&'a str>,
    root_seen: bool,
    plain: bool,
}

impl<'a> Reader<'a> {
    /// A reader of a whole file, which has to be UTF-8.
    pub fn new(file: &'a [u8]) -> Result<Reader<'a>, String> {
        let text = std::str::from_utf8(file).map_err(|error| match error.error_len() {
            None => format!("the file stops in the character at byte {}", error.valid_up_to()),
            Some(_) => format!("it is not UTF-8 from byte {} on; a PEF file is", error.valid_up_to()),
        })?;
        let text = text.strip_prefix('\u{FEFF}').unwrap_or(text);
        Ok(Reader { file: text, rest: text, open: Vec::new(), ends: None, root_seen: false, plain: false })
    }

    /// The elements around the place where the reader is, from the root.
    pub fn path(&self) -> &[&'a str] {
        &self.open
    }

    /// A message with the line of the file.
    pub fn told(&self, text: &str) -> String {
        let line = 1 + self.file[..self.file.len() - self.rest.len()].matches('\n').count();
        format!("line {line} of the file: {text}")
    }

    /// What comes next; nothing at the end of the file.
    pub fn next(&mut self) -> Result<Option<Event<'a>>, String> {
        if let Some(name) = self.ends.take() {
            self.open.pop();
            return Ok(Some(Event::End(name)));
        }
        loop {
            if self.plain {
                if let Some(rest) = self.rest.strip_prefix("]]>") {
                    (self.rest, self.plain) = (rest, false);
                    continue;
                }
                return self.character().map(Some);
            }
            if self.rest.is_empty() {
                return match self.open.last() {
                    Some(name) => Err(self.told(&format!("the file stops in the element {name}"))),
                    None if !self.root_seen => Err(self.told("there is no element")),
                    None => Ok(None),
                };
            }
            if !self.rest.starts_with('<') {
                return match self.rest.starts_with('&') {
                    true => self.reference().map(Some),
                    false => self.character().map(Some),
                };
            }
            if let Some(rest) = self.rest.strip_prefix("<![CDATA[") {
                (self.rest, self.plain) = (rest, true);
            } else if !self.passed_over()? {
                return self.tag().map(Some);
            }
        }
    }

    /// Passes over a comment, an instruction or a document type, if one stands there.
    fn passed_over(&mut self) -> Result<bool, String> {
        for (begin, end, what) in
            [("<!--", "-->", "a comment"), ("<?", "?>", "an instruction"), ("<!", ">", "a declaration")]
        {
            let Some(rest) = self.rest.strip_prefix(begin) else { continue };
            let Some(length) = rest.find(end) else { return Err(self.told(&format!("the file stops in {what}"))) };
            let inside = &rest[..length];
            if begin == "<!" && inside.contains(['[', '<']) {
                return Err(self.told("a document type with declarations of its own is not taken"));
            }
            if begin == "<?" && inside.starts_with("xml ") {
                self.is_utf8(inside)?;
            }
            self.rest = &rest[length + end.len()..];
            return Ok(true);
        }
        Ok(false)
    }

    /// Refuses a file that names another encoding.
    fn is_utf8(&self, declaration: &str) -> Result<(), String> {
        let Some((_, named)) = declaration.split_once("encoding") else { return Ok(()) };
        let named = named.trim_start_matches([' ', '\t', '\r', '\n', '=', '"', '\'']);
        let named = named.split(['"', '\'']).next().unwrap_or_default();
        match ["utf-8", "us-ascii"].iter().any(|known| named.eq_ignore_ascii_case(known)) {
            true => Ok(()),
            false => Err(self.told(&format!("it names the encoding {named}; UTF-8 is read"))),
        }
    }

    /// The begin or the end of an element.
    fn tag(&mut self) -> Result<Event<'a>, String> {
        let length = tag_length(self.rest).ok_or_else(|| self.told("the file stops in a tag"))?;
        let inside = &self.rest[1..length - 1];
        let (ended, inside) = match inside.strip_prefix('/') {
            Some(inside) => (true, inside),
            None => (false, inside),
        };
        let (inside, empty) = match inside.strip_suffix('/') {
            Some(inside) => (inside, true),
            None => (inside, false),
        };
        let name = inside.split([' ', '\t', '\r', '\n']).next().unwrap_or_default();
        let name = name.rsplit(':').next().unwrap_or_default();
        if name.is_empty() || !name.starts_with(|first: char| first.is_alphabetic() || first == '_') || ended && empty {
            return Err(self.told("a < that begins no tag"));
        }
        if ended {
            if self.open.last() != Some(&name) {
                let open = self.open.last().map_or("none".to_string(), |name| name.to_string());
                return Err(self.told(&format!("the end of {name}, where the element that is open is {open}")));
            }
            self.open.pop();
        } else {
            if self.open.is_empty() && std::mem::replace(&mut self.root_seen, true) {
                return Err(self.told(&format!("a second root element, {name}")));
            }
            self.open.push(name);
            self.ends = empty.then_some(name);
        }
        self.rest = &self.rest[length..];
        Ok(if ended { Event::End(name) } else { Event::Begin(name) })
    }

    /// A character that stands for itself.
    fn character(&mut self) -> Result<Event<'a>, String> {
        let mut characters = self.rest.chars();
        let Some(character) = characters.next() else { return Err(self.told("the file stops in a CDATA section")) };
        if self.open.is_empty() && !character.is_ascii_whitespace() {
            return Err(self.told(&format!("the character {character} outside of the root element")));
        }
        self.rest = characters.as_str();
        Ok(Event::Character(character))
    }

    /// A character by its number or name.
    fn reference(&mut self) -> Result<Event<'a>, String> {
        let Some((named, rest)) = self.rest[1..].split_once(';') else {
            return Err(self.told("an & without a ; behind it"));
        };
        let number = |digits: &str, radix| u32::from_str_radix(digits, radix).ok().and_then(char::from_u32);
        let character = match (named.strip_prefix("#x"), named.strip_prefix('#'), named) {
            (Some(digits), _, _) => number(digits, 16),
            (_, Some(digits), _) => number(digits, 10),
            (_, _, "amp") => Some('&'),
            (_, _, "lt") => Some('<'),
            (_, _, "gt") => Some('>'),
            (_, _, "quot") => Some('"'),
            (_, _, "apos") => Some('\''),
            _ => None,
        };
        let shown: String = named.chars().take(20).collect();
        let character = character.ok_or_else(|| self.told(&format!("&{shown}; is no character")))?;
        self.rest = rest;
        Ok(Event::Character(character))
    }
}

/// The bytes of the tag with which a text begins; a > in the value of an attribute does not end it.
fn tag_length(text: &str) -> Option<usize> {
    let mut quote = None;
    for (place, byte) in text.bytes().enumerate() {
        match (byte, quote) {
            (b'>', None) => return Some(place + 1),
            (b'"' | b'\'', None) => quote = Some(byte),
            _ if Some(byte) == quote => quote = None,
            _ => {}
        }
    }
    None
}
