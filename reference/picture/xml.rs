//! A strict reader of the XML that a picture needs: elements, attributes, text and the five named characters. What it reads is
//! well-formed; of well-formed documents it refuses those with comments, instructions or a document type.

#[derive(Clone, Debug, Default)]
pub struct Element {
    pub name: String,
    pub attributes: Vec<(String, String)>,
    pub text: String,
    pub children: Vec<Element>,
}

impl Element {
    pub fn attribute(&self, name: &str) -> Option<&str> {
        self.attributes.iter().find(|(other, _)| other == name).map(|(_, value)| value.as_str())
    }

    /// The element and all within it.
    pub fn all(&self) -> Vec<&Element> {
        let mut found = vec![self];
        for child in &self.children {
            found.extend(child.all());
        }
        found
    }
}

/// The one element of a document.
pub fn read(text: &str) -> Result<Element, String> {
    let mut reader = Reader { rest: text };
    let element = reader
        .element()
        .map_err(|why| format!("{why}, before {:?}", reader.rest.chars().take(40).collect::<String>()))?;
    match reader.rest.trim() {
        "" => Ok(element),
        more => Err(format!("after the end: {:?}", more.chars().take(40).collect::<String>())),
    }
}

struct Reader<'a> {
    rest: &'a str,
}

impl Reader<'_> {
    fn take(&mut self, expected: &str) -> bool {
        let rest = self.rest.strip_prefix(expected);
        self.rest = rest.unwrap_or(self.rest);
        rest.is_some()
    }

    fn until(&mut self, is_end: impl Fn(char) -> bool) -> String {
        let end = self.rest.find(is_end).unwrap_or(self.rest.len());
        let (taken, rest) = self.rest.split_at(end);
        self.rest = rest;
        taken.to_string()
    }

    fn name(&mut self) -> Result<String, String> {
        let name = self.until(|c| !(c.is_ascii_alphanumeric() || c == '-'));
        if name.starts_with(|c: char| c.is_ascii_alphabetic()) {
            Ok(name)
        } else {
            Err("no name".to_string())
        }
    }

    fn element(&mut self) -> Result<Element, String> {
        if !self.take("<") {
            return Err("no element".to_string());
        }
        let mut element = Element { name: self.name()?, ..Element::default() };
        loop {
            let gap = self.until(|c| !c.is_ascii_whitespace());
            if self.take("/>") {
                return Ok(element);
            }
            if self.take(">") {
                break;
            }
            if gap.is_empty() {
                return Err("attributes without a gap".to_string());
            }
            self.attribute(&mut element)?;
        }
        loop {
            let text = self.until(|c| c == '<');
            element.text += &plain(&text)?;
            if self.take("</") {
                let name = self.name()?;
                return if name == element.name && self.take(">") {
                    Ok(element)
                } else {
                    Err(format!("{} ends as {name}", element.name))
                };
            }
            element.children.push(self.element()?);
        }
    }

    fn attribute(&mut self, element: &mut Element) -> Result<(), String> {
        let name = self.name()?;
        if element.attribute(&name).is_some() {
            return Err(format!("{name} twice"));
        }
        if !self.take("=\"") {
            return Err(format!("{name} without a value"));
        }
        let value = self.until(|c| c == '"' || c == '<');
        if !self.take("\"") {
            return Err(format!("{name}: a value without an end"));
        }
        element.attributes.push((name, plain(&value)?));
        Ok(())
    }
}

/// Text without its named characters. XML has no control characters but these three, and a mark stands for itself nowhere.
fn plain(text: &str) -> Result<String, String> {
    let is_listed = |c: char| matches!(c, '\t' | '\n' | '\r' | ' '..='\u{d7ff}' | '\u{e000}'..='\u{fffd}' | '\u{10000}'..);
    if let Some(other) = text.chars().find(|c| !is_listed(*c)) {
        return Err(format!("the character {other:?}"));
    }
    let mut parts = text.split('&');
    let mut plain = parts.next().unwrap_or("").to_string();
    for part in parts {
        let (name, rest) = part.split_once(';').ok_or("an & that names nothing")?;
        plain.push(match name {
            "amp" => '&',
            "lt" => '<',
            "gt" => '>',
            "quot" => '"',
            "apos" => '\'',
            _ => return Err(format!("&{name};")),
        });
        plain += rest;
    }
    Ok(plain)
}
