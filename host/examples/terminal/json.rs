//! JSON objects, one a line.

/// An object that is being written.
pub struct Object {
    text: String,
}

impl Object {
    pub fn new() -> Object {
        Object { text: "{".to_string() }
    }

    /// An object of the output; its first field says what it tells.
    pub fn of(event: &str) -> Object {
        Object::new().text("event", event)
    }

    pub fn number(mut self, key: &str, number: usize) -> Object {
        self.key(key);
        self.text.push_str(&number.to_string());
        self
    }

    pub fn text(mut self, key: &str, text: &str) -> Object {
        self.key(key);
        quote(&mut self.text, text);
        self
    }

    pub fn texts<'a>(self, key: &str, texts: impl IntoIterator<Item = &'a str>) -> Object {
        self.list(key, texts, quote)
    }

    pub fn objects(self, key: &str, objects: impl IntoIterator<Item = Object>) -> Object {
        self.list(key, objects, |text, object| text.push_str(&object.finish()))
    }

    /// The object's text, without a line end.
    pub fn finish(mut self) -> String {
        self.text.push('}');
        self.text
    }

    fn key(&mut self, key: &str) {
        if self.text.len() > 1 {
            self.text.push(',');
        }
        quote(&mut self.text, key);
        self.text.push(':');
    }

    fn list<T>(
        mut self,
        key: &str,
        items: impl IntoIterator<Item = T>,
        mut write: impl FnMut(&mut String, T),
    ) -> Object {
        self.key(key);
        self.text.push('[');
        for (number, item) in items.into_iter().enumerate() {
            if number > 0 {
                self.text.push(',');
            }
            write(&mut self.text, item);
        }
        self.text.push(']');
        self
    }
}

/// Writes a string: quotes, backslashes, controls and JavaScript's line ends are escaped, all others stand as they are.
fn quote(text: &mut String, string: &str) {
    text.push('"');
    for c in string.chars() {
        match c {
            '"' => text.push_str("\\\""),
            '\\' => text.push_str("\\\\"),
            '\n' => text.push_str("\\n"),
            '\r' => text.push_str("\\r"),
            '\t' => text.push_str("\\t"),
            '\u{0}'..='\u{1f}' | '\u{7f}'..='\u{9f}' | '\u{2028}' | '\u{2029}' => {
                text.push_str(&format!("\\u{:04x}", u32::from(c)));
            }
            other => text.push(other),
        }
    }
    text.push('"');
}

#[cfg(test)]
mod tests {
    use super::*;

    #[test]
    fn an_object_has_its_fields_in_order() {
        let inner = Object::new().number("n", 0);
        let object = Object::of("token").number("id", 65_535).texts("stack", ["A", "B"]).objects("notes", [inner]);
        assert_eq!(object.finish(), r#"{"event":"token","id":65535,"stack":["A","B"],"notes":[{"n":0}]}"#);
        assert_eq!(Object::new().texts("none", []).finish(), r#"{"none":[]}"#);
        assert_eq!(Object::new().finish(), "{}");
    }

    #[test]
    fn strings_are_escaped() {
        let object = Object::new().text("k\"", "a\"b\\c\n\r\t\u{0}\u{1f}\u{7f}\u{85}\u{2028}é€😀/");
        let written = r#"{"k\"":"a\"b\\c\n\r\t\u0000\u001f\u007f\u0085\u2028é€😀/"}"#;
        assert_eq!(object.finish(), written);
    }
}
