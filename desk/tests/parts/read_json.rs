//! Reads one line of JSON, as strictly as the tool should write it: no spaces between values, whole numbers only.

use abwakiris_desk::json::Json;

/// The value that a text is, all of it.
pub fn read(text: &str) -> Result<Json, String> {
    let mut reader = Reader { left: text };
    let value = reader.value()?;
    if !reader.left.is_empty() {
        return Err(format!("more after the value: {}", reader.here()));
    }
    if value.to_string() != text {
        return Err(format!("written again it is another text: {value}"));
    }
    Ok(value)
}

/// The member of this name; `Null` where there is none.
pub fn member<'a>(value: &'a Json, name: &str) -> &'a Json {
    match value {
        Json::Object(members) => members.iter().find(|(own, _)| own == name).map_or(&Json::Null, |(_, value)| value),
        _ => &Json::Null,
    }
}

/// The text of a value that is one, else nothing.
pub fn text(value: &Json) -> &str {
    if let Json::Text(text) = value {
        text
    } else {
        ""
    }
}

struct Reader<'a> {
    left: &'a str,
}

impl Reader<'_> {
    fn here(&self) -> String {
        self.left.chars().take(40).collect()
    }

    /// Goes past this text where it comes next.
    fn takes(&mut self, text: &str) -> bool {
        self.left.strip_prefix(text).map(|left| self.left = left).is_some()
    }

    fn needs(&mut self, text: &str) -> Result<(), String> {
        if self.takes(text) {
            Ok(())
        } else {
            Err(format!("{text} should stand here: {}", self.here()))
        }
    }

    fn value(&mut self) -> Result<Json, String> {
        for (word, value) in [("null", Json::Null), ("true", Json::Bool(true)), ("false", Json::Bool(false))] {
            if self.takes(word) {
                return Ok(value);
            }
        }
        match self.left.chars().next() {
            Some('"') => self.quoted().map(Json::Text),
            Some('[') => self.rest_of("[", "]", Reader::value).map(Json::List),
            Some('{') => self.rest_of("{", "}", Reader::member).map(Json::Object),
            _ => self.number(),
        }
    }

    /// What stands between two brackets, with commas between.
    fn rest_of<T>(&mut self, open: &str, close: &str, mut one: impl FnMut(&mut Self) -> Result<T, String>) -> Result<Vec<T>, String> {
        self.needs(open)?;
        let mut all = vec![];
        while !self.takes(close) {
            if !all.is_empty() {
                self.needs(",")?;
            }
            all.push(one(self)?);
        }
        Ok(all)
    }

    fn member(&mut self) -> Result<(String, Json), String> {
        let name = self.quoted()?;
        self.needs(":")?;
        Ok((name, self.value()?))
    }

    fn number(&mut self) -> Result<Json, String> {
        let digits = self.left.bytes().take_while(u8::is_ascii_digit).count();
        let number = self.left[..digits].parse().map_err(|_| format!("no value: {}", self.here()))?;
        self.left = &self.left[digits..];
        Ok(Json::Number(number))
    }

    fn quoted(&mut self) -> Result<String, String> {
        self.needs("\"")?;
        let mut text = String::new();
        while !self.takes("\"") {
            let letter = self.left.chars().next().ok_or("a text without its end")?;
            self.left = &self.left[letter.len_utf8()..];
            text.push(if letter == '\\' { self.escaped()? } else { letter });
        }
        Ok(text)
    }

    fn escaped(&mut self) -> Result<char, String> {
        for (word, letter) in [("\"", '"'), ("\\", '\\'), ("n", '\n')] {
            if self.takes(word) {
                return Ok(letter);
            }
        }
        self.needs("u")?;
        let digits = self.left.get(..4).ok_or("an escape without its digits")?;
        let letter = u32::from_str_radix(digits, 16).ok().and_then(char::from_u32);
        self.left = &self.left[4..];
        letter.ok_or_else(|| format!("no letter: {digits}"))
    }
}
