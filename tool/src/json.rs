//! JSON, which is written and never read.

/// A value as JSON.
pub trait Json {
    fn json(&self) -> String;
}

macro_rules! plain {
    ($($kind:ty),*) => { $(impl Json for $kind { fn json(&self) -> String { self.to_string() } })* };
}
plain!(bool, u8, u16, u32, u64, usize);

impl Json for str {
    fn json(&self) -> String {
        let mut out = String::from('"');
        for c in self.chars() {
            match c {
                '"' | '\\' => out.extend(['\\', c]),
                c if c < ' ' => out.push_str(&format!("\\u{:04x}", c as u32)),
                c => out.push(c),
            }
        }
        out.push('"');
        out
    }
}

impl Json for String {
    fn json(&self) -> String {
        self.as_str().json()
    }
}

impl<T: Json + ?Sized> Json for &T {
    fn json(&self) -> String {
        (**self).json()
    }
}

impl<T: Json> Json for Option<T> {
    fn json(&self) -> String {
        self.as_ref().map_or("null".into(), Json::json)
    }
}

impl<T: Json> Json for [T] {
    fn json(&self) -> String {
        format!("[{}]", self.iter().map(Json::json).collect::<Vec<_>>().join(","))
    }
}

impl<T: Json> Json for Vec<T> {
    fn json(&self) -> String {
        self.as_slice().json()
    }
}

impl<T: Json, const N: usize> Json for [T; N] {
    fn json(&self) -> String {
        self.as_slice().json()
    }
}

/// An object, field by field in the order in which they are added.
pub struct Object(Vec<String>);

impl Object {
    pub fn new() -> Object {
        Object(Vec::new())
    }

    pub fn with(mut self, key: &str, value: impl Json) -> Object {
        self.0.push(format!("{}:{}", key.json(), value.json()));
        self
    }
}

impl Json for Object {
    fn json(&self) -> String {
        format!("{{{}}}", self.0.join(","))
    }
}

#[cfg(test)]
mod tests {
    use super::*;

    #[test]
    fn strings_are_escaped() {
        assert_eq!("a\"b\\c\n".json(), r#""a\"b\\c\u000a""#);
    }

    #[test]
    fn absent_is_null() {
        let object = Object::new().with("hop", None::<u16>).with("cells", vec![1u8, 2]).with("up", true);
        assert_eq!(object.json(), r#"{"hop":null,"cells":[1,2],"up":true}"#);
    }
}
