//! JSON (RFC 8259): values, a reader that takes nothing damaged, a writer.

mod reader;

pub use reader::Damage;
use std::fmt;

#[derive(Clone, Debug, PartialEq, Eq)]
pub enum Json {
    Null,
    Bool(bool),
    /// As it is written, so that it goes back exactly as it came.
    Number(String),
    String(String),
    Array(Vec<Json>),
    /// In the order in which it is written.
    Object(Vec<(String, Json)>),
}

impl Json {
    pub fn read(text: &str) -> Result<Json, Damage> {
        reader::read(text)
    }

    /// An object of these members.
    pub fn object<const N: usize>(members: [(&str, Json); N]) -> Json {
        Json::Object(members.into_iter().map(|(name, value)| (name.to_string(), value)).collect())
    }

    pub fn array(values: impl IntoIterator<Item = Json>) -> Json {
        Json::Array(values.into_iter().collect())
    }

    /// One more member of an object.
    pub fn with(self, name: &str, value: Json) -> Json {
        match self {
            Json::Object(mut members) => {
                members.push((name.to_string(), value));
                Json::Object(members)
            }
            other => other,
        }
    }

    /// A member of an object; of several with one name the last.
    pub fn get(&self, name: &str) -> Option<&Json> {
        match self {
            Json::Object(members) => {
                members.iter().rev().find(|(member, _)| member == name).map(|(_, value)| value)
            }
            _ => None,
        }
    }

    /// A member of a member and so on.
    pub fn at(&self, path: &[&str]) -> Option<&Json> {
        path.iter().try_fold(self, |value, name| value.get(name))
    }

    pub fn as_str(&self) -> Option<&str> {
        match self {
            Json::String(text) => Some(text),
            _ => None,
        }
    }

    pub fn as_array(&self) -> Option<&[Json]> {
        match self {
            Json::Array(values) => Some(values),
            _ => None,
        }
    }

    pub fn as_bool(&self) -> Option<bool> {
        match self {
            Json::Bool(value) => Some(*value),
            _ => None,
        }
    }

    /// A whole number, also where it is written as 3.0 or 3e0.
    pub fn as_u32(&self) -> Option<u32> {
        let Json::Number(text) = self else { return None };
        let rounded = || text.parse::<f64>().ok().filter(|value| value.fract() == 0.0);
        let in_range = |value: &f64| (0.0..=f64::from(u32::MAX)).contains(value);
        text.parse().ok().or_else(|| rounded().filter(in_range).map(|value| value as u32))
    }
}

impl From<&str> for Json {
    fn from(text: &str) -> Json {
        Json::String(text.to_string())
    }
}

impl From<String> for Json {
    fn from(text: String) -> Json {
        Json::String(text)
    }
}

impl From<i32> for Json {
    fn from(number: i32) -> Json {
        Json::Number(number.to_string())
    }
}

impl From<u32> for Json {
    fn from(number: u32) -> Json {
        Json::Number(number.to_string())
    }
}

impl From<bool> for Json {
    fn from(value: bool) -> Json {
        Json::Bool(value)
    }
}

impl fmt::Display for Json {
    fn fmt(&self, f: &mut fmt::Formatter) -> fmt::Result {
        match self {
            Json::Null => f.write_str("null"),
            Json::Bool(value) => write!(f, "{value}"),
            Json::Number(text) => f.write_str(text),
            Json::String(text) => write_string(text, f),
            Json::Array(values) => {
                f.write_str("[")?;
                for (number, value) in values.iter().enumerate() {
                    write!(f, "{}{value}", if number > 0 { "," } else { "" })?;
                }
                f.write_str("]")
            }
            Json::Object(members) => {
                f.write_str("{")?;
                for (number, (name, value)) in members.iter().enumerate() {
                    f.write_str(if number > 0 { "," } else { "" })?;
                    write_string(name, f)?;
                    write!(f, ":{value}")?;
                }
                f.write_str("}")
            }
        }
    }
}

fn write_string(text: &str, f: &mut fmt::Formatter) -> fmt::Result {
    f.write_str("\"")?;
    let mut rest = text;
    while let Some(at) = rest.find(|c: char| c == '"' || c == '\\' || c < ' ') {
        let (plain, special) = rest.split_at(at);
        f.write_str(plain)?;
        match special.as_bytes()[0] {
            b'\n' => f.write_str("\\n")?,
            b'\r' => f.write_str("\\r")?,
            b'\t' => f.write_str("\\t")?,
            byte @ (b'"' | b'\\') => write!(f, "\\{}", char::from(byte))?,
            byte => write!(f, "\\u{byte:04x}")?,
        }
        rest = &special[1..];
    }
    write!(f, "{rest}\"")
}

#[cfg(test)]
mod tests {
    use super::reader::MOST_NESTED;
    use super::*;

    #[track_caller]
    fn same(text: &str) {
        assert_eq!(Json::read(text).map(|value| value.to_string()), Ok(text.to_string()));
    }

    #[track_caller]
    fn becomes(text: &str, written: &str) {
        assert_eq!(Json::read(text).map(|value| value.to_string()), Ok(written.to_string()));
    }

    #[track_caller]
    fn damaged(text: &str, at: usize, what: &'static str) {
        assert_eq!(Json::read(text), Err(Damage { at, what }), "{text}");
    }

    #[test]
    fn values_go_back_as_they_came() {
        same(
            r#"{"a":[1,-0.5e+7,123456789012345678901234567890,true,false,null,"é\"\\\n\r\t\u0001😀"],"b":{},"c":[]}"#,
        );
        becomes(" [ 1 , { \"a\" : 2 } ]\r\n", r#"[1,{"a":2}]"#);
        becomes(r#""\u00e9\ud83d\ude00\/\b\f""#, "\"é😀/\\u0008\\u000c\"");
    }

    /// Each half of a pair is one unit, as the editor counts it.
    #[test]
    fn half_a_pair_is_one_unit() {
        becomes(r#""\ud83d""#, "\"\u{fffd}\"");
        becomes(r#""\ude00\ud83d""#, "\"\u{fffd}\u{fffd}\"");
        becomes(r#""\ud83dx""#, "\"\u{fffd}x\"");
        becomes(r#""\ud83d\ud83d\ude00""#, "\"\u{fffd}😀\"");
        becomes(r#""\ud83d\n""#, "\"\u{fffd}\\n\"");
    }

    #[test]
    fn damage_is_told_with_its_place() {
        damaged("", 0, "a value is due");
        damaged("nul", 0, "a value is due");
        damaged("[1,]", 3, "a value is due");
        damaged("[1 2]", 3, "`,` or `]` is due");
        damaged("{\"a\":1,}", 7, "a member's name is due");
        damaged("{\"a\" 1}", 5, "`:` is due");
        damaged("{\"a\":1 \"b\"", 7, "`,` or `}` is due");
        damaged("01", 1, "something stands behind the value");
        damaged("1.", 2, "a digit is due");
        damaged("-", 1, "a digit is due");
        damaged("\"a", 2, "a string does not end");
        damaged("\"\n\"", 1, "a control character stands in a string");
        damaged("\"\\x\"", 2, "no escape begins so");
        damaged("\"\\u12g4\"", 3, "four hexadecimal digits are due");
        damaged("\"\\u12é\"", 3, "four hexadecimal digits are due");
        damaged("\"\\u+123\"", 3, "four hexadecimal digits are due");
    }

    #[test]
    fn depth_has_a_limit() {
        let nested = |depth: usize| "[".repeat(depth) + &"]".repeat(depth);
        same(&nested(MOST_NESTED));
        damaged(&nested(MOST_NESTED + 1), MOST_NESTED, "a value is nested too deep");
        damaged(&"[".repeat(1_000_000), MOST_NESTED, "a value is nested too deep");
    }

    #[test]
    fn members_and_numbers_are_found() {
        let value =
            Json::read(r#"{"a":{"b":3.0},"c":-1,"d":4294967296,"a":{"b":4294967295}}"#).expect("JSON");
        assert_eq!(value.at(&["a", "b"]).and_then(Json::as_u32), Some(u32::MAX));
        assert_eq!(value.get("c").and_then(Json::as_u32), None);
        assert_eq!(value.get("d").and_then(Json::as_u32), None);
        assert_eq!(Json::read("3e0").expect("JSON").as_u32(), Some(3));
        assert_eq!(Json::read("3.5").expect("JSON").as_u32(), None);
        assert_eq!(value.at(&["a", "x"]), None);
    }
}
