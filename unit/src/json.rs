//! JSON, as far as answers need it.
pub enum Json {
    Null,
    Number(i64),
    Text(String),
    List(Vec<Json>),
    Object(Vec<(&'static str, Json)>),
}

impl Json {
    pub fn numbers<T: Copy + Into<i64>>(list: &[T]) -> Json {
        Json::List(list.iter().map(|&number| Json::Number(number.into())).collect())
    }

    pub fn texts(list: &[String]) -> Json {
        Json::List(list.iter().map(|text| text.as_str().into()).collect())
    }
}

impl From<&str> for Json {
    fn from(text: &str) -> Json {
        Json::Text(text.to_string())
    }
}

impl<T: Into<i64>> From<Option<T>> for Json {
    fn from(number: Option<T>) -> Json {
        number.map_or(Json::Null, |number| Json::Number(number.into()))
    }
}

impl std::fmt::Display for Json {
    fn fmt(&self, f: &mut std::fmt::Formatter<'_>) -> std::fmt::Result {
        match self {
            Json::Null => write!(f, "null"),
            Json::Number(number) => write!(f, "{number}"),
            Json::Text(text) => quoted(f, text),
            Json::List(list) => {
                write!(f, "[")?;
                for (i, one) in list.iter().enumerate() {
                    write!(f, "{}{one}", if i == 0 { "" } else { ", " })?;
                }
                write!(f, "]")
            }
            Json::Object(fields) => {
                write!(f, "{{")?;
                for (i, (name, value)) in fields.iter().enumerate() {
                    write!(f, "{}\"{name}\": {value}", if i == 0 { "" } else { ", " })?;
                }
                write!(f, "}}")
            }
        }
    }
}

fn quoted(f: &mut std::fmt::Formatter<'_>, text: &str) -> std::fmt::Result {
    write!(f, "\"")?;
    for sign in text.chars() {
        match sign {
            '"' | '\\' => write!(f, "\\{sign}")?,
            '\n' => write!(f, "\\n")?,
            sign if (sign as u32) < 32 => write!(f, "\\u{:04x}", sign as u32)?,
            sign => write!(f, "{sign}")?,
        }
    }
    write!(f, "\"")
}

#[cfg(test)]
mod tests {
    use super::*;

    #[test]
    fn signs_are_escaped() {
        let said = Json::Object(vec![("a", "q\"\\\n\u{1}".into()), ("b", Json::numbers(&[-1, 2])), ("c", Json::from(None::<u16>))]).to_string();
        assert_eq!(said, r#"{"a": "q\"\\\n\u0001", "b": [-1, 2], "c": null}"#);
    }
}
