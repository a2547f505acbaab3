//! JSON, as far as the tool writes it.

use std::fmt;

pub enum Value {
    Number(usize),
    /// `null` where it is not finite, which no number of JSON is.
    Double(f64),
    Text(String),
    Object(Vec<(&'static str, Value)>),
    /// Each on a line of its own.
    List(Vec<Value>),
}

impl fmt::Display for Value {
    fn fmt(&self, f: &mut fmt::Formatter) -> fmt::Result {
        match self {
            Value::Number(number) => write!(f, "{number}"),
            Value::Double(double) if double.is_finite() => write!(f, "{double:?}"),
            Value::Double(_) => f.write_str("null"),
            Value::Text(text) => f.write_str(&quoted(text)),
            Value::Object(members) => {
                let members: Vec<String> = members
                    .iter()
                    .map(|(name, value)| format!("{}:{value}", quoted(name)))
                    .collect();
                write!(f, "{{{}}}", members.join(","))
            }
            Value::List(values) if values.is_empty() => f.write_str("[]"),
            Value::List(values) => {
                let lines: Vec<String> = values.iter().map(Value::to_string).collect();
                write!(f, "[\n{}\n]", lines.join(",\n"))
            }
        }
    }
}

fn quoted(text: &str) -> String {
    let escaped: String = text
        .chars()
        .map(|character| match character {
            '"' | '\\' => format!("\\{character}"),
            '\0'..='\x1f' => format!("\\u{:04x}", u32::from(character)),
            _ => character.to_string(),
        })
        .collect();
    format!("\"{escaped}\"")
}
