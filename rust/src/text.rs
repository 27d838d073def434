//! Values as text, and events as XML, as the original renders them.

use std::borrow::Cow;
use std::fmt::Display;

use crate::{EventRef, ValueRef};

/// A value as text, not escaped.
pub(crate) fn value(value: ValueRef<'_>) -> Cow<'_, str> {
    match value {
        ValueRef::Null => "".into(),
        ValueRef::String(s) => s.into(),
        ValueRef::BytesHex(bytes) => hex(bytes).into(),
        ValueRef::BytesBase64(bytes) => base64(bytes).into(),
        ValueRef::Int(n) => n.to_string().into(),
        ValueRef::IntHex(n) => signed_hex((n as i32).into()).into(),
        ValueRef::Long(n) => n.to_string().into(),
        ValueRef::LongHex(n) => signed_hex(n as i64).into(),
        ValueRef::Float(x) => float(x, x.fract() == 0.0).into(),
        ValueRef::Double(x) => float(x, x.fract() == 0.0).into(),
        ValueRef::Boolean(true) => "true".into(),
        ValueRef::Boolean(false) => "false".into(),
    }
}

/// Digits of the number's amount, after its sign.
fn signed_hex(n: i64) -> String {
    let sign = if n < 0 { "-" } else { "" };
    format!("{sign}{:x}", n.unsigned_abs())
}

/// A whole number has one digit after the point. The infinities and NaN have no fraction that is 0.
fn float(x: impl Display, whole: bool) -> String {
    if whole {
        format!("{x:.1}")
    } else {
        x.to_string()
    }
}

fn hex(bytes: &[u8]) -> String {
    let digit = |n: u8| char::from_digit(n.into(), 16).unwrap_or('0');
    let digits = |byte: &u8| [digit(byte >> 4), digit(byte & 15)];
    bytes.iter().flat_map(digits).collect()
}

/// RFC 4648's, filled up with `=`.
fn base64(bytes: &[u8]) -> String {
    const DIGITS: &[u8; 64] = b"ABCDEFGHIJKLMNOPQRSTUVWXYZabcdefghijklmnopqrstuvwxyz0123456789+/";
    let mut text = String::with_capacity(bytes.len().div_ceil(3) * 4);
    for three in bytes.chunks(3) {
        let byte = |at| u32::from(three.get(at).copied().unwrap_or(0));
        let bits = byte(0) << 16 | byte(1) << 8 | byte(2);
        for digit in 0..4 {
            let of = bits >> (18 - 6 * digit) & 63;
            let filled = digit > three.len();
            text.push(if filled {
                '='
            } else {
                DIGITS[of as usize].into()
            });
        }
    }
    text
}

/// What stands before the first event of an XML text.
pub(crate) const DECLARATION: &str = r#"<?xml version="1.0" encoding="UTF-8"?>"#;

/// Appends an event as XML. Texts and the strings of attributes are escaped, nothing else is.
pub(crate) fn push_event(xml: &mut String, event: EventRef<'_>) {
    let mut around = |before: &str, s: &str, after: &str| {
        xml.push_str(before);
        xml.push_str(s);
        xml.push_str(after);
    };
    match event {
        EventRef::StartDocument | EventRef::EndDocument => {}
        EventRef::StartTag { name, attributes } => {
            around("<", name, "");
            for attribute in attributes {
                around(" ", attribute.name, "=\"");
                match attribute.value {
                    ValueRef::String(s) => around("", &escaped(s), "\""),
                    other => around("", &value(other), "\""),
                }
            }
            around(">", "", "");
        }
        EventRef::EndTag { name } => around("</", name, ">"),
        EventRef::Text(s) => around("", &escaped(s), ""),
        EventRef::CdataSection(s) => around("<![CDATA[", s, "]]>"),
        EventRef::Comment(s) => around("<!--", s, "-->"),
        EventRef::ProcessingInstruction(s) => around("<?", s, "?>"),
        EventRef::EntityReference(s) => around("&", s, ";"),
        EventRef::IgnorableWhitespace(s) => around("", s, ""),
        EventRef::DocDecl(s) => around("<!DOCTYPE ", s, ">"),
    }
}

fn escaped(s: &str) -> Cow<'_, str> {
    let entity = |c| match c {
        '<' => Some("&lt;"),
        '>' => Some("&gt;"),
        '&' => Some("&amp;"),
        '"' => Some("&quot;"),
        '\'' => Some("&apos;"),
        _ => None,
    };
    if !s.contains(|c| entity(c).is_some()) {
        return s.into();
    }
    let mut escaped = String::with_capacity(s.len() + 8);
    for c in s.chars() {
        match entity(c) {
            Some(entity) => escaped.push_str(entity),
            None => escaped.push(c),
        }
    }
    escaped.into()
}

#[cfg(test)]
mod tests {
    use super::*;

    #[test]
    fn values() {
        for (of, text) in [
            (ValueRef::Null, ""),
            (ValueRef::String("<a>"), "<a>"),
            (ValueRef::BytesHex(&[0, 0x9F, 0xFA]), "009ffa"),
            // RFC 4648, section 10
            (ValueRef::BytesBase64(b""), ""),
            (ValueRef::BytesBase64(b"f"), "Zg=="),
            (ValueRef::BytesBase64(b"fo"), "Zm8="),
            (ValueRef::BytesBase64(b"foo"), "Zm9v"),
            (ValueRef::BytesBase64(b"foob"), "Zm9vYg=="),
            (ValueRef::BytesBase64(b"fooba"), "Zm9vYmE="),
            (ValueRef::BytesBase64(b"foobar"), "Zm9vYmFy"),
            (ValueRef::BytesBase64(&[0xFB, 0xFF, 0xBF]), "+/+/"),
            (ValueRef::Int(i32::MIN), "-2147483648"),
            (ValueRef::IntHex(0x8000_0000), "-80000000"),
            (ValueRef::IntHex(0x7FFF_FFFF), "7fffffff"),
            (ValueRef::Long(-1), "-1"),
            (ValueRef::LongHex(1 << 63), "-8000000000000000"),
            (ValueRef::LongHex(0), "0"),
            (ValueRef::Float(-0.0), "-0.0"),
            (ValueRef::Float(0.1), "0.1"),
            (ValueRef::Float(f32::NAN), "NaN"),
            (ValueRef::Double(1e20), "100000000000000000000.0"),
            (ValueRef::Double(f64::NEG_INFINITY), "-inf"),
            (ValueRef::Boolean(true), "true"),
            (ValueRef::Boolean(false), "false"),
        ] {
            assert_eq!(value(of), text, "{of:?}");
        }
    }

    #[test]
    fn events() {
        for (event, text) in [
            (EventRef::StartDocument, ""),
            (EventRef::EndTag { name: "a" }, "</a>"),
            (
                EventRef::Text("a<b>&\"c'é"),
                "a&lt;b&gt;&amp;&quot;c&apos;é",
            ),
            (EventRef::CdataSection("<"), "<![CDATA[<]]>"),
            (EventRef::Comment("<"), "<!--<-->"),
            (EventRef::ProcessingInstruction("<"), "<?<?>"),
            (EventRef::EntityReference("lt"), "&lt;"),
            (EventRef::IgnorableWhitespace(" \n"), " \n"),
            (EventRef::DocDecl("a"), "<!DOCTYPE a>"),
        ] {
            let mut xml = String::new();
            push_event(&mut xml, event);
            assert_eq!(xml, text);
        }
    }
}
