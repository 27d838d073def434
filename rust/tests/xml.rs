//! Events as XML: `events_to_xml` and `Event::to_xml`.

mod common;

use std::fs;
use std::path::Path;

use abx::{
    events_to_abx, events_to_xml, AbxError, AbxParser, Attribute, AttributeValue, Event, MAX_OUTPUT,
};
use common::{end_tag, tag, Random};

fn with_value(value: AttributeValue) -> Event {
    tag("p", vec![Attribute::new("v", value)])
}

/// The events that have a string in a text, each with this one.
fn texts(s: &str) -> [Event; 7] {
    [
        Event::Text(s.into()),
        Event::CdataSection(s.into()),
        Event::EntityReference(s.into()),
        Event::IgnorableWhitespace(s.into()),
        Event::ProcessingInstruction(s.into()),
        Event::Comment(s.into()),
        Event::DocDecl(s.into()),
    ]
}

/// The same string as a name and as a value.
fn in_tags(s: &str) -> [Event; 4] {
    let attribute =
        |name: &str, value: &str| Attribute::new(name, AttributeValue::String(value.to_owned()));
    [
        tag(s, vec![]),
        end_tag(s),
        tag("p", vec![attribute(s, "")]),
        tag("p", vec![attribute("v", s)]),
    ]
}

/// What a reader's `to_xml` prints of it, which is made apart from the library.
fn by_reader(event: &Event) -> String {
    let document = events_to_abx(std::slice::from_ref(event)).unwrap();
    let xml = AbxParser::new(&document).unwrap().to_xml().unwrap();
    let (_, text) = xml.split_once("?>").unwrap();
    text.to_owned()
}

fn is_float(attribute: &Attribute) -> bool {
    matches!(
        attribute.value,
        AttributeValue::Float(_) | AttributeValue::Double(_)
    )
}

fn has_float(event: &Event) -> bool {
    matches!(event, Event::StartTag { attributes, .. } if attributes.iter().any(is_float))
}

#[track_caller]
fn refused<T: std::fmt::Debug>(result: abx::Result<T>, number: u32) {
    let error = result.unwrap_err();
    assert_eq!((error.number(), error.detail()), (Some(number), 0));
}

#[test]
fn kinds() {
    let told = texts("a<>&\"'é").map(|event| event.to_xml().unwrap());
    assert_eq!(
        told,
        [
            "a&lt;&gt;&amp;&quot;&apos;é",
            "<![CDATA[a<>&\"'é]]>",
            "&a<>&\"'é;",
            "a<>&\"'é",
            "<?a<>&\"'é?>",
            "<!--a<>&\"'é-->",
            "<!DOCTYPE a<>&\"'é>",
        ]
    );
    let told = texts("").map(|event| event.to_xml().unwrap());
    assert_eq!(
        told,
        [
            "",
            "<![CDATA[]]>",
            "&;",
            "",
            "<??>",
            "<!---->",
            "<!DOCTYPE >"
        ]
    );
    assert_eq!(Event::StartDocument.to_xml().unwrap(), "");
    assert_eq!(Event::EndDocument.to_xml().unwrap(), "");
    // names as they are, values escaped
    let told = in_tags("<\"").map(|event| event.to_xml().unwrap());
    assert_eq!(
        told,
        ["<<\">", "</<\">", "<p <\"=\"\">", "<p v=\"&lt;&quot;\">"]
    );
    assert_eq!(events_to_xml(&[]).unwrap(), "");
}

#[test]
fn values() {
    use AttributeValue::*;
    for (value, text) in [
        (Null, ""),
        (String("'a'".into()), "&apos;a&apos;"),
        (BytesHex(vec![0, 0x9F, 0xFA]), "009ffa"),
        (BytesBase64(vec![]), ""),
        (BytesBase64(b"f".to_vec()), "Zg=="),
        (BytesBase64(b"fo".to_vec()), "Zm8="),
        (BytesBase64(b"foo".to_vec()), "Zm9v"),
        (BytesBase64(vec![0xFB, 0xFF, 0xBF]), "+/+/"),
        (Int(0), "0"),
        (Int(i32::MAX), "2147483647"),
        (Int(i32::MIN), "-2147483648"),
        (IntHex(0xCAFE_BABE), "-35014542"),
        (IntHex(0x8000_0000), "-80000000"),
        (IntHex(0x7FFF_FFFF), "7fffffff"),
        (Long(i64::MAX), "9223372036854775807"),
        (Long(i64::MIN), "-9223372036854775808"),
        (LongHex(u64::MAX), "-1"),
        (LongHex(1 << 63), "-8000000000000000"),
        (LongHex(0x0123_4567_89AB_CDEF), "123456789abcdef"),
        // bits, not decimals
        (Float(1.0), "3f800000"),
        (Float(-0.0), "80000000"),
        (Float(0.0), "00000000"),
        (Double(1.5), "3ff8000000000000"),
        (Double(0.0), "0000000000000000"),
        (Boolean(true), "true"),
        (Boolean(false), "false"),
    ] {
        let text = format!("<p v=\"{text}\">");
        assert_eq!(with_value(value.clone()).to_xml().unwrap(), text);
    }
}

#[test]
fn characters() {
    let mut legal = vec!['\t', '\n', '\r', ' ', '\u{7F}', '\u{80}', '\u{D7FF}'];
    legal.extend(['\u{E000}', '\u{FFFD}', '\u{10000}', '\u{1FFFE}']);
    legal.extend(['\u{10FFFF}', '\u{FEFF}', '\u{FFBE}', '\u{EFBF}']);
    for c in legal {
        for s in [c.to_string(), format!("0123456789abcdef{c}é")] {
            for event in texts(&s).into_iter().chain(in_tags(&s)) {
                assert_eq!(event.to_xml().unwrap(), by_reader(&event));
            }
        }
    }
    let mut illegal: Vec<char> = ('\0'..' ').collect();
    illegal.retain(|c| !"\t\n\r".contains(*c));
    illegal.extend(['\u{FFFE}', '\u{FFFF}']);
    assert_eq!(illegal.len(), 31);
    for c in illegal {
        for s in [c.to_string(), format!("0123456789abcdef{c}é")] {
            for event in texts(&s).into_iter().chain(in_tags(&s)) {
                refused(event.to_xml(), 20);
                refused(events_to_xml(&[Event::StartDocument, event]), 20);
            }
        }
    }
    // blobs are no strings
    let blob = with_value(AttributeValue::BytesHex(vec![0, 0xFF]));
    assert_eq!(blob.to_xml().unwrap(), "<p v=\"00ff\">");
}

#[test]
fn beside_a_reader() {
    let mut random = Random(7);
    let mut refusals = 0;
    for _ in 0..3000 {
        let mut events = random.events();
        events.retain(|event| !has_float(event));
        let texts: String = events.iter().map(by_reader).collect();
        // the one illegal character of these lists
        if texts.contains('\0') {
            refused(events_to_xml(&events), 20);
            refusals += 1;
        } else {
            assert_eq!(events_to_xml(&events).unwrap(), texts);
        }
    }
    assert!((100..2900).contains(&refusals));
}

#[test]
fn the_sample() {
    let samples = Path::new(env!("CARGO_MANIFEST_DIR")).join("../samples");
    let document = fs::read(samples.join("settings.abx")).unwrap();
    let events = AbxParser::new(&document).unwrap().collect_events().unwrap();
    let xml = fs::read_to_string(samples.join("settings.xml")).unwrap();
    assert_eq!(events_to_xml(&events).unwrap(), xml);
    let each: abx::Result<String> = events.iter().map(Event::to_xml).collect();
    assert_eq!(each.unwrap(), xml);
}

/// `<` as many times as its text just fits an output, and once more.
#[test]
fn the_longest_text() {
    let most = MAX_OUTPUT / "&lt;".len();
    let text = Event::Text("<".repeat(most)).to_xml().unwrap();
    assert!(text == "&lt;".repeat(most));
    refused(Event::Text("<".repeat(most + 1)).to_xml(), 15);
    let name = "n".repeat(MAX_OUTPUT - "</>".len());
    assert_eq!(end_tag(&name).to_xml().unwrap().len(), MAX_OUTPUT);
    refused(end_tag(&format!("{name}n")).to_xml(), 15);
}

/// A list, and an event, whose texts are longer than an output.
#[test]
fn longer_than_an_output() {
    let text = "é".repeat(30_000);
    let events = vec![Event::Comment(text.clone()); 400];
    let xml = events_to_xml(&events).unwrap();
    assert!(xml.len() > MAX_OUTPUT && xml == format!("<!--{text}-->").repeat(400));

    let name = "long".repeat(16_000);
    let one = Attribute::new(name.as_str(), AttributeValue::Boolean(true));
    let event = tag("p", vec![one; 1000]);
    let attribute = format!(" {name}=\"true\"");
    let xml = format!("<p{}>", attribute.repeat(1000));
    assert!(xml.len() > 3 * MAX_OUTPUT);
    assert!(event.to_xml().unwrap() == xml);
    let around = [end_tag("a"), event.clone(), end_tag("b")];
    assert!(events_to_xml(&around).unwrap() == format!("</a>{xml}</b>"));
    let around = [event, Event::Text("\u{B}".into())];
    refused(events_to_xml(&around), 20);
}

/// The first event that has anything wrong with it is told.
#[test]
fn refusals_in_order() {
    let long = end_tag(&"n".repeat(MAX_OUTPUT));
    let illegal = Event::Comment("\0".into());
    let good = Event::Text("t".into());
    refused(
        events_to_xml(&[good.clone(), long.clone(), illegal.clone()]),
        15,
    );
    refused(events_to_xml(&[good, illegal, long]), 20);
    let both = tag(
        &"n".repeat(MAX_OUTPUT),
        vec![Attribute::new("\u{FFFF}", AttributeValue::Null)],
    );
    refused(both.to_xml(), 20);
    let error = Event::Text("\0".into()).to_xml().unwrap_err();
    assert!(matches!(error, AbxError::IllegalChar));
}
