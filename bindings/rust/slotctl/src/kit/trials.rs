//! Pages of this kit against the originals, and against values from outside.

use super::alloc::Global;
use super::base64::STANDARD;
use super::json::{to_vec, Scratch, Value};
use super::serde_json;
use ::serde_json as original;

/// Numbers that are drawn (xorshift64*).
struct Drawn(u64);

impl Drawn {
    fn below(&mut self, bound: usize) -> usize {
        self.0 ^= self.0 >> 12;
        self.0 ^= self.0 << 25;
        self.0 ^= self.0 >> 27;
        (self.0.wrapping_mul(0x2545_f491_4f6c_dd1d) >> 33) as usize % bound
    }

    fn of<'t, T: ?Sized>(&mut self, items: &[&'t T]) -> &'t T {
        items[self.below(items.len())]
    }
}

const NUMBERS: &[&str] = &[
    "0",
    "-0",
    "00",
    "01",
    "1",
    "-1",
    "18446744073709551615",
    "18446744073709551616",
    "1.0",
    "1.",
    ".5",
    "-",
    "+1",
    "1e5",
    "1E+5",
    "1e-5",
    "1e",
    "1e999",
    "-1e999",
    "1e-999",
    "0.1e1",
    "9223372036854775808",
    "123456789012345678901234567890",
    "0x1",
    "NaN",
];
const STRINGS: &[&str] = &[
    r#""""#,
    r#""a""#,
    r#""\n\t\"\\\/\b\f\r""#,
    r#""\u0041""#,
    r#""\ud83d\ude00""#,
    r#""\ud83d""#,
    r#""\ude00""#,
    r#""\ud83d\u0041""#,
    r#""\u00""#,
    r#""\x""#,
    "\"\n\"",
    "\"\u{e9}\"",
    r#""a"#,
    r#""command""#,
    r#""reply""#,
    r#""\u0000""#,
    r#""\U0041""#,
    "\"\u{7f}\"",
];

fn drawn_text(drawn: &mut Drawn, depth: usize, text: &mut String) {
    let gap = *["", "", "", " ", "\n\t\r "]
        .get(drawn.below(5))
        .unwrap_or(&"");
    text.push_str(gap);
    match drawn.below(if depth == 0 { 6 } else { 9 }) {
        0 | 1 => text.push_str(drawn.of(NUMBERS)),
        2 | 3 => text.push_str(drawn.of(STRINGS)),
        4 => text.push_str(drawn.of(&["true", "false", "null", "True", "nul", "truefalse"])),
        5 => text.push_str(drawn.of(&[
            "{}",
            "[]",
            "{ }",
            "[ ]",
            "[1,]",
            "{,}",
            "[1 2]",
            "{\"a\":1,}",
            "{\"a\"}",
        ])),
        6 => drawn_items(drawn, depth, text),
        _ => drawn_members(drawn, depth, text),
    }
    text.push_str(gap);
}

fn drawn_items(drawn: &mut Drawn, depth: usize, text: &mut String) {
    text.push('[');
    for place in 0..drawn.below(4) {
        text.push_str(if place == 0 { "" } else { "," });
        drawn_text(drawn, depth - 1, text);
    }
    text.push(']');
}

fn drawn_members(drawn: &mut Drawn, depth: usize, text: &mut String) {
    text.push('{');
    for place in 0..drawn.below(4) {
        text.push_str(if place == 0 { "" } else { "," });
        text.push_str(drawn.of(STRINGS));
        text.push(':');
        drawn_text(drawn, depth - 1, text);
    }
    text.push('}');
}

/// Whether a value of this kit is one of the original, as far as it is kept.
fn is_same(own: &serde_json::Value, other: &original::Value) -> bool {
    if own.as_str() != other.as_str() || own.as_u64() != other.as_u64() {
        return false;
    }
    match (own.as_object(), other.as_object()) {
        (Some(members), Some(others)) => {
            members.len() == others.len()
                && others
                    .iter()
                    .all(|(name, other)| own.get(name).is_some_and(|value| is_same(value, other)))
        }
        (None, None) => true,
        _ => false,
    }
}

#[test]
fn json_as_the_original() {
    let drawn = &mut Drawn(7);
    let mut accepted = 0;
    for _ in 0..200_000 {
        let mut text = String::new();
        drawn_text(drawn, 3, &mut text);
        let own = serde_json::Value::from_slice(Global, text.as_bytes());
        match (own, original::from_str::<original::Value>(&text)) {
            (Ok(own), Ok(other)) => {
                assert!(is_same(&own, &other), "{text}");
                accepted += 1;
            }
            (Err(_), Err(_)) => {}
            (own, other) => panic!("{text}: {} here, and {other:?}", own.is_ok()),
        }
    }
    assert!(50_000 < accepted);
}

#[test]
fn json_that_is_written_is_read_back() {
    let mut scratch = Scratch::new(Global);
    let text = br#"{"a":[1,-2.5e3,"\u0001\"\\",null,true,false,{}],"b":"\n"}"#;
    let value = Value::from_slice(Global, text, &mut scratch).expect("it is JSON");
    let written = to_vec(Global, &value).expect("there is memory");
    let wanted = br#"{"a":[1,-2.5e3,"\u0001\"\\",null,true,false,{}],"b":"\u000a"}"#;
    assert_eq!(&*written, wanted);
    let same: original::Value = original::from_slice(&written).expect("it is JSON");
    assert_eq!(
        same,
        original::from_slice::<original::Value>(text).expect("it is JSON")
    );
}

#[test]
fn base64_by_rfc_4648() {
    let rows = [
        ("", ""),
        ("f", "Zg=="),
        ("fo", "Zm8="),
        ("foo", "Zm9v"),
        ("foob", "Zm9vYg=="),
        ("fooba", "Zm9vYmE="),
        ("foobar", "Zm9vYmFy"),
    ];
    for (bytes, letters) in rows {
        let text = STANDARD
            .encode(Global, bytes.as_bytes())
            .expect("there is memory");
        assert_eq!(text.as_str(), letters);
        assert_eq!(
            &*STANDARD
                .decode(Global, letters.as_bytes())
                .expect("letters"),
            bytes.as_bytes()
        );
    }
    for letters in [
        "Z", "Zg", "Zg=", "Zh==", "Zm9=", "Z===", "====", "Zg==Zg==", "Zm9v\n", "Zm-v", "=Zg=",
    ] {
        assert!(
            STANDARD.decode(Global, letters.as_bytes()).is_err(),
            "{letters}"
        );
    }
}
