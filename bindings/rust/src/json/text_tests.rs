//! Texts that are JSON, that are nearly JSON, and that are cut off, long or deep.
use super::*;

fn read(text: &str) -> Result<Value<'_>, String> {
    Value::read(text.as_bytes()).map_err(|why| why.to_string())
}

fn complaint(text: &str) -> String {
    read(text).expect_err("a complaint")
}

#[test]
fn values() {
    for good in
        ["null", " true ", "[]", "{}", "[1, -0.5e+3, 0]", r#"{"a": [{"b": "c"}], "d": null}"#, "\t\r\n\"\"", r#""\"\\\/\b\f\n\r\t\u00e9""#]
    {
        assert_eq!(read(good).unwrap().raw(), good.trim(), "{good}");
    }
    let text = |s: &'static str| read(s).unwrap().text().unwrap();
    assert_eq!(text(r#""a\u00e9\ud83d\ude00""#), ("a\u{e9}\u{1f600}".into(), false));
    assert_eq!(text(r#""\"\\\/\b\f\n\r\t""#), ("\"\\/\u{8}\u{c}\n\r\t".into(), false));
    assert_eq!(text("\"\u{e9}\""), ("\u{e9}".into(), true));
    assert_eq!(read("1").unwrap().text(), None);
}

/// Brackets, quotes and commas inside of strings end nothing.
#[test]
fn parts() {
    let text = r#" [ {"a]\"}" : [1,[2 ,{}]] , "b":"x\\"} ,"]", -1.5e3,null ] "#;
    let items: Vec<_> = read(text).unwrap().items().unwrap().collect();
    let raw: Vec<&str> = items.iter().map(Value::raw).collect();
    assert_eq!(raw, [r#"{"a]\"}" : [1,[2 ,{}]] , "b":"x\\"}"#, "\"]\"", "-1.5e3", "null"]);
    let fields: Vec<_> = items[0].fields().map(|(at, name, value)| (at, name.into_owned(), value.raw())).collect();
    assert_eq!(fields, [(4, "a]\"}".to_string(), "[1,[2 ,{}]]"), (28, "b".to_string(), "\"x\\\\\"")]);
    assert_eq!(items[0].field("b").unwrap().text().unwrap().0, "x\\");
    assert!(items[0].field("c").is_none() && items[1].field("b").is_none());
    assert!(items[0].items().is_err());
    assert_eq!(read("[]").unwrap().items().unwrap().count(), 0);
    assert_eq!(read("{ }").unwrap().fields().count(), 0);
    // by the name that an escape stands for
    assert_eq!(read(r#"{"\u0061": 1}"#).unwrap().field("a").unwrap().raw(), "1");
}

#[test]
fn complaints_name_the_place() {
    for (text, why) in [
        ("", "line 1, column 1: a value is expected, and the text ends"),
        ("  \n ?", "line 2, column 2: a value is expected, not '?'"),
        ("[1, 2", "line 1, column 6: a comma or ] is expected, and the text ends"),
        ("[1 2]", "line 1, column 4: a comma or ] is expected, not '2'"),
        ("[1,]", "line 1, column 4: a value is expected, not ']'"),
        ("{\"a\": 1,}", "line 1, column 9: the name of a field, in quotes, is expected, not '}'"),
        ("{\"a\" 1}", "line 1, column 6: a colon is expected, not '1'"),
        ("{\"a\": 1 \"b\": 2}", "line 1, column 9: a comma or } is expected, not '\"'"),
        ("{\"a\": 1,\n \"a\": 2}", "line 2, column 2: the field \"a\" stands here a second time"),
        ("{\"a\": 1, \"\\u0061\": 2}", "line 1, column 10: the field \"a\" stands here a second time"),
        ("{a: 1}", "line 1, column 2: the name of a field, in quotes, is expected, not 'a'"),
        ("\n\n \"abc", "line 3, column 2: the string that begins here has no end"),
        ("\"a\nb\"", "line 1, column 3: a string has no control characters or line ends"),
        ("\"\\x\"", "line 1, column 2: no escape of JSON"),
        ("\"\\u12g4\"", "line 1, column 2: \\u has four hex digits"),
        ("\"\\ud83d\"", "line 1, column 2: half of a pair of \\u escapes"),
        ("\"\\ud83d\\u0041\"", "line 1, column 2: half of a pair of \\u escapes"),
        ("\"\\ude00\"", "line 1, column 2: half of a pair of \\u escapes"),
        ("01", "line 1, column 2: the end of the text is expected after the value, not '1'"),
        ("1.", "line 1, column 3: a digit is expected, and the text ends"),
        ("-x", "line 1, column 2: a digit is expected, not 'x'"),
        ("nulls", "line 1, column 1: a value is expected, not 'n'"),
        ("null null", "line 1, column 6: the end of the text is expected after the value, not 'n'"),
        ("[\"\u{e9}\u{e9}\", ?]", "line 1, column 8: a value is expected, not '?'"),
    ] {
        assert_eq!(complaint(text), why, "{text:?}");
    }
    let why = Value::read(b"[\n\"\xc3\xa9\xff\"]").expect_err("a complaint").to_string();
    assert_eq!(why, "line 2, column 3: the text is not UTF-8 from here on");
}

#[test]
fn texts_of_another_kind() {
    let why = |text: &[u8]| Value::read(text).expect_err("a complaint").to_string();
    let mark = "line 1, column 1: the text begins with a byte order mark, which JSON has not; save it as UTF-8 without one";
    assert_eq!(why(b"\xef\xbb\xbf{}"), mark);
    let utf_16 = "line 1, column 1: the text is UTF-16, by its byte order mark; JSON is UTF-8";
    assert_eq!((why(b"\xff\xfe{\0}\0").as_str(), why(b"\xfe\xff\0{\0}").as_str()), (utf_16, utf_16));
    let yaml = "line 1, column 1: the text looks like YAML, not JSON; ckb-cli prints JSON with --output-format json";
    for text in
        ["---\n", "version: 0x0\ninputs: []", "\n# a note\ncell_deps:\n  - out_point:", "- output:\n    capacity: 1", "transaction:\r\n"]
    {
        assert_eq!(why(text.as_bytes()), yaml, "{text}");
    }
    // JSON, and what is nothing
    for text in ["-", "-1x", "{\"version\": 1", "\"a: b", "http //a:b"] {
        assert_ne!(why(text.as_bytes()), yaml, "{text}");
    }
}

#[test]
fn bounds() {
    assert!(read(&("[".repeat(64) + &"]".repeat(64))).is_ok());
    assert_eq!(complaint(&"[".repeat(100_000)), "line 1, column 65: nested over 64 levels");
    assert!(read(&"{\"a\":".repeat(100_000)).is_err());
    let object = |n: usize| format!("{{{}}}", (0..n).map(|i| format!("\"{i:04}\":0")).collect::<Vec<_>>().join(","));
    assert!(read(&object(MAX_FIELDS)).is_ok());
    assert_eq!(complaint(&object(MAX_FIELDS + 1)), "line 1, column 9002: an object has over 1000 fields");
    // a complaint repeats little of the text
    let name = "a".repeat(100_000);
    assert_eq!(
        complaint(&format!("{{\"{name}\": 1, \"{name}\": 2}}")),
        format!("line 1, column 100009: the field {:?}.. stands here a second time", "a".repeat(60))
    );
}

#[test]
fn cut_anywhere() {
    let text = "{\"a\": [\"0x\\u00e9\u{e9}\", {\"b\": null}, -1.5e3, true], \"c\": \"\"}";
    for end in 0..text.len() {
        if let Some(cut) = text.get(..end) {
            assert!(read(cut).is_err(), "{cut:?}");
        }
    }
    assert!(read(text).is_ok());
}
