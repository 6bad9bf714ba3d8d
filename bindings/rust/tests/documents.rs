//! Documents from outside: what RFC 8259 and 6901 say of these texts.

use paizkorde::{peek, session, Buffers, Document, Error, Form, Keep, Kind, PatchFault};

fn document(text: &str) -> Document {
    Document::parse(text).unwrap()
}

#[test]
fn reads_and_prints() {
    let doc =
        document(r#" {"a" : [1, -2, 18446744073709551615, true, null, "x\u00e9\n"], "b":{}} "#);
    assert_eq!(
        doc.to_string(),
        "{\"a\":[1,-2,18446744073709551615,true,null,\"xé\\n\"],\"b\":{}}"
    );
    assert_eq!(
        format!("{:#}", document(r#"{"a":[1],"b":{}}"#)),
        "{\n  \"a\": [\n    1\n  ],\n  \"b\": {}\n}"
    );
    assert_eq!(doc.encode().unwrap(), *doc.to_string());
}

#[test]
fn finds() {
    let doc = document(r#"{"a":[1,-2,18446744073709551615,true,null,"x"],"~/":{}}"#);
    let at = |place: &str| doc.pointer(place).unwrap();
    assert_eq!(
        (at("/a/0").as_u64(), at("/a/0").as_i64()),
        (Some(1), Some(1))
    );
    assert_eq!((at("/a/1").as_i64(), at("/a/1").as_u64()), (Some(-2), None));
    assert_eq!(
        (at("/a/2").as_u64(), at("/a/2").as_i64()),
        (Some(u64::MAX), None)
    );
    assert_eq!(at("/a/3").as_bool(), Some(true));
    assert!(at("/a/4").is_null());
    assert_eq!(at("/a/5").as_str(), Some("x"));
    assert!(at("/a/0") == 1 && at("/a/1") == -2i64 && at("/a/3") == true && at("/a/5") == "x");
    assert!(at("/a/0") != "1" && at("/a/5") != 0);
    assert_eq!(at("/~0~1").kind(), Kind::Object);
    assert_eq!(
        doc.get("~/")
            .map(|value| value.path().to_owned())
            .as_deref(),
        Some("/~0~1")
    );
    assert_eq!(
        doc.get("a")
            .and_then(|items| items.get(5))
            .and_then(|item| item.as_str()),
        Some("x")
    );
    assert!(doc.get(0).is_none() && doc.get("a").unwrap().get("0").is_none());
    assert!(
        doc.pointer("/a/6").is_none()
            && doc.pointer("/a/01").is_none()
            && doc.pointer("a").is_none()
    );
    assert!(matches!(doc.try_pointer("a"), Err(Error::BadPointer)));
    assert!(matches!(doc.try_pointer("/b"), Ok(None)));
}

#[test]
fn iterates() {
    let doc = document(r#"{"a":[1,"x"],"b":{"c":null},"d":0}"#);
    let keys: Vec<&str> = doc.root().members().map(|(key, _)| key).collect();
    assert_eq!(keys, ["a", "b", "d"]);
    let items: Vec<String> = doc
        .get("a")
        .unwrap()
        .items()
        .map(|item| item.to_string())
        .collect();
    assert_eq!(items, ["1", "\"x\""]);
    let (_, b) = doc.root().members().nth(1).unwrap();
    assert!(b.get("c").unwrap().is_null());
    assert_eq!(
        doc.root().items().count() + doc.get("d").unwrap().members().count(),
        0
    );
    assert_eq!(
        (
            doc.root().len(),
            doc.get("a").unwrap().len(),
            doc.get("d").unwrap().len()
        ),
        (3, 2, 0)
    );
}

#[test]
fn texts_outlive_their_values() {
    let doc = document(r#"{"a":"text"}"#);
    let text = {
        let value = doc.get("a").unwrap();
        value.as_str().unwrap()
    };
    assert_eq!(text, "text");
}

#[test]
fn wide_numbers() {
    let doc = document("[-170141183460469231731687303715884105728,340282366920938463463374607431768211455,18446744073709551616,-1]");
    let at = |place: usize| doc.get(place).unwrap();
    assert_eq!((at(0).as_i128(), at(0).as_u128()), (Some(i128::MIN), None));
    assert_eq!((at(1).as_i128(), at(1).as_u128()), (None, Some(u128::MAX)));
    assert_eq!((at(2).as_i128(), at(2).as_u64()), (Some(1 << 64), None));
    assert_eq!((at(3).as_i128(), at(3).as_i64()), (Some(-1), Some(-1)));
    let mut made = Document::array().unwrap();
    made.push("", i128::MIN).unwrap();
    made.push("", u128::MAX).unwrap();
    made.push("", 1i128 << 64).unwrap();
    made.push("", -1i128).unwrap();
    assert_eq!(made, doc);
    assert_eq!(made.to_string(), doc.to_string());
}

#[test]
fn keeps_first_or_last() {
    let text = r#"{"k":1,"j":2,"k":3}"#;
    assert_eq!(document(text).to_string(), r#"{"k":1,"j":2}"#);
    let last = Document::parse_in_place(&mut text.as_bytes().to_vec(), Keep::Last).unwrap();
    assert_eq!(last.to_string(), r#"{"k":3,"j":2}"#);
}

#[test]
fn reads_one_after_another() {
    let mut buffers = Buffers::default();
    for (text, wanted) in [
        (r#"[1,[2,3],{"k":4,"k":5}]"#, Ok(r#"[1,[2,3],{"k":4}]"#)),
        ("[1,", Err(Error::Syntax)),
        ("[6]", Ok("[6]")),
    ] {
        let mut bytes = text.as_bytes().to_vec();
        let document = Document::parse_with_buffers(&mut bytes, &mut buffers);
        assert_eq!(
            document.map(|document| document.to_string()),
            wanted.map(str::to_owned)
        );
    }
}

#[test]
fn refuses_texts() {
    for (text, why) in [
        (&b"1.5"[..], Error::Float),
        (b"{", Error::Syntax),
        (b"", Error::Syntax),
        (b"\"\\ud800\"", Error::LoneSurrogate),
        (b"\"\xff\"", Error::InvalidUtf8),
        (
            b"340282366920938463463374607431768211456",
            Error::NumberTooLarge,
        ),
        (&[b'['; 1025], Error::TooDeep),
    ] {
        assert_eq!(Document::parse(text).err(), Some(why));
    }
}

#[test]
fn edits() {
    let mut doc = document(r#"{"a":{"l":[1]},"~/":0}"#);
    assert!(doc.insert("/a", "k", "v").unwrap().is_none());
    assert_eq!(
        doc.insert("/a", "k", 7u8).unwrap().unwrap().to_string(),
        "\"v\""
    );
    doc.push("/a/l", -5i64).unwrap();
    doc.push("/a/l", document(r#"{"deep":[[]]}"#)).unwrap();
    doc.push("/a/l", vec![Some("x"), None]).unwrap();
    assert_eq!(
        doc.to_string(),
        r#"{"a":{"l":[1,-5,{"deep":[[]]},["x",null]],"k":7},"~/":0}"#
    );
    assert_eq!(
        doc.pop("/a/l").unwrap().unwrap().to_string(),
        r#"["x",null]"#
    );
    assert_eq!(doc.put("/~0~1", ()).unwrap().unwrap().to_string(), "0");
    assert_eq!(
        doc.remove("/a", "l").unwrap().unwrap().to_string(),
        r#"[1,-5,{"deep":[[]]}]"#
    );
    assert!(doc.remove("/a", "l").unwrap().is_none());
    assert_eq!(doc.push("", 1u8), Err(Error::NotAnArray));
    assert_eq!(doc.insert("/a/k", "x", 1u8).err(), Some(Error::NotAnObject));
    assert_eq!(doc.insert("/q", "x", 1u8).err(), Some(Error::NotAnObject));
    assert_eq!(doc.put("/q", 1u8).err(), Some(Error::Missing));
    assert_eq!(doc.insert("q", "x", 1u8).err(), Some(Error::BadPointer));
    assert_eq!(doc.to_string(), r#"{"a":{"k":7},"~/":null}"#);
    assert!(doc.set("/b/c/d", 1u8).unwrap().is_none());
    assert_eq!(
        doc.set("/b/c", 2u8).unwrap().unwrap().to_string(),
        r#"{"d":1}"#
    );
    assert_eq!(doc.set("/a/k/x", 3u8).err(), Some(Error::NotAnObject));
    assert_eq!(doc.to_string(), r#"{"a":{"k":7},"~/":null,"b":{"c":2}}"#);
}

/// The examples of RFC 6902, appendix A: a document, a patch, and what it makes or its fault.
#[test]
fn patches() {
    for (text, patch, want) in [
        (
            r#"{"foo":["bar","baz"]}"#,
            r#"[{"op":"add","path":"/foo/1","value":"qux"}]"#,
            Ok(r#"{"foo":["bar","qux","baz"]}"#),
        ),
        (
            r#"{"baz":"qux","foo":"bar"}"#,
            r#"[{"op":"remove","path":"/baz"}]"#,
            Ok(r#"{"foo":"bar"}"#),
        ),
        (
            r#"{"foo":["all","grass","cows","eat"]}"#,
            r#"[{"op":"move","from":"/foo/1","path":"/foo/3"}]"#,
            Ok(r#"{"foo":["all","cows","eat","grass"]}"#),
        ),
        (
            r#"{"baz":"qux"}"#,
            r#"[{"op":"test","path":"/baz","value":"bar"}]"#,
            Err((0, PatchFault::Differs)),
        ),
        (
            r#"{"foo":"bar"}"#,
            r#"[{"op":"test","path":"","value":{"foo":"bar"}},{"op":"add","path":"/baz/bat","value":"qux"}]"#,
            Err((1, PatchFault::Missing)),
        ),
        (r#"[]"#, r#"[{"op":"add"}]"#, Err((0, PatchFault::Path))),
    ] {
        let mut doc = document(text);
        let done = doc.patch(&document(patch));
        let wanted = want
            .map(|_| ())
            .map_err(|(operation, fault)| Error::Patch { operation, fault });
        assert_eq!(done, wanted, "{patch}");
        assert_eq!(doc.to_string(), want.unwrap_or(text));
    }
    let mut doc = document("[]");
    assert_eq!(doc.patch(&document("{}")), Err(Error::PatchNotAnArray));
    let error = doc
        .patch(&document(r#"[{"op":"remove","path":""}]"#))
        .unwrap_err();
    assert_eq!(
        error.to_string(),
        "operation 0: the whole document cannot be removed"
    );
}

#[test]
fn differences_and_merges() {
    let from = document(r#"{"a":[1,2,3],"b":{"c":"d"},"e":null}"#);
    let to = document(r#"{"e":null,"b":{"c":"f","g":1},"a":[1,3]}"#);
    let patch = from.diff(&to).unwrap();
    let mut patched = from.clone();
    patched.patch(&patch).unwrap();
    assert_eq!(patched, to);
    assert_eq!(from.diff(&from).unwrap().to_string(), "[]");
    assert_eq!(
        patched.encode_canonical().unwrap(),
        *to.encode_canonical().unwrap()
    );
    assert_eq!(
        to.encode_canonical().unwrap(),
        r#"{"a":[1,3],"b":{"c":"f","g":1},"e":null}"#
    );

    let patch = from.merge_diff(&to).unwrap().unwrap();
    assert_eq!(patch.to_string(), r#"{"b":{"c":"f","g":1},"a":[1,3]}"#);
    let mut merged = from.clone();
    merged.merge(&patch).unwrap();
    assert_eq!(merged, to);
    assert_eq!(from.merge_diff(&from).unwrap().unwrap().to_string(), "{}");
    assert!(to.merge_diff(&document(r#"{"n":null}"#)).unwrap().is_none());
}

/// What edits make deeper than what can be read is printed, copied, compared by `==`, and let go.
#[test]
fn deep_documents() {
    let mut doc = document(&format!("{}{}", "[".repeat(1024), "]".repeat(1024)));
    for _ in 0..100 {
        let mut around = Document::array().unwrap();
        around.push("", doc).unwrap();
        doc = around;
    }
    let copy = doc.clone();
    assert_eq!(doc.same(&copy), Err(Error::TooDeep));
    assert!(doc == copy && doc != document("[]"));
    assert_eq!(doc.to_string().len(), 2 * 1124);
}

#[test]
fn refused_values_come_back() {
    let mut doc = document("{}");
    let refused = doc.try_push("", document("[7]")).unwrap_err();
    assert_eq!(
        (refused.error, refused.value.to_string()),
        (Error::NotAnArray, "[7]".to_owned())
    );
    let refused = doc.try_insert("/x", "k", document("8")).unwrap_err();
    assert_eq!(
        (refused.error, refused.value.to_string()),
        (Error::NotAnObject, "8".to_owned())
    );
    let refused = doc.try_put("x", document("9")).unwrap_err();
    assert_eq!(
        (refused.error, refused.value.to_string()),
        (Error::BadPointer, "9".to_owned())
    );
    assert_eq!(doc.to_string(), "{}");
}

#[test]
fn copies_and_compares() {
    let one = document(r#"{"a":1,"b":[2]}"#);
    assert_eq!(one, document(r#"{"b":[2],"a":1}"#));
    assert!(one.same(&one).unwrap());
    let mut copy = one.clone();
    copy.insert("", "a", 2u8).unwrap();
    assert_ne!(one, copy);
    assert_eq!(one.to_string(), r#"{"a":1,"b":[2]}"#);
    assert_eq!(
        one.get("b").unwrap().to_document().unwrap().to_string(),
        "[2]"
    );
}

#[test]
fn peeks() {
    let text = br#"{"k":[{"t":"\u0041b"}],"n":18446744073709551615}"#;
    let mut bytes = text.to_vec();
    assert_eq!(
        peek(&mut bytes, "/k/0/t", Keep::First)
            .unwrap()
            .and_then(|found| found.as_str()),
        Some("Ab")
    );
    assert_eq!(
        peek(&mut text.to_vec(), "/n", Keep::First)
            .unwrap()
            .and_then(|found| found.as_u64()),
        Some(u64::MAX)
    );
    assert_eq!(
        peek(&mut text.to_vec(), "/k", Keep::First)
            .unwrap()
            .map(|found| found.kind()),
        Some(Kind::Array)
    );
    assert!(peek(&mut text.to_vec(), "/x", Keep::First)
        .unwrap()
        .is_none());
    assert_eq!(
        peek(&mut b"[".to_vec(), "", Keep::First).err(),
        Some(Error::Syntax)
    );
}

#[test]
fn sessions() {
    let input = b"{\"a\":1}\n---\n[\"insert\",[],\"b\",[true]]\n[\"encode\",[]]\n";
    for form in [Form::Owned, Form::Borrowed, Form::Lazy] {
        let replies = session(&mut input.to_vec(), form, Keep::First).unwrap();
        assert_eq!(replies, "none\n{\"a\":1,\"b\":[true]}\n");
    }
    let mut doc = document("{}");
    let replies = doc
        .session("[\"insert\",\"\",\"k\",[1]]\n[\"push\",\"/k\",2]\n[\"kind\",\"/k/1\"]")
        .unwrap();
    assert_eq!(replies, "none\nok\nU64\n");
    assert_eq!(doc.to_string(), r#"{"k":[1,2]}"#);
    assert_eq!(
        session(&mut b"{".to_vec(), Form::Owned, Keep::First).err(),
        Some(Error::Syntax)
    );
}

#[test]
fn crosses_threads() {
    let mut doc = document("[]");
    for item in 0..4u8 {
        doc = std::thread::spawn(move || {
            doc.push("", item).unwrap();
            doc
        })
        .join()
        .unwrap();
    }
    assert_eq!(doc.to_string(), "[0,1,2,3]");
    let print = doc.encode().unwrap();
    assert_eq!(std::thread::spawn(move || print.len()).join().unwrap(), 9);
}
