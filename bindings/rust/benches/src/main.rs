//! Reads, prints, looks up, edits and copies beside serde_json, turn by turn in one run: the best of
//! some rounds each, and the ratio. It asserts nothing.

use paizkorde::Document;
use serde_json::{json, Value};
use std::hint::black_box;
use std::time::Instant;

const ROUNDS: usize = 9;
const MILLISECONDS: u128 = 15;

/// Records as an interface of users would send them, as many as come to so many bytes.
fn records(len: usize) -> String {
    let mut out = String::from("[");
    for id in 0.. {
        if out.len() >= len {
            break;
        }
        if id > 0 {
            out.push(',');
        }
        let is_active = id % 2 == 0;
        let (score, town, zip) = (id * 7, id % 97, 10_000 + id);
        out.push_str(&format!(
            r#"{{"id":{id},"name":"user {id}","active":{is_active},"tags":["a","bb","ccc"],"score":-{score},"address":{{"city":"Town {town}","zip":{zip}}}}}"#
        ));
    }
    out.push(']');
    out
}

/// Nanoseconds a call: one round of as many calls as some milliseconds take.
fn round(call: &mut dyn FnMut()) -> f64 {
    let start = Instant::now();
    let mut calls = 0u32;
    while start.elapsed().as_millis() < MILLISECONDS {
        call();
        calls += 1;
    }
    start.elapsed().as_nanos() as f64 / f64::from(calls)
}

/// Measures both in turn, and prints their best.
fn beside(what: &str, mut ours: impl FnMut(), mut theirs: impl FnMut()) {
    let (mut our_best, mut their_best) = (f64::MAX, f64::MAX);
    for _ in 0..ROUNDS {
        our_best = our_best.min(round(&mut ours));
        their_best = their_best.min(round(&mut theirs));
    }
    let ratio = their_best / our_best;
    println!("| {what} | {our_best:.0} | {their_best:.0} | {ratio:.2} |");
}

fn main() {
    println!("| what | paizkorde, ns | serde_json, ns | serde_json's time by ours |");
    println!("|---|---|---|---|");
    for len in [1_000, 100_000, 1_000_000] {
        let text = records(len);
        let document = Document::parse(&text).expect("it is JSON");
        let value: Value = serde_json::from_str(&text).expect("it is JSON");
        let size = text.len();
        beside(
            &format!("read and let go, {size} bytes"),
            || drop(black_box(Document::parse(&text))),
            || drop(black_box(serde_json::from_str::<Value>(&text))),
        );
        beside(
            &format!("print, {size} bytes"),
            || drop(black_box(document.encode())),
            || drop(black_box(serde_json::to_string(&value))),
        );
        beside(
            &format!("copy and let go, {size} bytes"),
            || drop(black_box(document.try_clone())),
            || drop(black_box(value.clone())),
        );
        beside(
            &format!("a city by its pointer, {size} bytes"),
            || {
                black_box(document.pointer("/3/address/city"));
            },
            || {
                black_box(value.pointer("/3/address/city"));
            },
        );
        beside(
            &format!("the sum of all scores, {size} bytes"),
            || {
                let scores = document
                    .root()
                    .items()
                    .filter_map(|user| user.get("score")?.as_i64());
                black_box(scores.sum::<i64>());
            },
            || {
                let users = value.as_array().into_iter().flatten();
                black_box(
                    users
                        .filter_map(|user| user.get("score")?.as_i64())
                        .sum::<i64>(),
                );
            },
        );
    }
    edits();
}

/// Edits of a document of some records.
fn edits() {
    let mut document = Document::parse(records(1_000)).expect("it is JSON");
    let mut value: Value = serde_json::from_str(&records(1_000)).expect("it is JSON");
    beside(
        "put a number at a pointer",
        || drop(black_box(document.put("/3/score", 5))),
        || {
            if let Some(score) = value.pointer_mut("/3/score") {
                drop(black_box(std::mem::replace(score, json!(5))));
            }
        },
    );
    beside(
        "push a text and pop it",
        || {
            let _ = black_box(document.push("/3/tags", "dddd"));
            drop(black_box(document.pop("/3/tags")));
        },
        || {
            if let Some(Value::Array(tags)) = value.pointer_mut("/3/tags") {
                tags.push(json!("dddd"));
                drop(black_box(tags.pop()));
            }
        },
    );
    let patch = r#"[{"op":"replace","path":"/3/score","value":7},{"op":"add","path":"/3/tags/1","value":"x"},{"op":"remove","path":"/3/tags/1"}]"#;
    let patch = Document::parse(patch).expect("it is JSON");
    beside(
        "a patch of three operations, in serde_json by hand",
        || {
            let _ = black_box(document.patch(&patch));
        },
        || {
            if let Some(score) = value.pointer_mut("/3/score") {
                drop(black_box(std::mem::replace(score, json!(7))));
            }
            if let Some(Value::Array(tags)) = value.pointer_mut("/3/tags") {
                tags.insert(1, json!("x"));
            }
            if let Some(Value::Array(tags)) = value.pointer_mut("/3/tags") {
                drop(black_box(tags.remove(1)));
            }
        },
    );
    let merge = Document::parse(r#"{"name":"user","address":{"zip":null,"city":"Town"}}"#);
    let merge = merge.expect("it is JSON");
    let mut user = document
        .pointer("/3")
        .and_then(|user| user.to_document().ok())
        .expect("there are three");
    let mut other = value.pointer("/3").cloned().expect("there are three");
    beside(
        "a merge of three members, in serde_json by hand",
        || {
            let _ = black_box(user.merge(&merge));
        },
        || {
            other["name"] = json!("user");
            if let Some(Value::Object(address)) = other.pointer_mut("/address") {
                drop(black_box(address.remove("zip")));
                address.insert("city".to_owned(), json!("Town"));
            }
        },
    );
}
