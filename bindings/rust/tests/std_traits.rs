//! Prints, keys and what is told of them, as std has them.

use paizkorde::{peek, Buffers, Document, Keep, Result};

#[test]
fn prints_and_keys_are_taken_as_std_has_them() -> Result<()> {
    let doc = Document::parse(r#"{"a":1,"b":2}"#)?;
    let found: Vec<_> = ["b", "c", "a"]
        .iter()
        .filter_map(|key| doc.get(key))
        .collect();
    assert_eq!(
        found
            .iter()
            .filter_map(|value| value.as_u64())
            .collect::<Vec<_>>(),
        [2, 1]
    );
    let text = doc.encode()?;
    assert_eq!(text, doc.to_string());
    assert_eq!(Document::parse(text)?, doc);
    assert!(format!(
        "{:?}",
        peek(&mut br#"["x"]"#.to_owned(), "/0", Keep::First)?
    )
    .contains("\"x\""));
    assert!(format!("{:?}", Buffers::default()).starts_with("Buffers"));
    Ok(())
}

#[test]
fn a_pointer_may_lie_in_its_document() -> Result<()> {
    let doc = Document::parse(r#"{"at":"/n","n":7}"#)?;
    let at = doc.get("at").and_then(|at| at.as_str()).expect("a text");
    assert_eq!(doc.pointer(at).and_then(|found| found.as_u64()), Some(7));
    Ok(())
}
