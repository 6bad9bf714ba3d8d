//! Reads settings, looks up a port, adds a member, and prints all.

use paizkorde::Document;

fn main() -> paizkorde::Result<()> {
    let mut settings = Document::parse(r#"{"name":"kiosk","ports":[80,443]}"#)?;
    let port = settings.pointer("/ports/1").and_then(|port| port.as_u64());
    println!("port {}", port.unwrap_or(80));
    settings.insert("", "debug", true)?;
    println!("{settings}");
    Ok(())
}
