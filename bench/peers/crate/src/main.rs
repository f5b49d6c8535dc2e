//! The Rust crate: `pump` writes each message again, `serve` answers `demo/echo` with its params, as `lsp_demo`. `drops COUNT` drops them,
//! and answers with a list of COUNT places. `texts` keeps a document as its client edits it, and marks lines longer than 80.
use lsp_server::{Connection, ErrorCode, IoThreads, Message, Notification, Response};
use serde_json::{Value, json};
use std::error::Error;
use std::io::{self, BufReader};

type Outcome<T> = Result<T, Box<dyn Error + Send + Sync>>;

const LONGEST: usize = 80;

fn main() -> Outcome<()> {
    let words: Vec<String> = std::env::args().skip(1).collect();
    let words: Vec<&str> = words.iter().map(String::as_str).collect();
    if words[..] == ["pump"] {
        return pump();
    }
    let fixed = match words[..] {
        ["serve"] | ["texts"] => None,
        ["drops", count] => Some(places(count.parse()?)),
        _ => return Err("usage: crate_peer pump | serve | drops COUNT | texts".into()),
    };
    let (connection, threads) = Connection::stdio();
    serve(connection, threads, fixed)
}

fn pump() -> Outcome<()> {
    let mut reader = BufReader::with_capacity(65536, io::stdin().lock());
    let mut writer = io::stdout().lock();
    while let Some(message) = Message::read(&mut reader)? {
        message.write(&mut writer)?;
        if matches!(&message, Message::Notification(note) if note.method == "exit") {
            break;
        }
    }
    Ok(())
}

fn places(count: u64) -> Value {
    (0..count).map(|line| json!({"character": 7, "line": line})).collect()
}

/// Answers with the value, or where there is none as `lsp_demo`.
fn serve(connection: Connection, threads: IoThreads, fixed: Option<Value>) -> Outcome<()> {
    connection.initialize(json!({}))?;
    let mut text = String::new();
    for message in &connection.receiver {
        let reply = match message {
            Message::Request(request) if connection.handle_shutdown(&request)? => break,
            Message::Request(request) if request.method != "demo/echo" => {
                Response::new_err(request.id, ErrorCode::MethodNotFound as i32, "method not found".to_owned()).into()
            }
            Message::Request(request) => {
                let result = fixed.clone().unwrap_or(request.params);
                Response { id: request.id, response_result: Ok(result) }.into()
            }
            Message::Notification(note) if note.method.starts_with("textDocument/did") => marked(&mut text, note.params)?.into(),
            _ => continue,
        };
        connection.sender.send(reply)?;
    }
    drop(connection);
    Ok(threads.join()?)
}

/// Takes what the client did with the document, and gives the marks of its lines.
fn marked(text: &mut String, mut params: Value) -> Outcome<Notification> {
    if let Some(opened) = params["textDocument"]["text"].as_str() {
        *text = opened.to_owned();
    }
    for change in params["contentChanges"].as_array().into_iter().flatten() {
        let place = |side: &str| offset(text, &change["range"][side]).ok_or("no such place");
        let range = place("start")?..place("end")?;
        text.replace_range(range, change["text"].as_str().ok_or("no text")?);
    }
    let marks: Vec<Value> = text.lines().enumerate().filter(|(_, line)| line.len() > LONGEST).map(mark).collect();
    let params = json!({"uri": params["textDocument"]["uri"].take(), "diagnostics": marks});
    Ok(Notification::new("textDocument/publishDiagnostics".to_owned(), params))
}

fn mark((number, line): (usize, &str)) -> Value {
    let (start, end) = (json!({"line": number, "character": LONGEST}), json!({"line": number, "character": line.len()}));
    json!({"range": {"start": start, "end": end}, "message": "too long"})
}

/// Where a place is in the text, if all of its characters are ASCII.
fn offset(text: &str, place: &Value) -> Option<usize> {
    let (line, character) = (place["line"].as_u64()? as usize, place["character"].as_u64()? as usize);
    let start = text.split_inclusive('\n').take(line).map(str::len).sum::<usize>();
    Some(start + character)
}
