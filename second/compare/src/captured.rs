//! The messages of a folder, as the depot bench reads them.

use std::path::Path;

use depot::folder::{Content, Folder};

/// A message, and where it stands: its file, and its line in a file of header lines.
#[derive(Clone, Debug, PartialEq, Eq)]
pub struct Captured {
    pub origin: String,
    pub message: Vec<u8>,
}

/// Each message of a folder. A header line that carries no message is left out.
pub fn messages(folder: &Path) -> Result<Vec<Captured>, String> {
    let folder = Folder::list(folder).map_err(|error| error.to_string())?;
    let mut messages = Vec::new();
    for file in &folder.messages {
        let name = &file.name;
        match file.read_all() {
            Ok(Content::Message(_, message)) => messages.push(Captured {
                origin: name.clone(),
                message,
            }),
            Ok(Content::HeaderTexts(texts, _)) => {
                messages.extend(texts.iter().filter_map(|(line, text)| {
                    Some(Captured {
                        origin: format!("{name} line {line}"),
                        message: carried(text)?,
                    })
                }));
            }
            Err(error) => return Err(format!("{name}: {error}")),
        }
    }
    Ok(messages)
}

/// The message of a header line's text.
fn carried(text: &[u8]) -> Option<Vec<u8>> {
    let mut message = vec![0; text.len()];
    let len = reader::import_header(text, &mut message).ok()?;
    message.truncate(len);
    Some(message)
}

#[cfg(test)]
mod tests {
    use super::messages;
    use std::path::Path;

    #[test]
    fn a_folders_messages_have_their_place() {
        let folder = concat!(env!("CARGO_MANIFEST_DIR"), "/../../messages");
        let found = messages(Path::new(folder)).expect("messages");
        let at = |origin: &str| found.iter().find(|each| each.origin == origin);
        let raw = at("negotiate-impacket.bin").expect("a raw message");
        assert_eq!(raw.message.len(), 32);
        // The second line is the server's offer, which carries none.
        assert!(
            at("http-curl.txt line 1").is_some_and(|each| each.message.starts_with(b"NTLMSSP\0"))
        );
        assert!(messages(Path::new("no such folder")).is_err());
    }
}
