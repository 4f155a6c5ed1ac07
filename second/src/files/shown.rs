//! A file in a report.

/// All of a short file, otherwise its trailer.
pub fn text_of(file: &[u8]) -> String {
    const SHORT: usize = 600;
    let from = if file.len() > SHORT { file.len() - 12 } else { 0 };
    let mut text =
        format!("file of {} bytes{}", file.len(), if from > 0 { ", the last twelve:" } else { ":" });
    for (k, byte) in file[from..].iter().enumerate() {
        text += match k {
            _ if k % 12 == 0 => "\n  ",
            _ if k % 4 == 0 => "  ",
            _ => " ",
        };
        text += &format!("{byte:02x}");
    }
    text
}
