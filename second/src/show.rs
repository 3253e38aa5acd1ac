//! Bytes as text, for reports.

/// Longest part that a report shows whole.
const SHOWN: usize = 200;
/// Of a text.
const LINE: usize = 120;

/// Bytes in hexadecimal; of a long part both ends.
pub fn hex(bytes: &[u8]) -> String {
    let text = |bytes: &[u8]| {
        let bytes: Vec<String> = bytes.iter().map(|byte| format!("{byte:02x}")).collect();
        bytes.join(" ")
    };
    let length = bytes.len();
    if length <= SHOWN {
        format!("({length}) {}", text(bytes))
    } else {
        let (front, back) = (&bytes[..SHOWN / 2], &bytes[length - SHOWN / 2..]);
        format!("({length}) {} .. {}", text(front), text(back))
    }
}

/// A text from the line of this place on, or its last line, shortened.
fn from_line(text: &[u8], at: Option<usize>) -> String {
    let before = &text[..at.unwrap_or(text.len().saturating_sub(1))];
    let newline = before.iter().rposition(|byte| *byte == b'\n');
    let line = newline.map_or(0, |at| at + 1);
    let shown = &text[line..text.len().min(line + LINE)];
    let shown = String::from_utf8_lossy(shown);
    format!("{} bytes, from byte {line}: {shown:?}", text.len())
}

/// Two texts, each from the line on in which they first differ.
pub fn from_difference(texts: [&[u8]; 2]) -> [String; 2] {
    let [one, other] = texts;
    let at = one.iter().zip(other).position(|(a, b)| a != b);
    texts.map(|text| from_line(text, at))
}
