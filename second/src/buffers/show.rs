//! States in reports.

use crate::line::places::Place;

/// A state in words: the fields that are not 0, word by word.
pub fn show_state<F: Place>(state: &[u8]) -> String {
    if state.len() != F::LENGTH {
        return format!("{} bytes", state.len());
    }
    let fields = F::all().iter().filter_map(|field| {
        let bytes = &state[field.range()];
        bytes.iter().any(|byte| *byte != 0).then(|| {
            let shown = show_words(field.start(), bytes);
            format!("  {field:?}{shown}")
        })
    });
    fields.collect::<Vec<String>>().join("\n")
}

/// The words that are not 0, with their places; of many the first.
fn show_words(start: usize, bytes: &[u8]) -> String {
    const SHOWN: usize = 16;
    let words = bytes.chunks(8).enumerate();
    let words = words.filter(|(_, word)| word.iter().any(|byte| *byte != 0));
    let mut text = String::new();
    for (count, (i, word)) in words.enumerate() {
        if count == SHOWN {
            return text + " ..";
        }
        let word: String = word.iter().map(|byte| format!("{byte:02x}")).collect();
        text += &format!(" {}:{word}", start + 8 * i);
    }
    text
}
