//! How wide a text is. The widths are those of a wide face, so that narrower ones fit as well.

/// Characters 32 to 126 in thousandths of the size, in a plain and a bold face.
const PLAIN: [u16; 95] = [
    318, 401, 460, 838, 636, 950, 780, 275, 390, 390, 500, 838, 318, 361, 318, 337, 636, 636, 636,
    636, 636, 636, 636, 636, 636, 636, 337, 337, 838, 838, 838, 531, 1000, 684, 686, 698, 770, 632,
    575, 775, 752, 295, 295, 656, 557, 863, 748, 787, 603, 787, 695, 635, 611, 732, 684, 989, 685,
    611, 685, 390, 337, 390, 838, 500, 500, 613, 635, 550, 635, 615, 352, 635, 634, 278, 278, 579,
    278, 974, 634, 612, 635, 635, 411, 521, 392, 634, 592, 818, 592, 592, 525, 636, 337, 636, 838,
];
const BOLD: [u16; 95] = [
    348, 456, 521, 838, 696, 1002, 872, 306, 457, 457, 523, 838, 380, 415, 380, 365, 696, 696, 696,
    696, 696, 696, 696, 696, 696, 696, 400, 400, 838, 838, 838, 580, 1000, 774, 762, 734, 830, 683,
    683, 821, 837, 372, 372, 775, 637, 995, 837, 850, 733, 850, 770, 720, 682, 812, 774, 1103, 771,
    724, 725, 457, 365, 457, 838, 500, 500, 675, 716, 593, 716, 678, 435, 716, 712, 343, 343, 665,
    343, 1042, 712, 687, 716, 716, 493, 595, 478, 712, 652, 924, 645, 652, 582, 712, 365, 712, 838,
];
/// Any other character: no wider than these.
const OTHER: u16 = 1000;

/// The width of a text.
pub fn width(text: &str, size: f64, bold: bool) -> f64 {
    let widths = if bold { &BOLD } else { &PLAIN };
    let thousandths = |c: char| {
        let place = (c as usize).wrapping_sub(32);
        f64::from(*widths.get(place).unwrap_or(&OTHER))
    };
    text.chars().map(thousandths).sum::<f64>() * size / 1000.0
}

/// A text in lines of at most this width, broken at spaces.
pub fn wrap(text: &str, size: f64, most: f64) -> Vec<String> {
    let mut lines: Vec<String> = Vec::new();
    for word in text.split_whitespace() {
        match lines.last_mut() {
            Some(line) if width(&format!("{line} {word}"), size, false) <= most => {
                line.push(' ');
                line.push_str(word);
            }
            _ => lines.push(word.to_string()),
        }
    }
    lines
}

/// The same in as few lines, but as even as they can be.
pub fn wrap_evenly(text: &str, size: f64, most: f64) -> Vec<String> {
    let mut lines = wrap(text, size, most);
    let mut less = most - 6.0;
    while less > 0.0 {
        let narrower = wrap(text, size, less);
        if narrower.len() > lines.len() {
            break;
        }
        lines = narrower;
        less -= 6.0;
    }
    lines
}

#[cfg(test)]
mod tests {
    use super::*;

    #[test]
    fn lines_are_no_wider_than_asked() {
        let text = "a request crosses a callback and the page is kept";
        let lines = wrap(text, 10.0, 100.0);
        assert!(lines.len() > 1);
        assert!(lines.iter().all(|line| width(line, 10.0, false) <= 100.0));
        assert_eq!(lines.join(" "), text);
        let even = wrap_evenly(text, 10.0, 200.0);
        assert_eq!(even.len(), wrap(text, 10.0, 200.0).len());
        assert_eq!(even.join(" "), text);
    }
}
