//! A script in the text protocol as a message chart: `line_chart SCRIPT > OUT.svg`.

use second::chart;
use second::options::Options;
use std::fs;
use std::process;

const USAGE: &str = "line_chart SCRIPT
  SCRIPT  commands of the text protocol, beginning with `fresh`; `#` lines before it are the chart's title,
          those behind it are notes; calls before a line `#>` are made and not drawn";

fn main() {
    let options = Options::read(USAGE, &[], &[]);
    let [script] = options.words() else {
        options.misused()
    };
    let text = fs::read_to_string(script).unwrap_or_else(|error| fail(script, &error.to_string()));
    match chart::draw(&text) {
        Ok(drawn) if drawn.clashes > 0 => fail(script, "labels lie on other text"),
        Ok(drawn) => print!("{}", drawn.svg),
        Err(fault) => fail(script, &fault.to_string()),
    }
}

fn fail(script: &str, what: &str) -> ! {
    eprintln!("{script}: {what}");
    process::exit(1)
}
