//! What a shift came to, and whether owners, server, archive and playback program say the same.

use crate::alone::Alone;
use crate::archive::Printed;
use crate::counters::{of_head, COUNTERS, HEADS};
use crate::progress::causes;
use crate::shift::Shift;
use crate::staff::{self, PANEL};
use second::archive::Playback;
use second::line::sets::STATIONS;
use second::numbers::OK;
use std::io::Write;

/// What was found when the archive was played back.
pub struct Played {
    /// Through the C interface, and the number of the record that was refused, else 0.
    pub playback: Playback,
    pub number: u32,
    /// By the playback program.
    pub printed: Printed,
}

/// A text, and how many of its lines say that something differs.
#[derive(Default)]
pub struct Report {
    pub text: String,
    pub differences: usize,
}

impl Report {
    pub fn of<W: Write>(shift: &Shift<W>, played: &Played) -> Report {
        let mut report = Report::default();
        report.summary(shift);
        report.line("");
        report
            .line("station  owner         kind            frames     aborts    commits   playback");
        for station in 0..STATIONS {
            report.station(station, shift, played.printed.commits[station]);
        }
        report.turns(shift);
        report.line("");
        report.line("counter                      address    counted     server    archive");
        for (address, name) in COUNTERS {
            report.counter(address, name, shift, &played.playback);
        }
        report.others(shift, &played.playback);
        report.line("");
        report.ends(shift, played);
        report
    }

    fn line(&mut self, line: &str) {
        self.text += line;
        self.text.push('\n');
    }

    /// Says whether these agree, and counts it if they do not.
    fn verdict(&mut self, equal: bool) -> &'static str {
        if equal {
            return "equal";
        }
        self.differences += 1;
        "DIFFERENT"
    }

    fn summary<W: Write>(&mut self, shift: &Shift<W>) {
        let told = shift.all_told();
        let (frames, calls, commits) = (shift.counted(), shift.calls, told.commits);
        self.line(&format!(
            "{frames} frames counted in {commits} commits, {calls} calls"
        ));
        self.line(&format!("aborted and begun again: {}", causes(&told)));
        let (wish, purged) = (told.aborts[0], shift.purged);
        self.line(&format!(
            "the office aborted {wish} times by its own wish, and purged {purged} copies of pages"
        ));
        let looks = shift.staff.panel.looks;
        self.line(&format!(
            "the panel looked {looks} times, and what it read added up each time"
        ));
        if let Some(window) = shift.line.window(PANEL) {
            let (accesses, interrupts) = (window.accesses, window.interrupts);
            self.line(&format!(
                "the panel worked through a window: {accesses} accesses to registers, {interrupts} interrupts"
            ));
        }
        let [up, down] = shift.line.longest;
        self.line(&format!("longest lines: {up} messages up, {down} down"));
    }

    /// What its owner was told, against the commits that were played back.
    fn station<W: Write>(&mut self, station: usize, shift: &Shift<W>, played: u64) {
        let kind = staff::kind_name(shift.kinds[station]);
        let frames = match station {
            head if head < HEADS => shift.staff.counted(of_head(head)).to_string(),
            _ => String::from("-"),
        };
        let told = &shift.told[station];
        let (aborts, commits): (u64, u64) = (told.aborts.iter().sum(), told.commits);
        let (owner, verdict) = (staff::name(station), self.verdict(commits == played));
        self.line(&format!(
            "{station:<7}  {owner:<12}  {kind:<10}  {frames:>10} {aborts:>10} {commits:>10} {played:>10}  {verdict}"
        ));
    }

    /// Messages for each commit of a head, by kind: in the shift, where heads share their counters, and where each is alone;
    /// beside them what document 000 found.
    pub fn kinds<W: Write>(&mut self, shift: &Shift<W>, alone: &[Alone]) {
        self.line("");
        self.line("heads         messages for each commit      sharing        alone");
        for alone in alone {
            let of_kind = (0..HEADS).filter(|head| shift.kinds[*head] == alone.kind);
            let [messages, commits] = of_kind.fold([0, 0], |[messages, commits], head| {
                [
                    messages + shift.messages[head],
                    commits + shift.told[head].commits,
                ]
            });
            let name = staff::kind_name(alone.kind);
            let (sharing, alone) = (each(messages, commits), each(alone.messages, alone.commits));
            self.line(&format!("{name:<40}  {sharing:>9}    {alone:>9}"));
        }
        self.line(DOCUMENT_000);
    }

    /// Whose messages the server took, where turns are shared.
    fn turns<W: Write>(&mut self, shift: &Shift<W>) {
        let Some(turns) = &shift.turns else {
            return;
        };
        self.line("");
        self.line("line     owner           share      turns  longest wait, in turns");
        for (line, share) in turns.shares().iter().enumerate() {
            let (owner, given, longest) =
                (staff::name(line), turns.given[line], turns.longest[line]);
            self.line(&format!(
                "{line:<7}  {owner:<12}  {share:>7} {given:>10} {longest:>13}"
            ));
        }
    }

    fn counter<W: Write>(
        &mut self,
        address: u8,
        name: &str,
        shift: &Shift<W>,
        playback: &Playback,
    ) {
        let totals = totals(address, shift, playback);
        self.totals(
            &format!("{name:<28} {address:>7}"),
            totals,
            all_equal(totals),
        );
    }

    /// Nobody counts anywhere else.
    fn others<W: Write>(&mut self, shift: &Shift<W>, playback: &Playback) {
        let is_counter = |address: u8| COUNTERS.iter().any(|(other, _)| *other == address);
        let others = (0..=u8::MAX).filter(|address| !is_counter(*address));
        let totals: Vec<[u64; 3]> = others
            .map(|address| totals(address, shift, playback))
            .collect();
        let sums = [0, 1, 2].map(|i| {
            totals
                .iter()
                .fold(0u64, |sum, one| sum.wrapping_add(one[i]))
        });
        let equal = totals.iter().all(|one| all_equal(*one));
        let what = format!("the {} other addresses", totals.len());
        self.totals(&format!("{what:<36}"), sums, equal);
    }

    fn totals(&mut self, what: &str, [counted, server, archive]: [u64; 3], equal: bool) {
        let verdict = self.verdict(equal);
        self.line(&format!(
            "{what} {counted:>10} {server:>10} {archive:>10}  {verdict}"
        ));
    }

    fn ends<W: Write>(&mut self, shift: &Shift<W>, played: &Played) {
        let commits = shift.all_told().commits;
        self.line(&format!("owners were told of {commits} commits"));
        let (number, last) = (played.number, played.playback.last);
        let verdict = self.verdict(number == OK && u64::from(last) == commits);
        self.line(&format!(
            "replay through the C interface: number {number} after {last}: {verdict}"
        ));
        let last = &played.printed.last_line;
        let verdict = self.verdict(*last == format!("end {commits}"));
        self.line(&format!("the playback program: {last}: {verdict}"));
    }
}

/// Callback-all and callback-read are its keeping and locking clients; section 5.3.
const DOCUMENT_000: &str = "document 000: alone (PRIVATE) a callback-all client needs 12 messages a transaction of 16 pages, always fewer than
callback-read; sharing, it needs more than callback-read from 15 clients on (HOTCOLD), or always (UNIFORM)";

/// So many for each; none where there is nothing to divide by.
fn each(number: u64, of: u64) -> String {
    match of {
        0 => String::from("-"),
        of => format!("{:.2}", number as f64 / of as f64),
    }
}

/// What owners were told, what the server has, what the archive gives.
fn totals<W: Write>(address: u8, shift: &Shift<W>, playback: &Playback) -> [u64; 3] {
    let counted = shift.staff.counted(address);
    let archive = playback.values[usize::from(address)];
    [counted, shift.line.value(address), archive]
}

fn all_equal([counted, server, archive]: [u64; 3]) -> bool {
    counted == server && counted == archive
}

#[cfg(test)]
mod tests {
    use super::*;
    use crate::archive;
    use crate::counters::FRAMES;
    use crate::shift::worked;
    use std::io;

    /// The differences in the report of a short shift, after a change of what was played back.
    fn differences(change: impl FnOnce(&mut Played)) -> usize {
        let mut bytes = Vec::new();
        worked(5, 100, &mut bytes);
        let shift = worked(5, 100, io::sink());
        let (playback, number) = archive::play(&bytes[..]).unwrap();
        let printed = Printed {
            commits: shift.told.map(|told| told.commits),
            last_line: format!("end {}", playback.last),
        };
        let mut played = Played {
            playback,
            number,
            printed,
        };
        change(&mut played);
        Report::of(&shift, &played).differences
    }

    #[test]
    fn a_difference_is_counted() {
        assert_eq!(differences(|_| ()), 0);
        assert_eq!(
            differences(|played| played.playback.values[usize::from(FRAMES)] += 1),
            1
        );
        assert_eq!(differences(|played| played.playback.values[255] = 1), 1);
        assert_eq!(differences(|played| played.playback.last -= 1), 1);
        assert_eq!(differences(|played| played.number = 12), 1);
        assert_eq!(differences(|played| played.printed.commits[3] += 1), 1);
        assert_eq!(differences(|played| played.printed.last_line.push('0')), 1);
    }
}
