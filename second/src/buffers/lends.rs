//! What a station's call and the server's step are lent.

use super::Lends;
use crate::line::message::LENGTH as MESSAGE;
use crate::line::server::state::Field as Server;
use crate::line::station::state::Field as Station;
use crate::line::{lent, served};

impl Lends for Station {
    const NAMES: [&'static str; 3] = ["messages", "commit", "told"];
    const LEAST: [usize; 3] = [lent::MESSAGES, lent::COMMIT, lent::TOLD];

    type Lent<'a> = lent::Lent<'a>;

    fn lent<'a>(
        state: &'a mut [u8],
        messages: &'a mut [u8],
        commit: &'a mut [u8],
        told: &'a mut [u64],
    ) -> lent::Lent<'a> {
        lent::Lent {
            state,
            messages,
            commit,
            told,
        }
    }

    /// Up to 8 messages or a commit.
    fn sent(told: &[u64]) -> Option<[usize; 2]> {
        let [answer, _, messages, commit] = *told.first_chunk::<{ lent::TOLD }>()?;
        if !(1..=8).contains(&answer) || messages > 8 || (messages > 0 && commit > 0) {
            return None;
        }
        Some([messages as usize * MESSAGE, usize::try_from(commit).ok()?])
    }
}

impl Lends for Server {
    const NAMES: [&'static str; 3] = ["messages", "records", "served"];
    const LEAST: [usize; 3] = [served::MESSAGES, served::RECORDS, served::SERVED];

    type Lent<'a> = served::Lent<'a>;

    fn lent<'a>(
        state: &'a mut [u8],
        messages: &'a mut [u8],
        records: &'a mut [u8],
        served: &'a mut [u64],
    ) -> served::Lent<'a> {
        served::Lent {
            state,
            messages,
            records,
            served,
        }
    }

    /// Up to 128 messages and 7,040 bytes.
    fn sent(numbers: &[u64]) -> Option<[usize; 2]> {
        let numbers = numbers.first_chunk::<{ served::SERVED }>()?;
        let [messages, records] = numbers.map(|n| usize::try_from(n).unwrap_or(usize::MAX));
        let messages = messages.checked_mul(MESSAGE)?;
        (messages <= served::MESSAGES && records <= served::RECORDS).then_some([messages, records])
    }
}
