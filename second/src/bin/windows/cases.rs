//! Accesses that no controller should make, and such as one may make at any time: registers and states changed or of a
//! wrong length, short buffers, offsets above 31, any command at any moment, messages that do not fit.

use crate::behind::Behind;
use crate::judge::{Access, Judge, Kept};
use crate::line::Line;
use second::buffers::Room;
use second::line::call::Call;
use second::line::crossing::Crossing;
use second::line::spoil;
use second::line::station::state::{self, Field};
use second::line::window::REGISTERS;
use second::random::Random;

pub fn make(random: &mut Random, line: &mut Line, crossing: &mut Crossing, judge: &mut Judge) {
    let number = random.below(line.windows.len());
    let locking = state::encode(&line.world.stations[number]);
    let access = access(random, line, crossing);
    let Some(behind) = &line.windows[number] else {
        // "1, which a locking station's state gets too"
        let kept = Kept {
            registers: vec![0; REGISTERS],
            state: locking,
        };
        refused(random, &access, kept, judge);
        return;
    };
    match random.below(4) {
        0 => {
            let kept = damaged(random, &behind.kept);
            refused(random, &access, kept, judge);
        }
        1 => short(random, &access, behind, judge),
        _ => taken(random, &access, behind, judge),
    }
}

/// Any byte to any register, or a message that may fit or not.
fn access(random: &mut Random, line: &Line, crossing: &mut Crossing) -> Access {
    if random.one_in(4) {
        return Access::Step(match crossing.raw(&line.world) {
            Call::StationRaw(_, bytes) | Call::ServerRaw(bytes) => bytes,
            _ => Vec::new(),
        });
    }
    write(random)
}

fn write(random: &mut Random) -> Access {
    let offset = match random.below(8) {
        0 => random.pick(&[32, 33, 255, 256, u32::MAX]),
        1..=3 => 2,
        _ => random.below(REGISTERS) as u32,
    };
    let byte = match offset {
        2 => random.pick(&[0, 1, 2, 3, 4, 5, 5, 6, 255]),
        0 | 1 => random.pick(&[0, 1, 7, 8, 31, 32, 255]),
        _ => random.byte(),
    };
    Access::Write(offset, byte)
}

/// On a copy: the line goes on as if it had not been made. Up to four accesses, the last of them this one.
fn taken(random: &mut Random, access: &Access, behind: &Behind, judge: &mut Judge) {
    let mut copy = if random.one_in(8) {
        Behind::spent()
    } else {
        behind.clone()
    };
    for _ in 0..random.below(4) {
        let before = write(random);
        let room = judge.room();
        let _ = judge.access(&before, &mut copy.kept, room, &mut copy.station);
    }
    let room = judge.room();
    let _ = judge.access(access, &mut copy.kept, room, &mut copy.station);
    look(access, &copy.kept, judge);
}

fn short(random: &mut Random, access: &Access, behind: &Behind, judge: &mut Judge) {
    let mut copy = behind.clone();
    let room = Room::short::<Field>(random);
    let _ = judge.access(access, &mut copy.kept, room, &mut copy.station);
}

fn damaged(random: &mut Random, kept: &Kept) -> Kept {
    let mut kept = kept.clone();
    match random.below(6) {
        0 => kept.registers = random.bytes(REGISTERS),
        1 => {
            let length = random.pick(&[0, 1, REGISTERS - 1, REGISTERS + 1, 2 * REGISTERS]);
            kept.registers.resize(length, 0);
        }
        2 | 3 => kept.registers[16 + random.below(16)] = random.byte(),
        4 => kept.state = spoil::byte_changed::<Field>(random, &kept.state),
        _ => spoil::of_a_wrong_length::<Field>(random, &mut kept.state),
    }
    kept
}

/// Registers or a state that may be turned back; what cannot be held here is looked at only where it is.
fn refused(random: &mut Random, access: &Access, mut kept: Kept, judge: &mut Judge) {
    look(access, &kept, judge);
    let mut station = match state::decode(&kept.state) {
        Some(station) => station,
        None if !state::valid(&kept.state) => Behind::fresh(random.below(8) as u8).station,
        None => return,
    };
    let room = judge.room();
    let _ = judge.access(access, &mut kept, room, &mut station);
}

/// The register that was written, and the interrupt.
fn look(access: &Access, kept: &Kept, judge: &mut Judge) {
    if let Access::Write(offset, _) = access {
        let _ = judge.read(*offset, kept);
    }
    let _ = judge.interrupt(kept);
}
