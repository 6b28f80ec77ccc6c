// One file read, salvaged and written by the archive, each held against the plain reader and writer of 02.
use demsharin::bytes::{FILE_BYTES, HEAD_BYTES, ROW_BYTES};
use demsharin::exports;
use generator::random::Random;
use scope::files;
use wire::records::Row;
use wire::refusals::{self, ROOM};
use wire::text;

use crate::counts::Counts;
use crate::tables;

/// What stands in lent room before a call.
const PAINT: u8 = 0x5a;
/// At most so many differences are shown in full.
const SHOWN: u64 = 5;

type Call = fn(&[u8], &mut [u8]) -> u32;
/// An answer's bytes, or the number of its refusal.
type Wanted = Result<Vec<u8>, u32>;
/// The number that a call answers, and its whole room afterwards.
type After = (u32, Vec<u8>);

#[derive(Default)]
pub struct Judge {
    pub counts: Counts,
    pub different: u64,
    /// Rooms that a refusal left as they were, and bytes behind an answer that stayed.
    untouched: u64,
    behind: u64,
}

fn called(call: Call, argument: &[u8], room: usize) -> After {
    let mut out = vec![PAINT; room];
    let number = call(argument, &mut out);
    (number, out)
}

/// The answer and behind it the paint, or the paint alone; ROOM, after every other refusal, below the head.
fn expected(answer: Wanted, room: usize) -> After {
    let mut out = vec![PAINT; room];
    match answer {
        Ok(_) if room < HEAD_BYTES => (ROOM, out),
        Ok(bytes) => {
            out[..bytes.len()].copy_from_slice(&bytes);
            (0, out)
        }
        Err(number) => (number, out),
    }
}

fn places(room: usize) -> usize {
    room.saturating_sub(HEAD_BYTES) / ROW_BYTES
}

fn word(bytes: &[u8], at: usize) -> usize {
    u32::from_le_bytes(bytes[at..at + 4].try_into().expect("four bytes")) as usize
}

impl Judge {
    /// The three calls on a file and on the rows that it was written from, damaged in a way that has a name.
    pub fn hold(&mut self, random: &mut Random, way: &str, rows: &[Row], file: &[u8]) {
        let odd = random.pick(&[0, 0, 1, 8, 175]);
        let room = HEAD_BYTES + ROW_BYTES * generator::files::places(random, rows.len()) as usize + odd;
        let read = self.read(way, file, room);
        let kept = self.salvaged(way, file, room);
        self.agree(file, &read, &kept);
        if read.0 == 0 {
            self.rewritten(file, &read.1);
        }
        self.written(random, way, rows);
        if random.percent(12) {
            self.below_the_head(random, rows, file);
        }
    }

    fn read(&mut self, way: &str, file: &[u8], room: usize) -> After {
        let wanted = files::read(file, places(room)).map(|rows| files::rows_bytes(&rows, 0));
        let after = self.compared("read", exports::read_table, file, room, wanted);
        self.counts.add(way, &format!("read {}", refusals::name(after.0)));
        self.counts.add_places(files::counted(file), places(room));
        after
    }

    fn salvaged(&mut self, way: &str, file: &[u8], room: usize) -> After {
        let kept = files::salvage(file, places(room));
        let all = files::counted(file).is_some_and(|count| count as usize == kept.rows.len());
        let sort = match kept.rows.is_empty() {
            _ if all => "kept all",
            true => "none",
            false => "some",
        };
        self.counts.add(way, sort);
        let wanted = files::rows_bytes(&kept.rows, kept.byte as u32);
        self.compared("salvaged", exports::salvage_table, file, room, Ok(wanted))
    }

    /// A read answers exactly if a salvage keeps all counted rows and ends at the file's end.
    fn agree(&mut self, file: &[u8], read: &After, kept: &After) {
        let counted = files::counted(file).map(|count| count as usize);
        let all = kept.0 == 0 && counted == Some(word(&kept.1, 0)) && word(&kept.1, 4) == file.len();
        let same_rows = || read.1[..4] == kept.1[..4] && read.1[HEAD_BYTES..] == kept.1[HEAD_BYTES..];
        if all != (read.0 == 0) || all && !same_rows() {
            self.show("read and salvaged otherwise", file, "");
        }
    }

    /// A write after a read gives the file.
    fn rewritten(&mut self, file: &[u8], read: &[u8]) {
        let rows = &read[HEAD_BYTES..HEAD_BYTES + ROW_BYTES * word(read, 0)];
        let room = HEAD_BYTES + file.len();
        self.compared("written again", exports::write_table, rows, room, Ok(files::written_bytes(file)));
    }

    /// Rows as a table, written; and read again if there was room.
    fn written(&mut self, random: &mut Random, way: &str, rows: &[Row]) {
        let (table, file) = (tables::bytes(random, rows), files::file(rows));
        let room = HEAD_BYTES + generator::files::room(random, file.len()) as usize;
        let wanted = files::write(&table, room - HEAD_BYTES).map(|file| files::written_bytes(&file));
        let (number, out) = self.compared("written", exports::write_table, &table, room, wanted);
        self.counts.add(way, &format!("written {}", refusals::name(number)));
        if number == 0 {
            let length = word(&out, 0);
            let room = HEAD_BYTES + ROW_BYTES * rows.len();
            let back = Ok(files::rows_bytes(rows, 0));
            self.compared("read back", exports::read_table, &out[HEAD_BYTES..HEAD_BYTES + length], room, back);
            if length > FILE_BYTES {
                self.show("longer than any file", &out, "");
            }
        }
    }

    fn below_the_head(&mut self, random: &mut Random, rows: &[Row], file: &[u8]) {
        let room = random.below(HEAD_BYTES);
        let table = tables::bytes(random, rows);
        let read = files::read(file, 0).map(|_| Vec::new());
        self.compared("read below the head", exports::read_table, file, room, read);
        self.compared("salvaged below the head", exports::salvage_table, file, room, Ok(Vec::new()));
        let written = files::write(&table, 0).map(|_| Vec::new());
        self.compared("written below the head", exports::write_table, &table, room, written);
        self.counts.add_short();
    }

    fn compared(&mut self, what: &str, call: Call, argument: &[u8], room: usize, wanted: Wanted) -> After {
        let answer = wanted.as_ref().map_or(0, Vec::len);
        let (wanted, after) = (expected(wanted, room), called(call, argument, room));
        self.untouched += u64::from(after.0 != 0);
        self.behind += if after.0 == 0 { (room - answer.min(room)) as u64 } else { 0 };
        if wanted != after {
            let names = [wanted.0, after.0].map(refusals::name);
            let told = format!("room {room}, wanted {}, came {}", names[0], names[1]);
            let at = wanted.1.iter().zip(&after.1).position(|(a, b)| a != b);
            self.show(what, argument, &format!("{told}, first byte that differs {at:?}"));
        }
        after
    }

    fn show(&mut self, what: &str, argument: &[u8], told: &str) {
        self.different += 1;
        if self.different <= SHOWN {
            println!("difference, {what}: {}\n  {told}", text::part(wire::calls::Kind::File, argument));
        }
    }

    pub fn summary(&self) -> String {
        format!(
            "{} different; {} refusals left the room as it was, {} bytes behind answers stayed",
            self.different, self.untouched, self.behind
        )
    }
}
