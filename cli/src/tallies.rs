//! A table of tallies as a file of 192 bytes: for each caller three numbers of four bytes, little-endian.
use crate::outcome::{Fact, Value};
use crate::text::line;
use crate::whole::{folder_of, require_room_beside, sync_folder, write_whole};
use seq_graph::{Tallies, Tally};
use std::fmt::Write;
use std::fs::{self, File, OpenOptions};
use std::io::{self, ErrorKind, Read};
use std::os::unix::fs::MetadataExt;
use std::path::Path;

const SIZE: usize = 192;

pub fn tallies_in(data: &[u8]) -> Result<Tallies, String> {
    if data.len() != SIZE {
        return Err(format!("it has {} bytes; a table of tallies has {SIZE}", data.len()));
    }
    let n = |at: usize| u32::from_le_bytes([0, 1, 2, 3].map(|i| data[at + i]));
    let tally = |i: usize| Tally { answered: n(12 * i), refused: n(12 * i + 4), rewrites: n(12 * i + 8) };
    Ok(Tallies { callers: std::array::from_fn(tally) })
}

fn bytes_of(table: &Tallies) -> Vec<u8> {
    let numbers = table.callers.iter().flat_map(|t| [t.answered, t.refused, t.rewrites]);
    numbers.flat_map(u32::to_le_bytes).collect()
}

/// The sums, each of which stops where the library's counts do. So tables that were counted side by side give what one
/// table gives that is lent to all calls in turn.
pub fn add(table: &mut Tallies, counted: &Tallies) {
    for (t, c) in table.callers.iter_mut().zip(&counted.callers) {
        t.answered = t.answered.saturating_add(c.answered);
        t.refused = t.refused.saturating_add(c.refused);
        t.rewrites = t.rewrites.saturating_add(c.rewrites);
    }
}

fn table_in(file: &File) -> io::Result<Tallies> {
    let mut data = Vec::with_capacity(SIZE + 1);
    file.take(SIZE as u64 + 1).read_to_end(&mut data)?;
    tallies_in(&data)
        .map_err(|_| io::Error::other(format!("no table of tallies: it does not have {SIZE} bytes")))
}

/// Whether the file has this name still, and was not replaced by another run.
fn has_name(file: &File, path: &Path) -> io::Result<bool> {
    let open = file.metadata()?;
    match fs::metadata(path) {
        Ok(named) => Ok((open.dev(), open.ino()) == (named.dev(), named.ino())),
        Err(why) if why.kind() == ErrorKind::NotFound => Ok(false),
        Err(why) => Err(why),
    }
}

/// To be locked for writing, as some file systems have it, a file must be open for that.
fn open_table(path: &Path) -> io::Result<File> {
    OpenOptions::new().read(true).write(true).open(path)
}

/// Adds to the table of a file that is there. False if another run replaced it meanwhile.
fn add_to_open(path: &Path, file: &File, counted: &Tallies) -> io::Result<bool> {
    file.lock()?;
    if !has_name(file, path)? {
        return Ok(false);
    }
    let mut table = table_in(file)?;
    add(&mut table, counted);
    write_whole(path, &bytes_of(&table), true)?;
    Ok(true)
}

/// Adds what was counted to the table in the file, which is made if it is not there. Runs that do so at the same time
/// wait for one another.
pub fn add_to_file(path: &Path, counted: &Tallies) -> io::Result<()> {
    loop {
        let done = match open_table(path) {
            Ok(file) => add_to_open(path, &file, counted)?,
            Err(why) if why.kind() != ErrorKind::NotFound => return Err(why),
            // made by another run meanwhile, it is added to
            Err(_) => match write_whole(path, &bytes_of(counted), false) {
                Err(why) if why.kind() == ErrorKind::AlreadyExists => false,
                made => made.map(|_| true)?,
            },
        };
        if done {
            return sync_folder(folder_of(path));
        }
    }
}

/// That what will be counted can be added, before a long run begins.
pub fn require_table(path: &Path) -> io::Result<()> {
    match open_table(path) {
        Ok(file) => {
            table_in(&file)?;
        }
        Err(why) if why.kind() == ErrorKind::NotFound => {}
        Err(why) => return Err(why),
    }
    require_room_beside(path)
}

/// A line for each caller.
pub fn shown_tallies(table: &Tallies) -> (String, Vec<Fact>) {
    let mut text = String::from("caller\tanswered\trefused\trewrites\n");
    for (i, t) in table.callers.iter().enumerate() {
        line!(text, "{i}\t{}\t{}\t{}", t.answered, t.refused, t.rewrites);
    }
    let all = |name, field: fn(&Tally) -> u32| Fact {
        name,
        value: Value::Numbers(table.callers.iter().map(field).collect()),
    };
    (
        text,
        vec![all("answered", |t| t.answered), all("refused", |t| t.refused), all("rewrites", |t| t.rewrites)],
    )
}

#[cfg(test)]
mod tests {
    use super::{add, add_to_file, bytes_of, tallies_in};
    use seq_graph::{Tallies, Tally};

    fn counted(n: u32) -> Tallies {
        let tally = |i: usize| Tally { answered: n + i as u32, refused: n * 2, rewrites: u32::MAX - n };
        Tallies { callers: std::array::from_fn(tally) }
    }

    #[test]
    fn bytes_and_back() {
        let table = counted(7);
        assert_eq!(bytes_of(&table).len(), 192);
        assert_eq!(bytes_of(&table)[12..24], [8, 0, 0, 0, 14, 0, 0, 0, 0xf8, 0xff, 0xff, 0xff]);
        assert_eq!(tallies_in(&bytes_of(&table)), Ok(table));
        assert!([0, 191, 193].iter().all(|n| tallies_in(&vec![0; *n]).is_err()));
    }

    #[test]
    fn sums_stop() {
        let mut table = counted(1);
        add(&mut table, &counted(2));
        assert_eq!(table.callers[3], Tally { answered: 9, refused: 6, rewrites: u32::MAX });
    }

    /// Runs at the same time lose nothing.
    #[test]
    fn side_by_side() {
        let path = std::env::temp_dir().join(format!("sg-tallies-{}", std::process::id()));
        let _ = std::fs::remove_file(&path);
        let mut one = Tallies::default();
        one.callers[5].answered = 1;
        std::thread::scope(|threads| {
            for _ in 0..8 {
                threads.spawn(|| (0..20).for_each(|_| add_to_file(&path, &one).unwrap()));
            }
        });
        let table = tallies_in(&std::fs::read(&path).unwrap()).unwrap();
        assert_eq!(table.callers[5], Tally { answered: 160, refused: 0, rewrites: 0 });
        std::fs::remove_file(&path).unwrap();
    }
}
