// Numbers by three names (what is counted, its row, its column): kept in a file for each process of a comparison, and added
// up over several.
use std::collections::BTreeMap;
use std::fs;
use std::io;

#[derive(Default)]
pub struct Tallies(BTreeMap<[String; 3], u64>);

impl Tallies {
    pub fn put(&mut self, key: [&str; 3], n: u64) {
        *self.0.entry(key.map(str::to_string)).or_default() += n;
    }

    pub fn of(&self, key: [&str; 3]) -> u64 {
        self.0.get(&key.map(str::to_string)).copied().unwrap_or(0)
    }

    /// The columns of a row that were met, with their numbers.
    pub fn met(&self, what: &str, row: &str) -> impl Iterator<Item = (&str, u64)> {
        let from = [what, row, ""].map(str::to_string);
        let of_row = self.0.range(from..).take_while(move |(key, _)| key[0] == what && key[1] == row);
        of_row.map(|(key, n)| (key[2].as_str(), *n))
    }

    /// A line for each number: its three names and itself, with tabs between.
    pub fn write(&self, file: &str) -> io::Result<()> {
        fs::write(file, self.0.iter().map(|(key, n)| format!("{}\t{n}\n", key.join("\t"))).collect::<String>())
    }

    fn read_more(&mut self, file: &str) -> io::Result<()> {
        for line in fs::read_to_string(file)?.lines() {
            let parts: Vec<&str> = line.split('\t').collect();
            let [what, row, column, n] = parts[..] else { return Err(io::Error::other(format!("no count: {line}"))) };
            self.put([what, row, column], n.parse().map_err(io::Error::other)?);
        }
        Ok(())
    }

    /// All files added up.
    pub fn read(files: &[String]) -> io::Result<Tallies> {
        let mut all = Tallies::default();
        files.iter().try_for_each(|file| all.read_more(file))?;
        Ok(all)
    }
}
