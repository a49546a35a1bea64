//! The sheets of bench/searches.txt, whose searches take long.

/// A sheet, the limit of its search, and the length of the shortest plan, if there is one within the limit.
pub struct Long {
    pub name: &'static str,
    pub limit: u64,
    pub length: Option<u64>,
    pub sheet: Vec<u8>,
}

impl Long {
    /// The four numbers of info after a search.
    pub fn info(&self) -> [u64; 4] {
        match self.length {
            Some(length) => [0, 0, 0, length],
            None => [0, 2, 0, 0],
        }
    }
}

fn bytes(hexadecimal: &str) -> Option<Vec<u8>> {
    (0..hexadecimal.len()).step_by(2).map(|i| u8::from_str_radix(hexadecimal.get(i..i + 2)?, 16).ok()).collect()
}

/// A line of the file: name, limit, length or "none", sheet in hexadecimal.
fn long(line: &'static str) -> Option<Long> {
    let mut words = line.split_whitespace();
    let (name, limit, length, sheet) = (words.next()?, words.next()?, words.next()?, words.next()?);
    let length = if length == "none" { None } else { Some(length.parse().ok()?) };
    Some(Long { name, limit: limit.parse().ok()?, length, sheet: bytes(sheet)? })
}

/// All sheets of the file, in order.
pub fn searches() -> Vec<Long> {
    let lines = include_str!("searches.txt").lines().filter(|line| !line.starts_with('#'));
    lines.map(|line| long(line).unwrap_or_else(|| panic!("bench/searches.txt: not as its first line says: {line}"))).collect()
}
