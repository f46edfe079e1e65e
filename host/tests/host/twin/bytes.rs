//! Numbers and commands, read and written.

#[derive(Clone, Copy, Debug, PartialEq)]
pub enum Command {
    Search(u32),
    Insert(u32),
    Delete(u32),
    Step(u32, u32),
    Settle(u32),
    AtOrAbove(u32),
    Count(u32, u32),
    DeleteSpan(u32, u32),
}

const MOST_COMMANDS: usize = 256;

/// The number at the beginning and how many bytes it has; or at which byte it goes wrong, the number's first being 0. "Only
/// the shortest form, at most 4,294,967,295."
fn number(bytes: &[u8]) -> Result<(u32, usize), usize> {
    let last = bytes.iter().take(4).take_while(|&&byte| byte & 0x80 != 0).count();
    // "the fifth if that byte is above 0F, else the end of the input if cut short, else the last byte if not in shortest form"
    match bytes.get(last) {
        Some(0x10..) if last == 4 => Err(4),
        None => Err(bytes.len()),
        Some(0) if last > 0 => Err(last),
        Some(_) => {
            let value = bytes[..=last].iter().rev().fold(0, |v, g| v * 128 + u64::from(g % 128));
            Ok((value as u32, last + 1))
        }
    }
}

/// The numbers that bytes are: all that read, and then one that does not. There is one always, for after the last byte the
/// next number is cut short, at the end of the input.
pub(super) struct Numbers {
    pub values: Vec<u32>,
    /// The byte where each begins, and where the one begins that does not read.
    pub begins: Vec<usize>,
    /// The byte at which that one goes wrong.
    pub wrong_at: usize,
}

impl Numbers {
    pub fn of(bytes: &[u8]) -> Numbers {
        let (mut values, mut begins, mut begin) = (vec![], vec![], 0);
        loop {
            begins.push(begin);
            match number(&bytes[begin..]) {
                Ok((value, len)) => {
                    values.push(value);
                    begin += len;
                }
                Err(byte) => return Numbers { values, begins, wrong_at: begin + byte },
            }
        }
    }
}

/// All commands, or the byte at which they go wrong.
pub fn commands(bytes: &[u8]) -> Result<Vec<Command>, usize> {
    let Numbers { values, begins, wrong_at } = Numbers::of(bytes);
    let mut ahead = values.into_iter();
    let mut found = vec![];
    loop {
        let begin = begins[begins.len() - 1 - ahead.len()];
        if begin == bytes.len() {
            return Ok(found);
        }
        // "as does a 257th command, which counts before any fault inside it"
        if found.len() == MOST_COMMANDS {
            return Err(begin);
        }
        let mut next = || ahead.next().ok_or(wrong_at);
        found.push(match next()? {
            1 => Command::Search(next()?),
            2 => Command::Insert(next()?),
            3 => Command::Delete(next()?),
            4 => Command::Step(next()?, next()?),
            5 => Command::Settle(next()?),
            // 02 (vii): "Three new batch commands"
            6 => Command::AtOrAbove(next()?),
            7 => Command::Count(next()?, next()?),
            8 => Command::DeleteSpan(next()?, next()?),
            // "An unknown operation number gives the byte where its number begins"
            _ => return Err(begin),
        });
    }
}

/// The seven-bit groups of a number, with `padding` needless groups of zeros.
pub fn write_number(value: u32, padding: usize, bytes: &mut Vec<u8>) {
    let mut groups: Vec<u8> = (0..5).map(|i| (value as u64 >> (7 * i) & 0x7F) as u8).collect();
    while groups.len() > 1 && groups.last() == Some(&0) {
        groups.pop();
    }
    groups.resize(groups.len() + padding, 0);
    let last = groups.len() - 1;
    groups[..last].iter_mut().for_each(|g| *g |= 0x80);
    bytes.extend(groups);
}

impl Command {
    /// Operation and arguments.
    pub fn numbers(self) -> Vec<u32> {
        match self {
            Command::Search(key) => vec![1, key],
            Command::Insert(key) => vec![2, key],
            Command::Delete(key) => vec![3, key],
            Command::Step(slot, kind) => vec![4, slot, kind],
            Command::Settle(budget) => vec![5, budget],
            Command::AtOrAbove(key) => vec![6, key],
            Command::Count(a, b) => vec![7, a, b],
            Command::DeleteSpan(a, b) => vec![8, a, b],
        }
    }

    pub fn write(self, bytes: &mut Vec<u8>) {
        self.numbers().into_iter().for_each(|n| write_number(n, 0, bytes));
    }

    pub fn all(commands: &[Command]) -> Vec<u8> {
        let mut bytes = vec![];
        commands.iter().for_each(|c| c.write(&mut bytes));
        bytes
    }
}
