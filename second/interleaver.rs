//! The running interleaver, by the lag of each byte. A byte goes out once, with the output that is read from its cell, so many bytes behind it:
//! an output is known from the bytes behind which it comes, without any cell. The receiving side has a byte where the same lag says.

/// Cells at the largest depth.
pub const CELLS: usize = 64 * 255;

/// The cell that output t is read from, by its row and column.
pub fn cell(depth: usize, t: usize) -> usize {
    let (row, column) = ((t - 254 * (t / 255)) % depth, 53 * t % 255);
    255 * row + column
}

/// How many bytes each output of a pass is behind the byte that it carries.
fn lags(depth: usize) -> Vec<usize> {
    let n = 255 * depth;
    (0..n).map(|t| (t + n - cell(depth, t)) % n).collect()
}

/// How many outputs each byte of a pass waits until it goes out.
fn waits(depth: usize) -> Vec<usize> {
    let n = 255 * depth;
    let mut waits = vec![0; n];
    for (t, lag) in lags(depth).into_iter().enumerate() {
        waits[(t + n - lag) % n] = lag;
    }
    waits
}

/// Refusals 10 and 32: whether the depth has cells.
pub fn has_cells(depth: u64, place: u64) -> Result<bool, u8> {
    if depth >= 2 && place as u128 >= 255 * depth as u128 {
        return Err(10);
    }
    if depth > 64 {
        return Err(32);
    }
    Ok(depth >= 2)
}

#[derive(Clone)]
pub struct Sender {
    pub place: u64,
    pub cells: Vec<u8>,
}

impl Sender {
    pub fn new() -> Self {
        Sender { place: 0, cells: vec![0; CELLS] }
    }

    pub fn push(&mut self, depth: u64, bytes: &[u8], space: usize) -> Result<Vec<u8>, u8> {
        let deep = has_cells(depth, self.place)?;
        if space < bytes.len() {
            return Err(23);
        }
        if !deep {
            return Ok(bytes.to_vec());
        }
        let (n, place, lags) = (255 * depth as usize, self.place as usize, lags(depth as usize));
        // the N bytes before, oldest first, and the new ones
        let line: Vec<u8> = (0..n).map(|i| self.cells[(place + i) % n]).chain(bytes.iter().copied()).collect();
        let out = (n..line.len()).map(|i| line[i - lags[(place + i) % n]]).collect();
        let end = (place + bytes.len()) % n;
        (0..n).for_each(|i| self.cells[(end + i) % n] = line[bytes.len() + i]);
        self.place = end as u64;
        Ok(out)
    }

    pub fn close(&mut self, depth: u64, space: usize) -> Result<Vec<u8>, u8> {
        let zeros = if (2..=64).contains(&depth) { 255 * depth as usize - 1 } else { 0 };
        self.push(depth, &vec![0; zeros], space)
    }
}

#[derive(Clone)]
pub struct Receiver {
    pub again: bool,
    pub place: u64,
    pub cells: Vec<u8>,
}

impl Receiver {
    pub fn new() -> Self {
        Receiver { again: false, place: 0, cells: vec![0; CELLS] }
    }

    pub fn pull(&mut self, depth: u64, bytes: &[u8], space: usize) -> Result<Vec<u8>, u8> {
        let deep = has_cells(depth, self.place)?;
        let (n, place) = (255 * depth as usize, self.place as usize);
        let silent = if deep && !self.again { (n - 1 - place).min(bytes.len()) } else { 0 };
        if space < bytes.len() - silent {
            return Err(23);
        }
        if !deep {
            return Ok(bytes.to_vec());
        }
        let (waits, depth) = (waits(depth as usize), depth as usize);
        // the N bytes received before, oldest first, and the new ones
        let line: Vec<u8> = (0..n).map(|i| self.cells[cell(depth, (place + i) % n)]).chain(bytes.iter().copied()).collect();
        let out = (n + silent..line.len()).map(|i| line[i + 1 - n + waits[(place + i + 1) % n]]).collect();
        let end = (place + bytes.len()) % n;
        (0..n).for_each(|i| self.cells[cell(depth, (end + i) % n)] = line[bytes.len() + i]);
        self.again |= place + bytes.len() >= n;
        self.place = end as u64;
        Ok(out)
    }
}

/// Both sides, as a file of cases carries them over.
pub struct Sides {
    pub sender: Sender,
    pub receiver: Receiver,
}

impl Sides {
    pub fn new() -> Self {
        Sides { sender: Sender::new(), receiver: Receiver::new() }
    }
}
