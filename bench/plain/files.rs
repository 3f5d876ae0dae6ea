//! Headers and packets, the input and the output.
use super::*;

pub(crate) struct Header {
    pub(crate) shape: Shape,
    pub(crate) length: usize,
    pub(crate) e: usize,
    pub(crate) block: usize,
    pub(crate) max_n: usize,
}

pub(crate) const HEADER: usize = 26;

impl Header {
    pub(crate) fn bytes(&self) -> Vec<u8> {
        let codec = if self.shape.triangle { 4 } else { 3 };
        let mut bytes = vec![b'O', b'F', b'P', b'K', 1, codec, 0, 0];
        bytes.extend(&(self.length as u64).to_be_bytes()[2..]);
        bytes.extend((self.e as u16).to_be_bytes());
        bytes.push((self.shape.n1 as u8 - 3) << 5 | 1);
        bytes.extend(&((self.block as u64) << 20 | self.max_n as u64).to_be_bytes()[3..]);
        bytes.extend((self.shape.seed as u32).to_be_bytes());
        bytes
    }

    pub(crate) fn read(bytes: &[u8]) -> Answer<Header> {
        if bytes.len() < HEADER {
            return fault(5, format!("header short {}", bytes.len()));
        }
        let number =
            |from, to| bytes[from..to].iter().fold(0, |sum, &b: &u8| sum << 8 | b as usize);
        let (e, sizes, seed) = (number(14, 16), number(17, 22), number(22, 26));
        let (block, max_n) = (sizes >> 20, sizes & 0xfffff);
        let field = [e == 0, bytes[16] & 31 != 1, block == 0, max_n < block, max_n > 65536, {
            seed == 0 || seed > 2147483646
        }];
        match bytes {
            _ if bytes[..4] != *b"OFPK" => fault(5, "header magic"),
            _ if bytes[4] != 1 => fault(5, format!("header version {}", bytes[4])),
            _ if !matches!(bytes[5], 3 | 4) => fault(5, format!("header codec {}", bytes[5])),
            _ if number(6, 8) != 0 => fault(5, "header reserved"),
            _ => match field.iter().position(|&wrong| wrong) {
                Some(place) => fault(5, format!("header field {}", place + 1)),
                None => {
                    let n1 = (bytes[16] >> 5) as usize + 3;
                    let shape = Shape { triangle: bytes[5] == 4, n1, seed };
                    Ok(Header { shape, length: number(8, 14), e, block, max_n })
                }
            },
        }
    }
}

/// The blocks of a file, each with the number of its code and its place, and the codes, of which
/// all blocks of a size share one.
pub(crate) struct Plan {
    pub(crate) codes: Vec<Code>,
    pub(crate) blocks: Vec<(usize, Place)>,
    /// The source symbols and all symbols.
    pub(crate) sources: usize,
    pub(crate) symbols: usize,
}

impl Plan {
    /// With `apart` the repair symbols of each block have a place of their own, else all share
    /// one.
    pub(crate) fn new(head: &Header, apart: bool) -> Answer<Plan> {
        let (e, sources) = (head.e, head.length.div_ceil(head.e));
        let count = sources.div_ceil(head.block);
        let n_of = |k: usize| k * head.max_n / head.block;
        let (less, larger) = if count == 0 { (0, 0) } else { (sources / count, sources % count) };
        let symbols = larger * n_of(less + 1) + (count - larger) * n_of(less);
        let greatest = n_of(less + usize::from(larger > 0));
        let passed = [
            ("length", head.length > 1 << 28),
            ("blocks", count > 4096),
            ("block-bytes", greatest * e > 1 << 28),
            ("symbols", symbols > 1 << 22),
            ("bytes", symbols * e > 1 << 29),
        ];
        if let Some((limit, _)) = passed.iter().find(|limit| limit.1) {
            return fault(7, format!("limit {limit}"));
        }
        let (mut codes, mut blocks) = (Vec::<Code>::new(), Vec::new());
        let (mut source, mut repair) = (0, sources);
        for number in 0..count {
            let k = less + usize::from(number < larger);
            if codes.last().is_none_or(|code| code.k != k) {
                codes.push(Code::new(k, n_of(k), head.shape));
            }
            blocks.push((codes.len() - 1, Place::new(k, e, source, repair)));
            source += k;
            repair += if apart { n_of(k) - k } else { 0 };
        }
        let most = codes.iter().map(|code| code.n - code.k).max().unwrap_or(0);
        let symbols = if apart { symbols } else { sources + most };
        Ok(Plan { codes, blocks, sources, symbols })
    }
}

pub(crate) const BUFFER: usize = 1 << 18;

/// A standard stream without the buffer of `std` in front of it.
pub(crate) fn file(stream: BorrowedFd, status: i32, text: &str) -> Answer<File> {
    stream.try_clone_to_owned().map(File::from).or_else(|_| fault(status, text))
}

pub(crate) struct Input {
    pub(crate) file: File,
    pub(crate) buffer: Vec<u8>,
    pub(crate) from: usize,
    pub(crate) to: usize,
}

impl Input {
    pub(crate) fn new() -> Answer<Input> {
        let file = file(io::stdin().as_fd(), 3, "read")?;
        Ok(Input { file, buffer: vec![0; BUFFER], from: 0, to: 0 })
    }

    /// The next bytes, fewer than `count` only at the end.
    #[inline]
    pub(crate) fn take(&mut self, count: usize) -> Answer<&[u8]> {
        if self.to - self.from < count {
            self.refill(count)?;
        }
        let from = self.from;
        self.from = self.to.min(from + count);
        Ok(&self.buffer[from..self.from])
    }

    pub(crate) fn refill(&mut self, count: usize) -> Answer<()> {
        self.buffer.copy_within(self.from..self.to, 0);
        (self.from, self.to) = (0, self.to - self.from);
        while self.to < count {
            match self.file.read(&mut self.buffer[self.to..]) {
                Ok(0) => break,
                Ok(read) => self.to += read,
                Err(_) => return fault(3, "read"),
            }
        }
        Ok(())
    }
}

pub(crate) struct Output {
    pub(crate) file: File,
    pub(crate) buffer: Vec<u8>,
}

impl Output {
    pub(crate) fn new() -> Answer<Output> {
        let file = file(io::stdout().as_fd(), 4, "write")?;
        Ok(Output { file, buffer: Vec::with_capacity(2 * BUFFER) })
    }

    #[inline]
    pub(crate) fn packet(&mut self, id: u32, symbol: &[u8]) -> Answer<()> {
        self.buffer.extend_from_slice(&id.to_be_bytes());
        match <[u8; 16]>::try_from(symbol) {
            Ok(symbol) => self.buffer.extend_from_slice(&symbol),
            _ => self.buffer.extend_from_slice(symbol),
        }
        if self.buffer.len() >= BUFFER {
            self.flush()
        } else {
            Ok(())
        }
    }

    pub(crate) fn flush(&mut self) -> Answer<()> {
        self.file.write_all(&self.buffer).or_else(|_| fault(4, "write"))?;
        self.buffer.clear();
        Ok(())
    }
}
