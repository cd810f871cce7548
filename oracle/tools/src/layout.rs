//! The text forms of a layout and of a walk request: their reader, their
//! writer, and the refusals of document 01, written from its table alone with
//! arithmetic that does not wrap.

use std::fmt;
use std::io::BufRead;

/// What a plan is for.
#[derive(Clone, Copy, Debug, PartialEq, Eq)]
pub enum Purpose {
    Pointwise,
    Fold,
}

/// A layout as the text form tells it.
#[derive(Clone, Debug, PartialEq, Eq)]
pub struct Layout {
    pub purpose: Purpose,
    pub chosen: Option<usize>,
    pub extents: Vec<usize>,
    pub sizes: Vec<usize>,
    /// One row per operand, one stride per axis.
    pub strides: Vec<Vec<isize>>,
}

/// A walk over a plan as given: nothing is ordered, fused or cut first.
#[derive(Clone, Debug, PartialEq, Eq)]
pub struct Walk {
    pub extents: Vec<usize>,
    pub blocks: Vec<usize>,
    pub starts: Vec<isize>,
    pub strides: Vec<Vec<isize>>,
}

/// One request of the input.
#[derive(Clone, Debug, PartialEq, Eq)]
pub enum Request {
    Layout(Layout),
    Walk(Walk),
}

const GREATEST_SIGNED: u128 = i64::MAX as u128;
const GREATEST_UNSIGNED: u128 = u64::MAX as u128;

/// The sum of (extent - 1) x stride size; above 2^127 it stays at 2^128 - 1 at most.
pub fn reach(extents: &[usize], strides: &[isize]) -> u128 {
    extents
        .iter()
        .zip(strides)
        .fold(0, |sum, (&extent, &stride)| {
            let steps = extent.saturating_sub(1) as u128;
            sum.saturating_add(steps * u128::from(stride.unsigned_abs() as u64))
        })
}

/// The product of the extents, 2^128 - 1 at most.
pub fn total(extents: &[usize]) -> u128 {
    let extents = extents.iter().map(|&extent| extent as u128);
    extents.fold(1, u128::saturating_mul)
}

impl Layout {
    /// The least row of document 01's table that refuses the layout. Row 3
    /// cannot occur: the text form has one stride per axis and operand.
    pub fn refusal(&self) -> Option<u32> {
        if self.extents.len() > 64 {
            return Some(1);
        }
        if self.strides.is_empty() || self.strides.len() > 8 {
            return Some(2);
        }
        if self
            .chosen
            .is_some_and(|chosen| chosen >= self.strides.len())
        {
            return Some(4);
        }
        if self.extents.contains(&0) {
            return None;
        }
        if total(&self.extents) > GREATEST_UNSIGNED {
            return Some(5);
        }
        let mut reaches = self.strides.iter().map(|row| reach(&self.extents, row));
        if reaches.any(|reach| reach > GREATEST_SIGNED) {
            return Some(6);
        }
        None
    }

    /// Whether row 7 refused the layout, until document 02's ask 6: no row
    /// before it does, and some operand spans more than 2^63 - 1 bytes.
    pub fn wide(&self) -> bool {
        if self.refusal().is_some() || self.extents.contains(&0) {
            return false;
        }
        // Each reach is below 2^63, so each product is below 2^127.
        let bytes = |(row, &size): (&Vec<isize>, &usize)| {
            size as u128 * (1 + reach(&self.extents, row)) > GREATEST_SIGNED
        };
        self.strides.iter().zip(&self.sizes).any(bytes)
    }
}

impl Walk {
    /// The least of the rows 1, 2, 5, 6 and 9 that refuses a walk's beginning.
    pub fn refusal(&self) -> Option<u32> {
        if self.extents.len() > 64 {
            return Some(1);
        }
        if self.strides.is_empty() || self.strides.len() > 8 {
            return Some(2);
        }
        if self.extents.contains(&0) {
            return None;
        }
        if total(&self.extents) > GREATEST_UNSIGNED {
            return Some(5);
        }
        if self
            .strides
            .iter()
            .any(|row| reach(&self.extents, row) > GREATEST_SIGNED)
        {
            return Some(6);
        }
        let leaves = |(row, &start): (&Vec<isize>, &isize)| {
            // Each sum is at most the reach, which is below 2^63.
            let (mut least, mut greatest) = (start as i128, start as i128);
            for (&extent, &stride) in self.extents.iter().zip(row) {
                let way = (extent - 1) as i128 * stride as i128;
                least += way.min(0);
                greatest += way.max(0);
            }
            least < i64::MIN as i128 || greatest > i64::MAX as i128
        };
        if self.strides.iter().zip(&self.starts).any(leaves) {
            return Some(9);
        }
        None
    }

    /// Whether the original, at a zero extent, would take more than `most`
    /// turns over tiles that hold no block. It hands out nothing, but steps
    /// through the tiles of the axes outside the outermost zero extent.
    pub fn spins(&self, most: u64) -> bool {
        let Some(zero) = self.extents.iter().rposition(|&extent| extent == 0) else {
            return false;
        };
        if self.extents.len() > 8 {
            return false;
        }
        let mut turns = 1u128;
        for axis in zero + 1..self.extents.len() {
            let extent = self.extents[axis] as u128;
            let block = (self.blocks[axis] as u128).clamp(1, extent);
            turns = turns.saturating_mul(extent.div_ceil(block));
        }
        turns > u128::from(most)
    }
}

/// Appends each number with a comma before it.
pub fn write_list<T: fmt::Display>(
    out: &mut impl fmt::Write,
    list: impl IntoIterator<Item = T>,
) -> fmt::Result {
    list.into_iter().try_for_each(|item| write!(out, ",{item}"))
}

/// One text line: a word, then the numbers.
fn write_line<T: fmt::Display>(
    out: &mut fmt::Formatter<'_>,
    word: &str,
    list: impl IntoIterator<Item = T>,
) -> fmt::Result {
    out.write_str(word)?;
    write_list(out, list)?;
    out.write_str("\n")
}

impl fmt::Display for Layout {
    fn fmt(&self, out: &mut fmt::Formatter<'_>) -> fmt::Result {
        let purpose = match self.purpose {
            Purpose::Pointwise => "P",
            Purpose::Fold => "F",
        };
        let (rank, operands) = (self.extents.len(), self.strides.len());
        match self.chosen {
            Some(chosen) => writeln!(out, "L,{purpose},{rank},{operands},{chosen}")?,
            None => writeln!(out, "L,{purpose},{rank},{operands},-")?,
        }
        write_line(out, "E", &self.extents)?;
        for (size, row) in self.sizes.iter().zip(&self.strides) {
            write_line(out, &format!("O,{size}"), row)?;
        }
        Ok(())
    }
}

impl fmt::Display for Walk {
    fn fmt(&self, out: &mut fmt::Formatter<'_>) -> fmt::Result {
        writeln!(out, "W,{},{}", self.extents.len(), self.strides.len())?;
        write_line(out, "E", &self.extents)?;
        write_line(out, "S", &self.blocks)?;
        for (start, row) in self.starts.iter().zip(&self.strides) {
            write_line(out, &format!("O,{start}"), row)?;
        }
        Ok(())
    }
}

impl fmt::Display for Request {
    fn fmt(&self, out: &mut fmt::Formatter<'_>) -> fmt::Result {
        match self {
            Request::Layout(layout) => layout.fmt(out),
            Request::Walk(walk) => walk.fmt(out),
        }
    }
}

/// Reads requests one after another and tells the line of what is wrong.
pub struct Reader<R> {
    input: R,
    line: u64,
    /// The comment lines right before the request read last.
    pub comments: Vec<String>,
}

impl<R: BufRead> Reader<R> {
    pub fn new(input: R) -> Self {
        Reader {
            input,
            line: 0,
            comments: Vec::new(),
        }
    }

    /// The input, for a caller that asks whether more has arrived.
    pub fn input(&self) -> &R {
        &self.input
    }

    /// The next request, or `None` at the end of the input.
    pub fn request(&mut self) -> Result<Option<Request>, String> {
        self.comments.clear();
        let head = loop {
            match self.line()? {
                None => return Ok(None),
                Some(line) if line.is_empty() => {}
                Some(line) => break line,
            }
        };
        let fields: Vec<&str> = head.split(',').collect();
        match fields[0] {
            "L" => self
                .layout(&fields)
                .map(|layout| Some(Request::Layout(layout))),
            "W" => self.walk(&fields).map(|walk| Some(Request::Walk(walk))),
            word => Err(self.wrong(format!("a request begins with L or W, not with {word:?}"))),
        }
    }

    fn layout(&mut self, head: &[&str]) -> Result<Layout, String> {
        let [_, purpose, rank, operands, chosen] = head else {
            return Err(self.wrong(format!("L has 5 fields, not {}", head.len())));
        };
        let purpose = match *purpose {
            "P" => Purpose::Pointwise,
            "F" => Purpose::Fold,
            other => return Err(self.wrong(format!("the purpose is P or F, not {other:?}"))),
        };
        let rank = self.unsigned("the rank", rank)?;
        let operands = self.unsigned("the operand count", operands)?;
        let chosen = match *chosen {
            "-" if purpose == Purpose::Pointwise => None,
            "-" => return Err(self.wrong("F needs a chosen operand, not \"-\"".to_string())),
            number => Some(self.unsigned("the chosen operand", number)?),
        };
        let extents = self.list("E", "extent", rank, Self::unsigned)?;
        let (mut sizes, mut strides) = (Vec::new(), Vec::new());
        for _ in 0..operands {
            let (size, row) = self.operand("size", rank, Self::unsigned)?;
            sizes.push(size);
            strides.push(row);
        }
        Ok(Layout {
            purpose,
            chosen,
            extents,
            sizes,
            strides,
        })
    }

    fn walk(&mut self, head: &[&str]) -> Result<Walk, String> {
        let [_, rank, operands] = head else {
            return Err(self.wrong(format!("W has 3 fields, not {}", head.len())));
        };
        let rank = self.unsigned("the rank", rank)?;
        let operands = self.unsigned("the operand count", operands)?;
        let extents = self.list("E", "extent", rank, Self::unsigned)?;
        let blocks = self.list("S", "block", rank, Self::unsigned)?;
        let (mut starts, mut strides) = (Vec::new(), Vec::new());
        for _ in 0..operands {
            let (start, row) = self.operand("start", rank, Self::signed)?;
            starts.push(start);
            strides.push(row);
        }
        Ok(Walk {
            extents,
            blocks,
            starts,
            strides,
        })
    }

    /// The rest of a line that has to begin with `word`.
    fn fields(&mut self, word: &str) -> Result<Vec<String>, String> {
        let Some(line) = self.line()? else {
            self.line += 1;
            return Err(self.wrong(format!("the input ends where line {word} was due")));
        };
        let mut fields = line.split(',').map(str::to_string);
        match fields.next() {
            Some(first) if first == word => Ok(fields.collect()),
            _ => Err(self.wrong(format!("line {word} was due, not {line:?}"))),
        }
    }

    fn list<T>(
        &mut self,
        word: &str,
        name: &str,
        rank: usize,
        number: impl Fn(&Self, &str, &str) -> Result<T, String>,
    ) -> Result<Vec<T>, String> {
        let fields = self.fields(word)?;
        self.numbers(&fields, name, rank, number)
    }

    /// An O line: its first number, and its strides.
    fn operand<T>(
        &mut self,
        name: &str,
        rank: usize,
        number: impl Fn(&Self, &str, &str) -> Result<T, String>,
    ) -> Result<(T, Vec<isize>), String> {
        let fields = self.fields("O")?;
        let Some((first, strides)) = fields.split_first() else {
            return Err(self.wrong(format!("line O has no {name}")));
        };
        let first = number(self, &format!("the {name}"), first)?;
        let strides = self.numbers(strides, "stride", rank, Self::signed)?;
        Ok((first, strides))
    }

    fn numbers<T>(
        &self,
        fields: &[String],
        name: &str,
        rank: usize,
        number: impl Fn(&Self, &str, &str) -> Result<T, String>,
    ) -> Result<Vec<T>, String> {
        if fields.len() != rank {
            let given = fields.len();
            return Err(self.wrong(format!("one {name} per axis is due: {rank}, not {given}")));
        }
        let read = |(axis, field): (usize, &String)| {
            number(self, &format!("the {name} of axis {axis}"), field)
        };
        fields.iter().enumerate().map(read).collect()
    }

    fn unsigned(&self, name: &str, field: &str) -> Result<usize, String> {
        self.decimal(name, field, field)?;
        let out_of_range = |_| self.wrong(format!("{name} is not below 2^64: {field}"));
        field.parse().map_err(out_of_range)
    }

    fn signed(&self, name: &str, field: &str) -> Result<isize, String> {
        let digits = field.strip_prefix('-').unwrap_or(field);
        self.decimal(name, field, digits)?;
        if field == "-0" {
            return Err(self.wrong(format!("{name} is \"-0\"")));
        }
        let out_of_range = |_| self.wrong(format!("{name} is not a signed 64-bit number: {field}"));
        field.parse().map_err(out_of_range)
    }

    fn decimal(&self, name: &str, field: &str, digits: &str) -> Result<(), String> {
        if digits.is_empty() || !digits.bytes().all(|byte| byte.is_ascii_digit()) {
            return Err(self.wrong(format!("{name} is not a decimal number: {field:?}")));
        }
        if digits.len() > 1 && digits.starts_with('0') {
            return Err(self.wrong(format!("{name} has a leading zero: {field:?}")));
        }
        Ok(())
    }

    /// The next line that is no comment, without its LF.
    fn line(&mut self) -> Result<Option<String>, String> {
        loop {
            let mut bytes = Vec::new();
            let read = self.input.read_until(b'\n', &mut bytes);
            read.map_err(|error| format!("the input cannot be read: {error}"))?;
            if bytes.is_empty() {
                return Ok(None);
            }
            self.line += 1;
            if bytes.pop() != Some(b'\n') {
                return Err(self.wrong("the line does not end in LF".to_string()));
            }
            let text = String::from_utf8(bytes);
            let text = text.map_err(|_| self.wrong("the line is not UTF-8".to_string()))?;
            if !text.starts_with('#') {
                return Ok(Some(text));
            }
            self.comments.push(text);
        }
    }

    fn wrong(&self, what: String) -> String {
        format!("line {}: {what}", self.line)
    }
}

/// All requests of a text, each with the comments right before it.
pub fn read_all(text: &str) -> Result<Vec<(Vec<String>, Request)>, String> {
    let mut reader = Reader::new(text.as_bytes());
    let mut all = Vec::new();
    while let Some(request) = reader.request()? {
        all.push((reader.comments.clone(), request));
    }
    Ok(all)
}
