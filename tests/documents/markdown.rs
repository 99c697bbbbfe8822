//! A document as blocks of text, with what stands in backticks and the links, and as lines of code.

use std::ops::Range;

/// A heading, a row of a table, an item of a list or a paragraph: its first line's number, and its text, whose lines
/// have lost their indentation.
pub struct Block {
    line: usize,
    pub text: String,
}

/// What stands in backticks, with its place in the block, the backticks included.
pub struct Span {
    pub line: usize,
    pub text: String,
    pub place: Range<usize>,
}

pub struct Document {
    /// From the repository's root.
    pub path: String,
    pub blocks: Vec<Block>,
    /// The lines of code blocks, with their numbers.
    pub code: Vec<(usize, String)>,
}

/// Whether a line starts a block by itself: a heading, a row, a quotation or an item.
fn starts(line: &str) -> bool {
    let item = line.trim_start_matches(|c: char| c.is_ascii_digit());
    line.starts_with(['#', '|', '>']) || line.starts_with("- ") || item.len() < line.len() && item.starts_with(". ")
}

impl Document {
    pub fn new(path: &str, text: &str) -> Document {
        let mut document = Document { path: path.to_string(), blocks: Vec::new(), code: Vec::new() };
        let (mut fenced, mut blank, mut indented) = (false, true, false);
        for (number, line) in text.lines().enumerate() {
            let trimmed = line.trim();
            indented = line.starts_with("    ") && (blank || indented) && !starts(trimmed);
            let fence = trimmed.starts_with("```");
            fenced ^= fence;
            let code = fenced || fence || indented;
            if code {
                document.code.push((number + 1, trimmed.to_string()));
            } else if !trimmed.is_empty() {
                document.add(number + 1, trimmed, blank || starts(trimmed));
            }
            blank = code || trimmed.is_empty();
        }
        document
    }

    /// Adds a line, to the last block or as the first one of another.
    fn add(&mut self, number: usize, line: &str, starts: bool) {
        match self.blocks.last_mut() {
            Some(block) if !starts => block.text += &format!("\n{line}"),
            _ => self.blocks.push(Block { line: number, text: line.to_string() }),
        }
    }

    /// Where a failure is.
    pub fn at(&self, line: usize, what: &str) -> String {
        format!("{}:{line}: {what}", self.path)
    }

    /// All that stands in backticks.
    pub fn spans(&self) -> impl Iterator<Item = Span> + '_ {
        self.blocks.iter().flat_map(Block::spans)
    }

    /// The headings, as a link names them: in small letters, with hyphens for spaces and no other signs.
    pub fn anchors(&self) -> Vec<String> {
        let headings = self.blocks.iter().filter(|block| block.text.starts_with('#'));
        let kept = |c: &char| c.is_alphanumeric() || matches!(c, ' ' | '-' | '_');
        let anchor = |text: &str| text.trim_start_matches('#').trim().to_lowercase().chars().filter(kept).collect();
        headings.map(|block| anchor(&block.text)).map(|text: String| text.replace(' ', "-")).collect()
    }
}

impl Block {
    /// The number of the line that has the block's byte at this place.
    pub fn line_at(&self, place: usize) -> usize {
        self.line + self.text[..place].matches('\n').count()
    }

    /// Whether each backtick has its pair, and none is doubled, which would be read otherwise.
    pub fn is_paired(&self) -> bool {
        self.text.matches('`').count() % 2 == 0 && !self.text.contains("``")
    }

    /// What stands in backticks, a line's end in it being a space.
    pub fn spans(&self) -> Vec<Span> {
        let ticks: Vec<usize> = self.text.match_indices('`').map(|(place, _)| place).collect();
        let span = |pair: &[usize]| Span {
            line: self.line_at(pair[0]),
            text: self.text[pair[0] + 1..pair[1]].replace('\n', " "),
            place: pair[0]..pair[1] + 1,
        };
        ticks.chunks_exact(2).map(span).collect()
    }

    /// The text with spaces for what stands in backticks.
    fn plain(&self) -> String {
        self.spans().iter().fold(self.text.clone(), |mut text, span| {
            text.replace_range(span.place.clone(), &" ".repeat(span.place.len()));
            text
        })
    }

    /// The links' targets, with their lines.
    pub fn links(&self) -> Vec<(usize, String)> {
        let plain = self.plain();
        let ends = plain.match_indices("](").map(|(place, _)| place + 2);
        let target = |from: usize| plain[from..].split(')').next().unwrap_or("").to_string();
        ends.map(|from| (self.line_at(from), target(from))).collect()
    }

    /// The cells of a table's row, with the line; none of any other block.
    pub fn cells(&self) -> Vec<(usize, &str)> {
        if !self.text.starts_with('|') {
            return Vec::new();
        }
        let plain = self.plain();
        let bars: Vec<usize> = plain.match_indices('|').map(|(place, _)| place).collect();
        bars.windows(2).map(|pair| (self.line, self.text[pair[0] + 1..pair[1]].trim())).collect()
    }
}
