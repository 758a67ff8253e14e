//! P13: the texts of the refusals, which a page has in a table.

/// The most characters of a text.
pub const LONGEST_TEXT: usize = 80;

/// One more than the highest refusal.
const REFUSALS: usize = 30;

/// Whether a refusal has this number, and so a text of its own.
#[inline]
pub const fn is_refusal(number: u32) -> bool {
    matches!(number, 1..=14 | 20..=29)
}

/// The texts, as the page has them.
#[derive(Clone, Copy, PartialEq, Eq, Debug)]
pub struct Texts<'a> {
    /// At each refusal's number; empty at the others.
    own: [&'a str; REFUSALS],
    /// Of every number that no refusal has.
    other: &'a str,
}

/// Why a page gives no texts. A row is given as the page has it.
#[derive(Clone, Copy, PartialEq, Eq, Debug)]
pub enum NoTexts<'a> {
    /// No line `| number | text |` with a line of dashes below it.
    NoTable,
    /// Not two cells, or no such number, or a text that isn't 1 to 80 ASCII characters.
    BadRow(&'a str),
    Twice(&'a str),
    Missing(u32),
    OtherMissing,
}

impl<'a> Texts<'a> {
    /// The table of a page: below `| number | text |` and a line of dashes, a row for each refusal and
    /// one for `other`, in any order. It ends at the first line that is no row.
    pub fn read(page: &'a str) -> Result<Texts<'a>, NoTexts<'a>> {
        let mut lines = page.lines();
        let begun = lines.by_ref().filter_map(cells).any(is_head);
        if !begun || !lines.next().is_some_and(is_dashes) {
            return Err(NoTexts::NoTable);
        }
        let mut texts = Texts { own: [""; REFUSALS], other: "" };
        for row in lines.take_while(|line| line.trim_start().starts_with('|')) {
            texts.take(row)?;
        }
        match (1..REFUSALS as u32).find(|&n| is_refusal(n) && texts.own[n as usize].is_empty()) {
            Some(number) => Err(NoTexts::Missing(number)),
            None if texts.other.is_empty() => Err(NoTexts::OtherMissing),
            None => Ok(texts),
        }
    }

    /// The text that goes with a number other than 0.
    #[inline]
    pub fn of(&self, number: u32) -> &'a str {
        if is_refusal(number) {
            self.own[number as usize]
        } else {
            self.other
        }
    }

    fn take(&mut self, row: &'a str) -> Result<(), NoTexts<'a>> {
        let bad = NoTexts::BadRow(row);
        let [name, text] = cells(row).ok_or(bad)?;
        if !(1..=LONGEST_TEXT).contains(&text.len())
            || !text.bytes().all(|byte| (0x20..=0x7E).contains(&byte))
        {
            return Err(bad);
        }
        let place = match name {
            "other" => &mut self.other,
            _ => &mut self.own[refusal(name).ok_or(bad)?],
        };
        if !place.is_empty() {
            return Err(NoTexts::Twice(row));
        }
        *place = text;
        Ok(())
    }
}

/// The number of a refusal, written without sign or zeros before it.
fn refusal(cell: &str) -> Option<usize> {
    let number = cell.parse().ok().filter(|&number| is_refusal(number))?;
    (!cell.starts_with(['+', '0'])).then_some(number as usize)
}

/// The two cells of a line between three bars, without the blanks around each.
fn cells(line: &str) -> Option<[&str; 2]> {
    let row = line.trim().strip_prefix('|')?.strip_suffix('|')?;
    let (one, other) = row.split_once('|')?;
    (!other.contains('|')).then(|| [one.trim(), other.trim()])
}

fn is_head([one, other]: [&str; 2]) -> bool {
    one.eq_ignore_ascii_case("number") && other.eq_ignore_ascii_case("text")
}

fn is_dashes(line: &str) -> bool {
    cells(line).is_some_and(|cells| {
        cells.iter().all(|cell| cell.contains('-') && cell.trim_matches([':', '-']).is_empty())
    })
}
