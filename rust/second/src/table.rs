//! Tables of rows: the check, and the rows of a table that passed it.

use crate::limits::{within, MOST_ROWS, MOST_WIDTH};
use crate::refusal::Refusal;

/// A row, with zeros at the settings beyond its width.
///
/// All rows of a table have one width, so the zeros change neither equality nor order, and
/// minimum, maximum and median leave them zero.
pub(crate) type Row = [u8; MOST_WIDTH];

/// A table that passed the check.
pub(crate) struct Table {
    pub n: u8,
    pub l: usize,
    pub rows: Vec<Row>,
}

impl Table {
    /// Refusals 1 to 5 in order, else the table.
    pub fn checked(n: u64, l: u64, table: &[u8]) -> Result<Table, Refusal> {
        let (n, l) = within(n, l).ok_or(Refusal::Limits)?;
        if !table.len().is_multiple_of(l) {
            return Err(Refusal::TableLength);
        }
        let rows = (table.len() / l) as u64;
        if rows > MOST_ROWS {
            return Err(Refusal::TooManyRows { rows });
        }
        if let Some(place) = table.iter().position(|value| *value >= n) {
            let place = place as u64;
            return Err(Refusal::TableValue { place });
        }
        let rows: Vec<Row> = table.chunks(l).map(padded).collect();
        if let Some(earlier) = rows.windows(2).position(|pair| pair[0] >= pair[1]) {
            let row = earlier as u64 + 1;
            return Err(Refusal::RowOrder { row });
        }
        Ok(Table { n, l, rows })
    }
}

fn padded(values: &[u8]) -> Row {
    std::array::from_fn(|setting| values.get(setting).copied().unwrap_or(0))
}

/// Checks a table of `n` values a setting and `l` settings a row; gives the number of rows.
pub fn check(n: u64, l: u64, table: &[u8]) -> Result<u64, Refusal> {
    Table::checked(n, l, table).map(|table| table.rows.len() as u64)
}
