//! Rows of register numbers in SIXEL, in each order that writers have.
use std::fmt::Write;

/// The register of each pixel, row by row.
pub type Rows = Vec<Vec<u8>>;

#[derive(Clone, Copy)]
pub enum Order {
    /// Each register of a band in turn, `$` between, as encoders write: a byte for each column.
    Columns,
    /// The same with repeats from four on.
    Repeats,
    /// Along a band, the register before each column; again from the left for columns that have several.
    RegisterEachColumn,
    /// The same with the register only where it changes.
    RegisterChanges,
}

const BAND: usize = 6;

pub fn encode(rows: &Rows, order: Order) -> String {
    let mut text = String::new();
    for band in rows.chunks(BAND) {
        match order {
            Order::Columns => by_register(&mut text, band, false),
            Order::Repeats => by_register(&mut text, band, true),
            Order::RegisterEachColumn => along(&mut text, band, true),
            Order::RegisterChanges => along(&mut text, band, false),
        }
        text.push('-');
    }
    text
}

fn by_register(text: &mut String, band: &[Vec<u8>], with_repeats: bool) {
    let width = band[0].len();
    let mut bits = vec![Vec::new(); 256];
    for (y, row) in band.iter().enumerate() {
        for (x, &register) in row.iter().enumerate() {
            let bits = &mut bits[usize::from(register)];
            bits.resize(width, 0_u8);
            bits[x] |= 1 << y;
        }
    }
    let used = bits.iter().enumerate().filter(|(_, bits)| !bits.is_empty());
    for (index, (register, bits)) in used.enumerate() {
        text.push_str(if index > 0 { "$" } else { "" });
        write!(text, "#{register}").unwrap();
        let last = bits.iter().rposition(|&bits| bits != 0).map_or(0, |x| x + 1);
        for run in bits[..last].chunk_by(|one, next| one == next) {
            push_run(text, run, with_repeats);
        }
    }
}

fn push_run(text: &mut String, run: &[u8], with_repeats: bool) {
    let sixel = (63 + run[0]) as char;
    if with_repeats && run.len() > 3 {
        write!(text, "!{}{sixel}", run.len()).unwrap();
    } else {
        run.iter().for_each(|_| text.push(sixel));
    }
}

/// A column's registers from the top, each with its bits.
fn strokes(band: &[Vec<u8>], x: usize) -> Vec<(u8, u8)> {
    let mut strokes: Vec<(u8, u8)> = Vec::new();
    for (y, row) in band.iter().enumerate() {
        match strokes.iter_mut().find(|(register, _)| *register == row[x]) {
            Some((_, bits)) => *bits |= 1 << y,
            None => strokes.push((row[x], 1 << y)),
        }
    }
    strokes
}

fn along(text: &mut String, band: &[Vec<u8>], before_each: bool) {
    let columns: Vec<_> = (0..band[0].len()).map(|x| strokes(band, x)).collect();
    let layers = columns.iter().map(Vec::len).max().unwrap_or(0);
    for layer in 0..layers {
        text.push_str(if layer > 0 { "$" } else { "" });
        let last = columns.iter().rposition(|column| column.len() > layer).map_or(0, |x| x + 1);
        let mut current = None;
        for column in &columns[..last] {
            let Some(&(register, bits)) = column.get(layer) else {
                text.push('?');
                continue;
            };
            if before_each || current != Some(register) {
                write!(text, "#{register}").unwrap();
            }
            current = Some(register);
            text.push((63 + bits) as char);
        }
    }
}

#[cfg(test)]
mod tests {
    use super::{encode, Order};

    /// One band of two rows, worked out by hand in each order.
    #[test]
    fn orders_are_as_named() {
        let rows = vec![vec![1, 1, 1, 1, 2], vec![1, 1, 1, 1, 1]];
        let text = |order| encode(&rows, order);
        assert_eq!(text(Order::Columns), "#1BBBBA$#2????@-");
        assert_eq!(text(Order::Repeats), "#1!4BA$#2!4?@-");
        assert_eq!(text(Order::RegisterEachColumn), "#1B#1B#1B#1B#2@$????#1A-");
        assert_eq!(text(Order::RegisterChanges), "#1BBBB#2@$????#1A-");
    }
}
