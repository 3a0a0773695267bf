//! Tables as docs/SPEED.md has them, so that they can be pasted there.

pub fn heading(title: &str, cells: &[&str]) {
    println!("\n### {title}\n");
    println!("| {} |", cells.join(" | "));
    println!("|{}", "---|".repeat(cells.len()));
}

pub fn row(name: &str, cells: &[String]) {
    println!("| {name} | {} |", cells.join(" | "));
}

/// A whole number with a comma before every three digits.
pub fn grouped(number: u64) -> String {
    let digits = number.to_string();
    let first = digits.len() % 3;
    let (head, tail) = digits.split_at(first);
    let groups = tail.as_bytes().chunks(3).map(|group| String::from_utf8_lossy(group).into_owned());
    let head = (!head.is_empty()).then(|| head.to_owned());
    head.into_iter().chain(groups).collect::<Vec<_>>().join(",")
}

/// A dash is for who did not take part.
pub fn microseconds(time: f64) -> String {
    if time.is_finite() {
        grouped((time * 1e6).round() as u64)
    } else {
        "-".into()
    }
}

/// How many times as fast as the first the second is.
pub fn over(theirs: f64, mine: f64) -> String {
    format!("{:.2}", theirs / mine)
}

#[cfg(test)]
mod tests {
    use super::{grouped, microseconds};

    #[test]
    fn numbers_are_grouped_by_three() {
        assert_eq!([0, 12, 999, 1_000, 166_091, 3_145_728].map(grouped).join(" "), "0 12 999 1,000 166,091 3,145,728");
        assert_eq!(microseconds(f64::INFINITY), "-");
    }
}
