//! P13: answers to the bridge.

mod exchange;
mod table;
mod text;

use independent::requests::texts::{is_refusal, Texts};

/// The number's own words; of the lengths 1 and 80 too.
fn words(number: u32) -> String {
    match number {
        1 => "R".into(),
        2 => format!("{:~<80}", "The longest text, with every kind of sign: !#$%&'()*+,-./:;<=>?@[]^_`{}"),
        _ => format!("Refusal {number}{}", ".".repeat(number as usize)),
    }
}

const OTHER: &str = "No refusal of this number";

/// A row for each refusal, and one for the other numbers.
fn rows() -> Vec<String> {
    let own = (1..30).filter(|&number| is_refusal(number));
    let own = own.map(|number| format!("| {number} | {} |", words(number)));
    own.chain([format!("| other | {OTHER} |")]).collect()
}

/// A page with these rows between other lines.
fn page(rows: &[String]) -> String {
    let head = "# Texts\n\n| Refusal | Meaning |\n|---|---|\n| 1 | another table |\n\nWords.\n\n";
    format!("{head}| number | text |\n|---|---|\n{}\n\nMore words.\n| 1 | not a row |\n", rows.join("\n"))
}

/// Does something with the texts of that page.
fn with_texts<T>(does: impl FnOnce(&Texts) -> T) -> T {
    let page = page(&rows());
    does(&Texts::read(&page).expect("a good page"))
}
