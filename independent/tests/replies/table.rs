//! The table of texts.

use super::*;
use independent::requests::texts::NoTexts;

#[test]
fn every_text_is_read() {
    with_texts(|texts| {
        for number in 1..=14 {
            assert_eq!(texts.of(number), words(number));
        }
        for number in 20..=29 {
            assert_eq!(texts.of(number), words(number));
        }
        for number in [0, 15, 16, 17, 18, 19, 30, 31, 255, 256, 257, 65_535, 65_536, 65_537, u32::MAX] {
            assert_eq!(texts.of(number), OTHER);
        }
    });
    assert_eq!((words(1).len(), words(2).len()), (1, 80));
}

#[test]
fn the_order_of_rows_and_the_blanks_in_them_are_free() {
    let good = page(&rows());
    let mut turned = rows();
    turned.reverse();
    let turned = page(&turned).replace("| number | text |\n|---|---|", " |Number|Text|  \n| :-- | --: |");
    let wider = good.replace("\n| ", "\n  |   ").replace(" |\n", "    |  \r\n");
    assert_ne!(wider, good);
    for other in [turned, wider, good.replace("| 1 | not a row |", "")] {
        assert_eq!(Texts::read(&other), Texts::read(&good));
    }
}

fn refused(rows: &[String]) -> String {
    let page = page(rows);
    format!("{:?}", Texts::read(&page).expect_err("no texts"))
}

#[test]
fn a_row_that_is_missing_or_there_twice() {
    let rows = rows();
    for (k, row) in rows.iter().enumerate() {
        let mut fewer = rows.clone();
        fewer.remove(k);
        let name = row.split(' ').nth(1).unwrap();
        let missing = if name == "other" { "OtherMissing".into() } else { format!("Missing({name})") };
        assert_eq!(refused(&fewer), missing);
        let twice = [&rows[..], &[format!("| {name} | again |")]].concat();
        assert_eq!(refused(&twice), format!("Twice(\"| {name} | again |\")"));
    }
}

#[test]
fn rows_that_cannot_be_read() {
    let too_long = format!("| 3 | {} |", "a".repeat(81));
    let bad = [
        "| 3 |  |",
        "| 3 |",
        "| 3 | a | b |",
        "| 3 | a",
        "|",
        "| 0 | accepted |",
        "| 15 | a |",
        "| 19 | a |",
        "| 30 | a |",
        "| 259 | a |",
        "| -3 | a |",
        "| +3 | a |",
        "| 03 | a |",
        "| 3. | a |",
        "| three | a |",
        "| Other | a |",
        "|  | a |",
        "| 3 | a\tb |",
        "| 3 | Träger |",
        &too_long,
    ];
    for row in bad {
        let mut others = rows();
        others[2] = row.into();
        assert_eq!(refused(&others), format!("BadRow({row:?})"));
    }
}

#[test]
fn a_page_without_the_table() {
    let none = [
        "",
        "# Texts\n",
        "| number | text |",
        "| number | text |\n| 1 | a |\n",
        "| number | texts |\n|---|---|\n",
    ];
    for page in none {
        assert_eq!(Texts::read(page), Err(NoTexts::NoTable));
    }
    assert_eq!(Texts::read("| number | text |\n|---|---|\n"), Err(NoTexts::Missing(1)));
}
