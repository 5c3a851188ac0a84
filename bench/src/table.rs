//! The rows as Markdown.

use crate::pairs::Row;

/// Milliseconds of both sides, their ratio and its spread.
pub fn timed(title: &str, rows: &[Row]) -> String {
    if rows.is_empty() {
        return String::new();
    }
    let mut text = format!("\n### {title}\n\n");
    text += "| what | frame | vendor, ms | ours, ms | ratio | spread | rounds |\n";
    text += "|---|---|---:|---:|---:|---:|---:|\n";
    for row in rows {
        let (vendor, ours) = (1e3 * row.times.other(), 1e3 * row.times.ours());
        let (low, high) = row.times.spread();
        text += &format!(
            "| {} | {} | {vendor:.2} | {ours:.2} | {:.2} | {low:.2} to {high:.2} | {} |\n",
            row.what,
            row.frame,
            row.times.ratio(),
            row.times.rounds()
        );
    }
    text
}

/// The same by size, with nanoseconds a pixel.
pub fn grown(title: &str, rows: &[Row]) -> String {
    if rows.is_empty() {
        return String::new();
    }
    let mut text = format!("\n### {title}\n\n");
    text += "| frame | size | vendor, ms | vendor, ns a pixel | ours, ms | ours, ns a pixel | ratio | spread | rounds |\n";
    text += "|---|---|---:|---:|---:|---:|---:|---:|---:|\n";
    for row in rows {
        let (vendor, ours) = (row.times.other(), row.times.ours());
        let (low, high) = row.times.spread();
        let area = (row.sides.0 * row.sides.1) as f64;
        text += &format!(
            "| {} | {} by {} | {:.2} | {:.1} | {:.2} | {:.1} | {:.2} | {low:.2} to {high:.2} | {} |\n",
            row.frame,
            row.sides.0,
            row.sides.1,
            1e3 * vendor,
            1e9 * vendor / area,
            1e3 * ours,
            1e9 * ours / area,
            row.times.ratio(),
            row.times.rounds()
        );
    }
    text
}

/// Where ours is slower, by the medians.
pub fn slower(tables: &[&[Row]]) -> String {
    let all: Vec<&Row> = tables.iter().flat_map(|rows| rows.iter()).collect();
    let slow: Vec<&&Row> = all.iter().filter(|row| row.times.ratio() > 1.0).collect();
    let mut text = format!("\n### Where ours is slower by the medians\n\nIn {} of {} rows the ratio is over 1", slow.len(), all.len());
    text += if slow.is_empty() { ".\n" } else { ":\n\n" };
    for row in slow {
        text += &format!("- {}, {}: {:.2}\n", row.what, row.frame, row.times.ratio());
    }
    text
}

/// Two of one kind, by their names: milliseconds of both, the second over the first, and its spread.
pub fn compared(title: &str, (first, second): (&str, &str), rows: &[Row]) -> String {
    if rows.is_empty() {
        return String::new();
    }
    let mut text = format!("\n### {title}\n\n");
    text += &format!("| what | frame | {first}, ms | {second}, ms | {second} / {first} | spread | rounds |\n");
    text += "|---|---|---:|---:|---:|---:|---:|\n";
    for row in rows {
        let (low, high) = row.times.spread();
        text += &format!(
            "| {} | {} | {:.3} | {:.3} | {:.3} | {low:.3} to {high:.3} | {} |\n",
            row.what,
            row.frame,
            1e3 * row.times.other(),
            1e3 * row.times.ours(),
            row.times.ratio_in_rounds(),
            row.times.rounds()
        );
    }
    text
}
