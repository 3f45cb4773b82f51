//! A report as one HTML file: the summary, and a table that sorts by its headings.

use crate::report::{summary, Row};
use crate::svg::escaped;
use visorlongan::Verdict;

const STYLE: &str = "\
body { margin: 1.5em; font: 14px DejaVu Sans, Verdana, sans-serif; color: #222; }
h1 { font-size: 20px; }
table { border-collapse: collapse; }
th { position: sticky; top: 0; background: #fff; text-align: left; border-bottom: 2px solid #222; }
th button { font: inherit; font-weight: bold; border: 0; background: none; padding: 4px; cursor: pointer; }
th[aria-sort=ascending] button::after { content: ' ▴'; }
th[aria-sort=descending] button::after { content: ' ▾'; }
td { padding: 3px 8px; border-bottom: 1px solid #ddd; vertical-align: middle; }
td.n { text-align: right; font-variant-numeric: tabular-nums; }
tr.refused td { background: #fbe3e1; }
img { display: block; background: #f3f3f3; image-rendering: pixelated; }
small { color: #666; }
";

/// Sorts by a heading: numbers as numbers, the same heading again the other way.
const SCRIPT: &str = "\
const body = document.querySelector('tbody');
document.querySelectorAll('th button').forEach((button, column) => button.addEventListener('click', () => {
  const th = button.parentElement, up = th.getAttribute('aria-sort') !== 'ascending';
  document.querySelectorAll('th').forEach(other => other.removeAttribute('aria-sort'));
  th.setAttribute('aria-sort', up ? 'ascending' : 'descending');
  const key = row => { const k = row.cells[column + 1].dataset.key; return k === undefined ? row.cells[column + 1].textContent : Number(k); };
  const rows = [...body.rows].map(row => [key(row), row]);
  rows.sort(([a], [b]) => (typeof a === 'number' ? a - b : a.localeCompare(b)) * (up ? 1 : -1));
  body.append(...rows.map(([, row]) => row));
}));
";

const HEADINGS: [&str; 9] = [
    "name",
    "verdict",
    "entries",
    "rectangles",
    "largest load, words",
    "worst drift, 1/1,024 row",
    "seams that show",
    "lines not drawn",
    "columns not drawn",
];

/// `unread` says of each file that is no request what is wrong with it.
pub fn html(name: &str, rows: &[Row], unread: &[String]) -> String {
    let title = escaped(&format!("Backgrounds of {name}"));
    let lines = |lines: &[String]| -> String {
        let items = lines
            .iter()
            .map(|line| format!("<li>{}</li>\n", escaped(line)));
        items.collect()
    };
    let headings: String = HEADINGS
        .iter()
        .map(|name| format!("<th><button>{name}</button></th>"))
        .collect();
    let table: String = rows.iter().map(line).collect();
    let mut page = format!(
        "<!DOCTYPE html>\n<html lang=\"en\">\n<head>\n<meta charset=\"utf-8\">\n<title>{title}</title>\n\
         <style>\n{STYLE}</style>\n</head>\n<body>\n<h1>{title}</h1>\n<ul>\n{}</ul>\n",
        lines(&summary(rows))
    );
    if !unread.is_empty() {
        page.push_str(&format!("<p>Not read:</p>\n<ul>\n{}</ul>\n", lines(unread)));
    }
    page.push_str(&format!(
        "<table>\n<thead><tr><th></th>{headings}</tr></thead>\n<tbody>\n{table}</tbody>\n</table>\n\
         <script>\n{SCRIPT}</script>\n</body>\n</html>\n"
    ));
    page
}

fn line(row: &Row) -> String {
    let end = row.end;
    let number = |number: i64| format!("<td class=\"n\" data-key=\"{number}\">{number}</td>");
    let drift = match row.worst {
        Some(drift) => {
            let mark = if row.proved {
                ""
            } else {
                " <small>no limits proved</small>"
            };
            format!(
                "<td class=\"n\" data-key=\"{}\">{:+}{mark}</td>",
                drift.distance.abs(),
                drift.distance
            )
        }
        None => "<td class=\"n\" data-key=\"-1\"></td>".to_string(),
    };
    let class = if end.verdict == Verdict::Finished {
        ""
    } else {
        " class=\"refused\""
    };
    format!(
        "<tr{class}><td>{}</td><td>{}<br><small>{}</small></td><td data-key=\"{}\">{}: {}</td>{}{}{}{drift}{}{}{}</tr>\n",
        image(row.thumbnail.as_ref()),
        escaped(&row.name),
        escaped(&row.facts),
        end.verdict.number(),
        end.verdict.number(),
        escaped(end.verdict.sentence()),
        number(end.entries as i64),
        number(end.rectangles as i64),
        number(end.tile_words as i64),
        number(row.seams_that_show as i64),
        number(row.lines_not_drawn as i64),
        number(row.columns_not_drawn as i64),
    )
}

fn image(thumbnail: Option<&String>) -> String {
    thumbnail.map_or(String::new(), |data| {
        format!("<img width=\"80\" alt=\"\" src=\"{data}\">")
    })
}
