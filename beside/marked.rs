//! The made part of a page: what stands between `<!-- made by MARK -->` and `<!-- end -->`.

/// The head of both tables of smallest inputs in docs/DIFFERENCES.md.
pub const DIFFERENCES: [&str; 2] = ["| # | call | input | here | the Rust |", "|---|---|---|---|---|"];

fn part(text: &str, mark: &str) -> Option<(usize, usize)> {
    let head = format!("<!-- made by {mark} -->\n");
    let from = text.find(&head)? + head.len();
    Some((from, from + text[from..].find("<!-- end -->")?))
}

/// Whether the part is this table, once it is written where that is asked for.
pub fn holds(page: &str, mark: &str, table: &[String], write: bool) -> bool {
    let text = std::fs::read_to_string(page).unwrap_or_default();
    let Some((from, to)) = part(&text, mark) else {
        println!("{page}: NOTHING IN IT is made by {mark}");
        return false;
    };
    let made = format!("\n{}\n\n", table.join("\n"));
    if text[from..to] == made {
        return true;
    }
    if write {
        return std::fs::write(page, [&text[..from], &made, &text[to..]].concat()).is_ok();
    }
    println!("{page}: what is made by {mark} IS ANOTHER: run it with --page");
    false
}
