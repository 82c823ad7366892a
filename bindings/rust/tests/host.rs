//! What the example host prints: all of it for nine plans, the summaries for its
//! three hundred.

#[allow(dead_code)]
#[path = "../examples/host.rs"]
mod host;

use host::Folder;

fn told(plans: usize, folder: &str) -> String {
    let folder = Folder::new(folder).expect("a folder");
    let mut out = Vec::new();
    host::run(plans, &folder.0, &mut out).expect("a run to the end");
    String::from_utf8(out).expect("text")
}

#[test]
fn nine_plans_are_told_line_by_line() {
    assert_eq!(told(9, "sinewhopa-nine"), include_str!("host.stdout"));
}

/// The lines of the summary that ends before the line of that start, or at the end.
fn summary<'a>(lines: &[&'a str], before: &str) -> Vec<&'a str> {
    let end = lines.iter().position(|line| line.starts_with(before));
    let end = end.unwrap_or(lines.len());
    lines[end - 9..end].to_vec()
}

#[test]
fn three_hundred_plans_are_summed_up() {
    let told = told(300, "sinewhopa-many");
    let lines: Vec<&str> = told.lines().collect();
    let summaries = [
        summary(&lines, "restarted with 300 plans"),
        summary(&lines, "no such line"),
    ];
    let half = "plans 300|open 661|held 142|done 437|refused 31|lapsed 285|forced 44|broken rules 6|calls turned down 97";
    let all = "plans 300|open 0|held 0|done 901|refused 121|lapsed 528|forced 50|broken rules 12|calls turned down 133";
    assert_eq!(summaries.map(|lines| lines.join("|")), [half, all]);
}
