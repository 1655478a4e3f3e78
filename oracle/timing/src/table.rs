//! The tables, as Markdown.
use std::collections::HashMap;

pub struct Row {
    pub name: String,
    pub ours: f64,
    pub soft: f64,
    /// Of the Rust over the processor's AES instructions, where the row has AES and the processor has them.
    pub hard: Option<f64>,
    /// What ours / soft is to be at most, where there is a goal.
    pub goal: Option<f64>,
}

pub fn read(said: &str) -> HashMap<String, f64> {
    let line = |l: &str| l.split_once('\t').map(|(name, ns)| (name.to_string(), ns.parse().unwrap()));
    said.lines().filter_map(line).collect()
}

fn ns(x: f64) -> String {
    if x < 100.0 { format!("{x:.1}") } else { format!("{x:.0}") }
}

pub fn print(rows: &[Row], openssl_soft: &HashMap<String, f64>, openssl_hard: &HashMap<String, f64>) {
    println!("| ns a call | proved | Rust | ratio | Rust, instructions | ratio | OpenSSL, software | OpenSSL, instructions |");
    println!("|---|---|---|---|---|---|---|---|");
    for r in rows {
        let (hard, over) = r.hard.map_or((String::new(), String::new()), |h| (ns(h), format!("{:.2}", r.ours / h)));
        let of = |m: &HashMap<String, f64>| m.get(&r.name).map_or(String::new(), |x| ns(*x));
        let (soft, ratio) = (ns(r.soft), r.ours / r.soft);
        println!("| {} | {} | {soft} | {ratio:.2} | {hard} | {over} | {} | {} |", r.name, ns(r.ours), of(openssl_soft), of(openssl_hard));
    }
    let missed: Vec<_> = rows.iter().filter(|r| r.goal.is_some_and(|g| r.ours / r.soft > g)).map(|r| r.name.as_str()).collect();
    println!("\nGoals missed: {}.", if missed.is_empty() { "none".to_string() } else { missed.join("; ") });
}

/// For each payload, ours and the Rust's of every call, and what a byte more costs between 64 and 1,400.
pub fn print_growth(names: &[&str], lines: &[(usize, Vec<Vec<f64>>)]) {
    println!("| payload | {} |", names.join(" | "));
    println!("|---|{}", "---|".repeat(names.len()));
    for (n, calls) in lines {
        let pair = |t: &Vec<f64>| format!("{} / {}", ns(t[0]), ns(t[1]));
        println!("| {n} | {} |", calls.iter().map(pair).collect::<Vec<_>>().join(" | "));
    }
    let ((n, from), (m, to)) = (&lines[2], &lines[lines.len() - 1]);
    let slope = |(a, b): (&Vec<f64>, &Vec<f64>)| {
        let of = |side: usize| (b[side] - a[side]) / (m - n) as f64;
        format!("{:.2} / {:.2}", of(0), of(1))
    };
    println!("| ns a byte | {} |", from.iter().zip(to).map(slope).collect::<Vec<_>>().join(" | "));
}

/// The largest ratio over frames of every length, and the lengths where it is above 1.
pub fn print_lengths(calls: &[(&str, Vec<(usize, f64)>)]) {
    println!("| frames of every length to {} | largest ratio | at | above 1 at |", calls[0].1.last().unwrap().0);
    println!("|---|---|---|---|");
    for (name, ratios) in calls {
        let (at, most) = ratios.iter().max_by(|a, b| a.1.total_cmp(&b.1)).unwrap();
        println!("| {name} | {most:.2} | {at} | {} |", runs(ratios.iter().filter(|r| r.1 > 1.0).map(|r| r.0)));
    }
}

/// Numbers in rising order, neighbours drawn together.
fn runs(of: impl Iterator<Item = usize>) -> String {
    let mut runs: Vec<(usize, usize)> = Vec::new();
    for n in of {
        match runs.last_mut() {
            Some((_, last)) if *last + 1 == n => *last = n,
            _ => runs.push((n, n)),
        }
    }
    let shown = |(a, b): &(usize, usize)| if a == b { a.to_string() } else { format!("{a} to {b}") };
    if runs.is_empty() { "none".to_string() } else { runs.iter().map(shown).collect::<Vec<_>>().join(", ") }
}
