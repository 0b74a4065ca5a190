//! Draws the benchmark's growth table, one panel for each of its parts: `bench growth | plot >docs/growth.svg`.

mod panel;

use panel::{Panel, HEIGHT, WIDTH};
use std::io::Read;
use std::process::exit;

/// The panels of a table. A line that begins with `call` opens one and names its unit; any other line is a point of it.
fn panels(table: &str) -> Option<Vec<Panel>> {
    let mut panels: Vec<Panel> = Vec::new();
    for line in table.lines() {
        let words: Vec<&str> = line.split_whitespace().collect();
        let [call, size, ours, second, ..] = words[..] else {
            return None;
        };
        if call == "call" {
            panels.push(Panel::new(size));
        } else {
            let [size, ours, second] = [size.parse().ok()?, ours.parse().ok()?, second.parse().ok()?];
            panels.last_mut()?.point(call, size, [ours, second]);
        }
    }
    (!panels.is_empty()).then_some(panels)
}

fn main() {
    let mut table = String::new();
    let read = std::io::stdin().read_to_string(&mut table);
    let Some(panels) = read.ok().and_then(|_| panels(&table)) else {
        eprintln!("plot: standard input is not a growth table, as 'bench growth' prints it");
        exit(2);
    };
    let width = WIDTH * panels.len();
    println!(r#"<svg xmlns="http://www.w3.org/2000/svg" viewBox="0 0 {width} {HEIGHT}" font-family="sans-serif">"#);
    println!(r#"<rect width="{width}" height="{HEIGHT}" fill="white"/>"#);
    for (index, panel) in panels.iter().enumerate() {
        println!(r#"<g transform="translate({} 0)" font-size="13" fill="black">"#, WIDTH * index);
        print!("{}", panel.drawn());
        println!("</g>");
    }
    println!("</svg>");
}
