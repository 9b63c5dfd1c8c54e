// A plain program of the same job, in stock Rust, for `bench/scan` to time `vxscan` against: it reads a table of one `u64`
// column, keeps the rows that the comparison of REQUEST keeps, and writes them. It trusts its input.
use std::io::{self, Read, Write};

fn between<'a>(text: &'a str, before: &str, after: &str) -> &'a str {
    let start = text.find(before).expect("request") + before.len();
    let length = text[start..].find(after).expect("request");
    &text[start..start + length]
}

fn main() {
    let request = std::env::args().nth(2).expect("REQUEST");
    let operator = between(&request, "\"cmp\":[\"", "\"").to_string();
    let constant: u64 = between(&request, "[\"u64\",", "]").trim().parse().expect("number");
    let keep = |x: u64| match operator.as_str() {
        "=" => x == constant,
        "!=" => x != constant,
        ">" => x > constant,
        ">=" => x >= constant,
        "<" => x < constant,
        _ => x <= constant,
    };
    let mut text = String::new();
    io::stdin().read_to_string(&mut text).expect("input");
    let mut lines = text.lines();
    let mut rows = Vec::new();
    let header = lines.next().expect("header");
    for line in lines {
        rows.push(line.parse::<u64>().expect("row"));
    }
    let mut output = Vec::new();
    writeln!(output, "{header}").expect("memory");
    for row in rows.into_iter().filter(|x| keep(*x)) {
        writeln!(output, "{row}").expect("memory");
    }
    io::stdout().write_all(&output).expect("output");
}
