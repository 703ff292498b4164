//! The works of tools/measure/work.py, each as one would write it by hand for this work alone. The words are the work and its files.

mod grid;
mod pointwise;
mod series;
mod six;
mod slide;

use series::{Out, Rows, refuse};
use slide::{Maximum, Sum};

fn main() {
    let words: Vec<String> = std::env::args().skip(1).collect();
    let words: Vec<&str> = words.iter().map(String::as_str).collect();
    let mut out = Out::new();
    match words[..] {
        ["copy", x] => pointwise::copy(Rows::of_file(x), &mut out),
        ["pointwise", x, y] => pointwise::print(Rows::of_file(x), Rows::of_file(y), &mut out),
        ["slide_sum", x] => slide::print(Rows::of_file(x), Sum::default(), &mut out),
        ["slide_max", x] => slide::print(Rows::of_file(x), Maximum::default(), &mut out),
        ["grid", x, limit] => grid::print(Rows::of_file(x), Rows::of_file(limit), &mut out),
        ["six", x, y] => six::print(Rows::of_file(x), Rows::of_file(y), &mut out),
        _ => refuse(),
    }
    out.flush();
}
