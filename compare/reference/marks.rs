//! A block of the published Rust on its own: a line with its title and its output at each row, 1 for true and 0 for false.

pub fn line(title: &str, outputs: impl IntoIterator<Item = bool>) -> String {
    let marks = outputs.into_iter().map(|y| if y { " 1" } else { " 0" });
    format!("{title}:{}\n", marks.collect::<String>())
}
