//! The least that a native program does here: it reads one file, and writes nothing.
fn main() {
    let path = std::env::args_os().nth(1).expect("a path");
    let bytes = std::fs::read(path).expect("a file");
    std::hint::black_box(bytes.len());
}
