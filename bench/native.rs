//! Reads a file into a value of serde_json, and prints whether it is an object.

fn main() {
    let path = std::env::args().nth(1).expect("the path of a file");
    let bytes = std::fs::read(path).expect("a file that can be read");
    let value: serde_json::Value = serde_json::from_slice(&bytes).expect("JSON");
    println!("{}", value.is_object());
}
