//! Writes `crates/vectors/stdout`.

fn main() {
    print!("{}", independent::vectors::listing());
}
