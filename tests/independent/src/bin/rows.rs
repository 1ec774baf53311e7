//! Writes `crates/row_audit/stdout`.

fn main() {
    print!("{}", independent::rows::listing());
}
