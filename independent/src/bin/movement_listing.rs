//! Lists the movement on standard input.

fn main() -> std::io::Result<()> {
    independent::many::run(independent::listing::movement_listing)
}
