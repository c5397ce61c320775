//! Lists every corner of the figure on standard input.

fn main() -> std::io::Result<()> {
    independent::many::run(independent::listing::corner_listing)
}
