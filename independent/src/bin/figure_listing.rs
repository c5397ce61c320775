//! Lists the figure on standard input.

fn main() -> std::io::Result<()> {
    independent::many::run(independent::listing::figure_listing)
}
