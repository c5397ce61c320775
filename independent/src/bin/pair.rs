//! Lists the totals and the bones' names of the pair on standard input.

fn main() -> std::io::Result<()> {
    independent::many::run(independent::listing::pair_listing)
}
