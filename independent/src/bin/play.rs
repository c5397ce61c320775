//! Lists every sample of the movement on standard input.

fn main() -> std::io::Result<()> {
    independent::many::run(independent::listing::sample_listing)
}
