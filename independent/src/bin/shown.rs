//! Lists whether each face of the pair on standard input is shown at each
//! frame.

fn main() -> std::io::Result<()> {
    independent::many::run(independent::listing::shown_listing)
}
