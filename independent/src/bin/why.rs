//! Lists the reason that each face of the pair on standard input has at each
//! frame: that it is shown, or what hides it.

fn main() -> std::io::Result<()> {
    independent::many::run(independent::listing::why_listing)
}
