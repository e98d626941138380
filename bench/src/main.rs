//! Times of the library, of the Rust text and of C by hand, each on one thread, as tables in markdown.
#![allow(dead_code)]

#[path = "../../oracle/src/mesh.rs"]
mod mesh;
#[path = "../../oracle/src/random.rs"]
mod random;
#[path = "../../oracle/src/shapes.rs"]
mod shapes;

mod byhand;
mod geodesic;
mod operators;
mod sides;
mod spoilt;
mod tables;

/// Deep enough for the Rust text's recursion round a vertex.
const STACK: usize = 1 << 30;

fn main() {
    let part = std::env::args().nth(1).unwrap_or_default();
    let known = tables::PARTS.iter().find(|(name, _)| *name == part);
    let (_, print) = known.unwrap_or_else(|| {
        eprintln!("bench: name a part: {}", tables::PARTS.map(|(name, _)| name).join(", "));
        std::process::exit(2);
    });
    let pool = rayon::ThreadPoolBuilder::new()
        .num_threads(1)
        .stack_size(STACK)
        .build()
        .expect("one thread");
    pool.install(print);
}
