//! The vectors that stand beside the repository, and a sample of them in it.

use second::testing::vectors::{run, run_files};

#[test]
fn all_vectors() {
    println!("{} lines agree", run_files(run));
}
