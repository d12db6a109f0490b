# Sourced by the tests outside the crates, from the repository's root: the Rust programs, with the library that they link. Cargo makes them once,
# and one at a time where tests run side by side.
. tests/tools.sh
# Each test has a folder of its own, since the gate runs them side by side.
build=$PWD/target/tests/$(basename "$(dirname "$0")")
mkdir -p "$build"
export CARGO_TARGET_DIR=$PWD/rust/target
programs=$CARGO_TARGET_DIR/release
cargo build --release --offline --locked --quiet --manifest-path rust/Cargo.toml

# counted WHAT NUMBER: a line that the gate holds to tests/counts.
counted() {
    echo "counted: $1: $2"
}
