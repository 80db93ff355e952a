# To be sourced by a script of tests/ or benches/: where the repository is, a room that is removed at the end, and the Rust parts.
# It gives `top`, `room`, `built` (the folder of the Rust programs) and `build NAME ..`.
set -eu -o pipefail
top=$(cd "$(dirname "${BASH_SOURCE[0]}")/../.." && pwd)
room=$(mktemp -d)
trap 'rm -rf "$room"' EXIT
# shellcheck disable=SC2034
built=$top/target-cargo/release

# Builds Rust parts of these names. Cargo's settings are those of the repository, so it is called from there.
build() {
    (cd "$top" && cargo build --quiet --release --offline "${@/#/--package=}")
}
