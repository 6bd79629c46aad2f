#!/bin/sh
# Installs the command line as a user would, with `cargo install --path`, and runs what is installed: a binary called codwalet.
set -e
cd "$(dirname "$0")/../.."
cargo install --quiet --offline --locked --force --no-track --path host/codwalet-cli --root target/install --target-dir target/cargo
[ "$(ls target/install/bin)" = codwalet ]
target/install/bin/codwalet --version
