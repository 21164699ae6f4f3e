# Sourced by the scripts: they look for rt and cargo also where the kit and Rust are installed without being put on the PATH.
cargo_home=${CARGO_HOME:-~/.cargo}
PATH="$PATH:${RATTLE_HOME:-/opt/rattle}/bin:$cargo_home/bin"
