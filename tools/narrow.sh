#!/usr/bin/env bash
# Shows what becomes of the library's products on machines of 32 bits: none may be wider than 32 bits, and none may be a call.
#   tools/narrow.sh [SCRATCH]
# rt compiles for x86-64 alone. What it hands to its compiler is kept here, and the same compiler makes code of it for other machines.
# A `usize` keeps its 64 bits there, so this is a look at the products and no build for such a machine.
# Exit status 0: no product is too wide, and those of the allowances were seen.
set -euo pipefail
cd "$(dirname "$0")/.."
tools/setup kit
. tools/path.sh
scratch=${1:-target/narrow}
machines=(i686-unknown-linux-gnu thumbv6m-none-eabi armv7-none-eabi riscv32-unknown-elf)

mkdir -p target "$scratch"
exec 9> target/build.lock
flock 9 # tools/build makes the same archives
scratch=$(cd "$scratch" && pwd)
kit=$(dirname "$(rt doc)")
compiler=$kit/toolchain/bin/clang

# The kit with a compiler that keeps what it is given. rt looks for the kit beside itself, so it is copied, and all else is linked. The
# environment that the compiler runs in is empty, so the place is written into it.
rm -rf "$scratch/kit"
mkdir -p "$scratch/kit/bin" "$scratch/kit/toolchain/bin"
cp "$kit"/bin/rt* "$scratch/kit/bin/"
for path in "$kit"/* "$kit"/bin/* "$kit"/toolchain/* "$kit"/toolchain/bin/*; do
    there=$scratch/kit/${path#"$kit"/}
    [ -e "$there" ] || ln -s "$path" "$there"
done
rm "$scratch/kit/toolchain/bin/clang"
cat > "$scratch/kit/toolchain/bin/clang" <<S
#!/bin/sh
for word in "\$@"; do case \$word in *.bc) cp "\$word" "$scratch/module.bc" ;; esac; done
exec "$compiler" "\$@"
S
chmod +x "$scratch/kit/toolchain/bin/clang"

# Runs a command, and shows all that it said where it fails.
logged() { "$@" > "$scratch/log" 2>&1 || { cat "$scratch/log" && return 1; }; }

# The crate as the compiler gets it, as text that names no machine.
module() {
    rm -f "$scratch/module.bc"
    (cd "crates/$1" && logged "$scratch/kit/bin/rt" lib)
    logged "$compiler" -S -emit-llvm -Xclang -disable-llvm-passes -x ir "$scratch/module.bc" -o "$scratch/$1.ll"
    sed -Ei '/^target (datalayout|triple)/d; s/"target-(cpu|features)"="[^"]*"//g' "$scratch/$1.ll"
}

# The instructions that multiply, and the calls and jumps to what has `mul` in its name, a line for each.
multiplies() { grep -E '^\s+([a-z0-9.]*(mul|ml[as]|maal)|[a-z.]+\s+\S*mul)' "$1" | sed -E 's/^\s+//; s/\s+/ /' || true; }

# Of these the ones that are wider than 32 bits, or calls.
wide() { grep -vE '^(imull .+, %[a-z]+|(muls|mul|mla|mls|smulbb) [^#@]*)( *[#@].*)?$' || true; }

# Looks at a crate, in which at least so many products are expected.
look() {
    local crate=$1 least=$2 machine assembly products too_wide
    module "$crate"
    for machine in "${machines[@]}"; do
        assembly=$scratch/$crate-$machine.s
        logged "$compiler" "--target=$machine" -O3 -S -x ir "$scratch/$crate.ll" -o "$assembly"
        products=$(multiplies "$assembly" | grep -c . || true)
        too_wide=$(multiplies "$assembly" | wide)
        echo "$crate, $machine: $products products${too_wide:+, of which these are too wide: $too_wide}"
        [ -z "$too_wide" ] && [ "$products" -ge "$least" ] || status=1
    done
}

status=0
look product_test_c 8
look embed_c 8
look exchange_c 0
exit $status
