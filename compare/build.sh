# Builds the Rust's side: the stand-ins, and gpt.rs and gpt/table.rs over them. Sourced by run, mutants and ../bench/run, in the repository's
# root. The two files are read from $GPT_SRC (default ../shared/docs/src/src) and are laid beside the oracle's own files under target/compare,
# which git ignores.

SRC=${GPT_SRC:-../shared/docs/src/src}
OUT=$PWD/target/compare
RUSTC="rustc --edition 2024 -D warnings -A unused -C opt-level=3"

# the two files are the published ones, byte for byte
check_source() {
    sha256sum --check --quiet - <<SUMS
a9c2ae9fe32635f8c5552cc4f8088e2a1da9d9d7566d67eb6b0a85f8e84d51d1  $SRC/gpt.rs
26be0450fa5590efe0383743fd0060e6fb08a8f9746434b747e0694947237780  $SRC/gpt/table.rs
SUMS
}

build_standins() {
    mkdir -p "$OUT/lib"
    for name in zerocopy num_enum; do
        $RUSTC --crate-type proc-macro --crate-name $name --out-dir "$OUT/lib" compare/standins/$name.rs
    done
    $RUSTC --crate-type rlib --crate-name arm_sysregs --out-dir "$OUT/lib" compare/standins/arm_sysregs.rs
}

externs() {
    echo --extern zerocopy="$OUT/lib/libzerocopy.so" --extern num_enum="$OUT/lib/libnum_enum.so" --extern arm_sysregs="$OUT/lib/libarm_sysregs.rlib"
}

# lay DIR: the oracle's files and the Rust's, side by side
lay() {
    mkdir -p "$1/gpt"
    cp compare/oracle/lib.rs compare/oracle/aarch64.rs "$SRC/gpt.rs" "$1/"
    cp "$SRC/gpt/table.rs" "$1/gpt/"
    chmod -R u+w "$1"
}

# build_oracle DIR: the shared library DIR/liboracle.so of what lies in DIR. No vector stores, so that a traced store is one word's.
build_oracle() {
    $RUSTC --crate-type cdylib --crate-name oracle -C no-vectorize-loops -C no-vectorize-slp $(externs) --out-dir "$1" "$1/lib.rs"
}

# build_port: the archive of the proved port
build_port() {
    compare/archive > "$OUT/port.log" 2>&1 || { cat "$OUT/port.log"; return 1; }
}

# build_harness: links the archive; the oracle is found at run time, so that one harness runs against each of its builds
build_harness() {
    $RUSTC --crate-type bin --crate-name harness -L native="$OUT/oracle" -L native=target/staticlib -l dylib=oracle -l static=abi \
        -o "$OUT/harness" compare/harness/main.rs
}
