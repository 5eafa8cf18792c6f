#!/usr/bin/env bash
# Proves and builds the crates `exports` and `exports_books`, compares what they answer with OpenSSL, plain C and plain Rust, and
# measures them beside these.
set -euo pipefail

bench=$(cd "$(dirname "${BASH_SOURCE[0]}")" && pwd)
root=$(dirname "$bench")
built=$root/target/bench

mkdir -p "$built"

# proves a crate and builds its static library
library() {
    (cd "$root/crates/$1" && rt lib >"$built/$1.log" 2>&1) || { cat "$built/$1.log"; exit 1; }
}

hashes() {
    library exports
    clang -O3 -Wall -Wextra -DCOMPILER=clang -c "$bench/plain.c" -o "$built/plain_clang.o"
    gcc -O3 -Wall -Wextra -DCOMPILER=gcc -c "$bench/plain.c" -o "$built/plain_gcc.o"
    local flags=() libraries=(-lcrypto)
    if ! echo '#include <openssl/evp.h>' | gcc -E - >/dev/null 2>&1; then
        echo "OpenSSL's headers are not installed: its figures are left out"
        flags=(-DNO_OPENSSL)
        libraries=()
    fi
    gcc -O2 -Wall -Wextra "${flags[@]}" "$bench/bench.c" "$built/plain_clang.o" "$built/plain_gcc.o" \
        "$root/crates/exports/out/libexports.a" "${libraries[@]}" -o "$built/bench"
    echo "compilers: $(clang --version | head -1); $(gcc --version | head -1)"
    "$built/bench"
}

books() {
    if ! command -v rustc >/dev/null; then
        echo "rustc is not installed: the figures of books are left out"
        return
    fi
    library exports_books
    rustc --edition 2024 -C opt-level=3 "$bench/books.rs" -o "$built/books" \
        -L "$root/crates/exports_books/out" -l static=exports_books
    echo "compiler: $(rustc --version)"
    "$built/books"
}

image() {
    command -v rustc >/dev/null || return 0
    library exports
    rustc --edition 2024 -C opt-level=3 -C panic=abort "$bench/image.rs" -o "$built/image" \
        -L "$root/crates/exports/out" -l static=exports
    "$built/image"
}

echo "machine: $(lscpu | sed -n 's/^Model name: *//p'), $(nproc) processors"
echo "toolchain: $(rt version)"
hashes
books
image
