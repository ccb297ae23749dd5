#!/bin/sh
# Puts the built libraries, header, command, documents and what other tools need to find them below a folder: install.sh DIR.
set -eu
prefix=$1
cd "$(dirname "$0")/.."
version=$(cat VERSION)
documents=$prefix/share/doc/mizzengrape

mkdir -p "$prefix/bin" "$prefix/lib/pkgconfig" "$prefix/lib/cmake/mizzengrape" "$prefix/include" "$documents/routines" "$documents/examples" \
    "$documents/editors/vscode" "$prefix/share/man/man1" "$prefix/share/bash-completion/completions" "$prefix/share/mizzengrape/python" \
    "$prefix/share/mizzengrape/rust/src/extern_c"
install -m 755 tool/target/release/mizzengrape "$prefix/bin/mizzengrape"
"$prefix/bin/mizzengrape" man > "$prefix/share/man/man1/mizzengrape.1"
"$prefix/bin/mizzengrape" completion > "$prefix/share/bash-completion/completions/mizzengrape"

# The shared library is the static one, whole.
soname=libmizzengrape.so.${version%%.*}
install -m 644 target/staticlib/libexports.a "$prefix/lib/libmizzengrape.a"
"${CC:-cc}" -shared -Wl,-soname,"$soname" -Wl,--whole-archive target/staticlib/libexports.a -Wl,--no-whole-archive \
    -o "$prefix/lib/libmizzengrape.so.$version"
ln -sf "libmizzengrape.so.$version" "$prefix/lib/$soname"
ln -sf "$soname" "$prefix/lib/libmizzengrape.so"
install -m 644 include/mizzengrape.h "$prefix/include/mizzengrape.h"
sed "s/@VERSION@/$version/" release/mizzengrape.pc.in > "$prefix/lib/pkgconfig/mizzengrape.pc"
for file in mizzengrape-config mizzengrape-config-version; do
    sed "s/@VERSION@/$version/" "release/$file.cmake.in" > "$prefix/lib/cmake/mizzengrape/$file.cmake"
done

install -m 644 examples/python/mizzengrape.py "$prefix/share/mizzengrape/python"
install -m 644 examples/rust/Cargo.toml examples/rust/build.rs "$prefix/share/mizzengrape/rust"
install -m 644 examples/rust/src/*.rs "$prefix/share/mizzengrape/rust/src"
install -m 644 examples/rust/src/extern_c/*.rs "$prefix/share/mizzengrape/rust/src/extern_c"

install -m 644 release/README.md CHANGELOG.md LICENSE docs/FORMAT.md docs/LANGUAGE.md docs/EDITORS.md docs/TRUST.md "$documents"
install -m 644 routines/*.c routines/*.img "$documents/routines"
install -m 644 examples/c/main.c examples/c/stack.c examples/python/example.py "$documents/examples"
install -m 644 tool/editors/neovim.lua tool/editors/emacs.el "$documents/editors"
install -m 644 tool/editors/vscode/package.json tool/editors/vscode/extension.js tool/editors/vscode/server.js "$documents/editors/vscode"
