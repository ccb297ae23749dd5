#!/bin/sh
# Takes away what install.sh put below a folder, and folders that are empty then: uninstall.sh DIR.
set -eu
prefix=$1
rm -f "$prefix/bin/mizzengrape" "$prefix/include/mizzengrape.h" "$prefix/lib/libmizzengrape.a" "$prefix"/lib/libmizzengrape.so* \
    "$prefix/lib/pkgconfig/mizzengrape.pc" "$prefix/share/man/man1/mizzengrape.1" "$prefix/share/bash-completion/completions/mizzengrape"
rm -rf "$prefix/lib/cmake/mizzengrape" "$prefix/share/doc/mizzengrape" "$prefix/share/mizzengrape"
for folder in lib/pkgconfig lib/cmake lib bin include share/man/man1 share/man share/bash-completion/completions share/bash-completion share/doc share; do
    rmdir "$prefix/$folder" 2> /dev/null || true
done
