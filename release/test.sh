#!/bin/sh
# Packs a release, unpacks it in a temporary folder, and uses it from there: the command, the libraries from C with pkg-config and with CMake, from C++, Rust
# and Python, the manual page, the completion. The same with an installed copy, which is taken away again.
set -eu
cd "$(dirname "$0")/.."
repository=$PWD
folder=$(mktemp -d)
trap 'rm -rf "$folder"' EXIT
version=$(cat VERSION)

make --no-print-directory release > /dev/null
make --no-print-directory install PREFIX="$folder/installed" > /dev/null
tar -C "$folder" -xzf "target/mizzengrape-$version.tar.gz"

# The library below $prefix from C with CMake, from C++ with both libraries, from Rust and from Python; the manual page and the completion.
in_other_languages() {
    rm -rf "$folder/cmake" "$folder/rust"
    if command -v cmake > /dev/null; then
        mkdir "$folder/cmake"
        cat > "$folder/cmake/CMakeLists.txt" << END
cmake_minimum_required(VERSION 3.10)
project(example C)
find_package(mizzengrape $version REQUIRED)
foreach(kind mizzengrape static)
  add_executable(with-\${kind} $documents/examples/main.c)
  target_link_libraries(with-\${kind} mizzengrape::\${kind})
endforeach()
END
        cmake -S "$folder/cmake" -B "$folder/cmake/build" -DCMAKE_PREFIX_PATH="$prefix" > /dev/null
        cmake --build "$folder/cmake/build" > /dev/null
        for kind in mizzengrape static; do
            "$folder/cmake/build/with-$kind" | diff "$repository/examples/c/expected.txt" -
        done
    fi
    printf '#include <mizzengrape.h>\nint main() { return mizzengrape_version() != MIZZENGRAPE_VERSION_NUMBER; }\n' > "$folder/version.cpp"
    # shellcheck disable=SC2046
    c++ -std=c++17 -Wall -Wextra -Werror "$folder/version.cpp" $(pkg-config --cflags --libs mizzengrape) -o "$folder/version" && "$folder/version"
    cp -r "$prefix/share/mizzengrape/rust" "$folder/rust"
    (cd "$folder/rust" && cargo run --offline --quiet) | diff "$repository/examples/rust/expected.txt" -
    PYTHONDONTWRITEBYTECODE=1 PYTHONPATH="$prefix/share/mizzengrape/python" python3 "$documents/examples/example.py" \
        | diff "$repository/examples/python/expected.txt" -
    grep -q '^.SH TRACE$' "$prefix/share/man/man1/mizzengrape.1"
    bash -n "$prefix/share/bash-completion/completions/mizzengrape"
}

for prefix in "$folder/mizzengrape-$version" "$folder/installed"; do
    export PKG_CONFIG_PATH="$prefix/lib/pkgconfig"
    documents=$prefix/share/doc/mizzengrape
    test "$(pkg-config --modversion mizzengrape)" = "$version"
    # What the README names is there.
    # shellcheck disable=SC2016
    for path in $(sed -n 's/^| `\([^`]*\)`.*/\1/p' "$documents/README.md"); do
        test -e "$prefix/$path"
    done
    # Words of flags have to fall apart here.
    # shellcheck disable=SC2046
    cc -std=c11 -Wall -Wextra -Werror -pedantic "$documents/examples/main.c" $(pkg-config --cflags --libs mizzengrape) -o "$folder/example"
    "$folder/example" | diff "$repository/examples/c/expected.txt" -
    cc -std=c11 -Wall -Wextra -Werror -pedantic -pthread "$documents/examples/stack.c" -I"$prefix/include" "$prefix/lib/libmizzengrape.a" -o "$folder/stack"
    "$folder/stack" > /dev/null
    in_other_languages
    # The README's commands: the first routine is refused, the others are well.
    grep '^    mizzengrape ' "$documents/README.md" | while read -r line; do
        (cd "$prefix" && PATH="$prefix/bin:$PATH" sh -c "$line" > "$folder/said" 2>&1) || grep -q '^refused 8 0 0$' "$folder/said"
    done
    cd "$documents/routines"
    test "$("$prefix/bin/mizzengrape" check --short first_club.c)" = accepted
    status=0
    test "$("$prefix/bin/mizzengrape" check second_club.c 2> "$folder/reason" || status=$?; echo $status)" = "refused 8 0 0
1"
    # shellcheck disable=SC2016
    grep -q 'second_club.c:8:5: error: refused 8: the bounds of `row` are not shown after this statement' "$folder/reason"
    "$prefix/bin/mizzengrape" run first_club.c last_row.img > "$folder/run"
    grep -q '^done after 5 steps$' "$folder/run"
    cd "$repository"
    for standard in c11 c17; do
        echo '#include <mizzengrape.h>' | cc -std=$standard -Wall -Wextra -Werror -pedantic -I"$prefix/include" -xc -fsyntax-only -
    done
    for standard in c++11 c++17 c++20; do
        echo '#include <mizzengrape.h>' | c++ -std=$standard -Wall -Wextra -Werror -pedantic -I"$prefix/include" -xc++ -fsyntax-only -
    done
done
make --no-print-directory uninstall PREFIX="$folder/installed"
test -z "$(find "$folder/installed" -mindepth 1 2> /dev/null)"
echo "release $version: unpacked, installed, used and taken away"
