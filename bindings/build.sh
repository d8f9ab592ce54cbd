#!/bin/sh
# Makes all that other languages link or import: bindings/build.sh [FOLDER], by default bindings/out. In FOLDER it puts
#   include, lib   the headers, both objects, and hints for pkg-config and CMake
#   c              examples
#   python, *.whl  the Python package, as a folder for PYTHONPATH and as a wheel for pip
#   rust           a crate for Cargo
# The proved archive is made first, by `rt lib`, unless PROVED=1 says that it was. CC and AR name other tools.
set -eu
here=$(cd "$(dirname "$0")" && pwd)
top=$(dirname "$here")
folder=${1:-$here/out}
version=${PUREEFJORD_VERSION:-$(cat "$top/VERSION")}
kit=$(dirname "$(rt doc)")
if [ "${PROVED:-0}" != 1 ]; then
    (cd "$top/crates/ion_c" && rt lib)
fi
archive=$top/crates/ion_c/out/libion_c.a
memory=$kit/c/liblibc_c.a # malloc, realloc and free, as the proved code calls them
mkdir -p "$folder"
folder=$(cd "$folder" && pwd)
lib=$folder/lib
mkdir -p "$folder/include" "$lib/pkgconfig" "$lib/cmake/pureefjord" "$folder/c" "$folder/python/pureefjord" "$folder/rust/lib"

# with_version FILE TO: copies a file, with the version in it.
with_version() { sed "s/@VERSION@/$version/" "$1" > "$2"; }

objects() {
    rm -f "$lib/libpureefjord.a"
    # Names of files stand in this script of ar as they are, so it runs where they have no blanks.
    (
        scratch=$(mktemp -d)
        trap 'rm -rf "$scratch"' EXIT
        cp "$archive" "$scratch/proved.a"
        cp "$memory" "$scratch/memory.a"
        cd "$scratch"
        printf 'create all.a\naddlib proved.a\naddlib memory.a\nsave\nend\n' | "${AR:-ar}" -M
        printf '{ global: pureefjord_*; local: *; };\n' > exports
        "${CC:-cc}" -shared -o all.so -Wl,-soname,libpureefjord.so -Wl,--version-script,exports \
            -Wl,-z,defs -Wl,--whole-archive proved.a -Wl,--no-whole-archive memory.a
        install -m 644 all.a "$lib/libpureefjord.a"
        install -m 644 all.so "$lib/libpureefjord.so"
    )
}

hints() {
    cp "$here"/pureefjord*.h "$folder/include"
    cp "$here"/c/*.c "$folder/c"
    with_version "$here/pkgconfig/pureefjord.pc" "$lib/pkgconfig/pureefjord.pc"
    cp "$here/cmake/pureefjord-config.cmake" "$lib/cmake/pureefjord"
    with_version "$here/cmake/pureefjord-config-version.cmake" "$lib/cmake/pureefjord/pureefjord-config-version.cmake"
}

python_package() {
    package=$folder/python/pureefjord
    cp "$here"/python/pureefjord/*.py "$here/python/pureefjord/py.typed" "$lib/libpureefjord.so" "$package"
    for module in differences layout lines places rules; do # what assert_same_ion tells
        sed 's/^from ion_/from .ion_/' "$top/tools/ion_$module.py" > "$package/ion_$module.py"
    done
    rm -f "$folder"/pureefjord-*.whl
    python3 "$here/python/wheel.py" "$package" "$version" "$folder"
}

rust_crate() {
    with_version "$here/rust/Cargo.toml" "$folder/rust/Cargo.toml"
    cp "$here"/rust/*.rs "$folder/rust"
    cp "$lib/libpureefjord.a" "$folder/rust/lib"
}

objects
hints
python_package
rust_crate
