#!/bin/sh
# Builds the objects that other languages link, and tries them: tests/bindings.sh, after `rt lib` in crates/ion_c.
# It needs a C compiler and python3. What isn't installed is left out and named: g++, valgrind, the address sanitizer, rustc.
# It ends with a line `N passed, M failed`.
set -u
top=$(cd "$(dirname "$0")/.." && pwd)
folder=$(mktemp -d)
trap 'rm -rf "$folder"' EXIT
passed=0
failed=0
cc=${CC:-cc}
warnings='-Wall -Wextra -Wpedantic -Werror'
library=$folder/lib/libpureefjord.a

# tried NAME COMMAND..: counts what its last line tells, `N passed, M failed`, or else its status.
tried() {
    name=$1
    shift
    if "$@" > "$folder/told" 2>&1; then ended=0; else ended=$?; fi
    counts=$(tail -n 1 "$folder/told" | sed -n 's/^\([0-9]*\) passed, \([0-9]*\) failed$/\1 \2/p')
    if [ -z "$counts" ]; then
        if [ "$ended" = 0 ]; then counts='1 0'; else counts='0 1'; fi
    elif [ "$ended" != 0 ] && [ "${counts#* }" = 0 ]; then
        counts="${counts% *} 1"
    fi
    passed=$((passed + ${counts% *}))
    failed=$((failed + ${counts#* }))
    echo "$name: ${counts% *} passed, ${counts#* } failed"
    if [ "${counts#* }" != 0 ]; then sed 's/^/    /' "$folder/told"; fi
}

# left_out NAME: what isn't tried.
left_out() { echo "left out: $1"; }

# has COMMAND: whether it is installed.
has() { command -v "$1" > /dev/null 2>&1; }

# same NAME FOUND WANTED
same() { tried "$1" test "$2" = "$3"; }

build() {
    tried 'the objects' env PROVED=1 "$top/bindings/build.sh" "$folder"
    same 'what is exported' "$(nm -D --defined-only "$folder/lib/libpureefjord.so" | sed 's/.* //' | LC_ALL=C sort | tr '\n' ' ')" \
        "$(sed -n 's/^[a-z0-9_]* \(pureefjord_[a-z_]*\)(.*/\1/p' "$top/bindings/pureefjord.h" | LC_ALL=C sort | tr '\n' ' ')"
    version=$(cat "$top/VERSION")
    same 'the version of the header' "$(sed -n 's/^#define PUREEFJORD_VERSION "\(.*\)"/\1/p' "$top/bindings/pureefjord.h")" "$version"
}

# program NAME SOURCE OPTION..: builds a program in C with these options, as the name of its source.
program() {
    built=$1 source=$2
    shift 2
    # shellcheck disable=SC2086
    tried "$built, built" "$cc" $warnings -g "$@" -I"$top/bindings" -pthread -o "$folder/$source" "$top/tests/bindings/$source.c" "$library"
}

# in_c_by NAME OPTION..: the calls and the cursor in C, built with these options; and builds what prints values, for the random ones.
in_c_by() {
    under=$1
    shift
    program "$under, calls" calls -std=c11 -Wl,--wrap=malloc,--wrap=realloc "$@"
    program "$under, values" values -std=c11 "$@"
    program "$under, lines" lines -std=c11 "$@"
}

in_c() {
    in_c_by C -O2
    tried 'C, calls' "$folder/calls"
    tried 'C, values' "$folder/values"
    if has valgrind; then
        in_c_by 'C under valgrind' -O1
        for source in calls values; do
            tried "C under valgrind, $source" valgrind -q --error-exitcode=9 --leak-check=full --errors-for-leak-kinds=all "$folder/$source"
        done
    else
        left_out 'C under valgrind'
    fi
    if echo 'int main(void) { return 0; }' | "$cc" -fsanitize=address,undefined -x c -o "$folder/probe" - 2> /dev/null && "$folder/probe"; then
        in_c_by 'C under the sanitizers' -O1 -fsanitize=address,undefined -fno-sanitize-recover=undefined
        for source in calls values; do tried "C under the sanitizers, $source" "$folder/$source"; done
    else
        left_out 'C under the sanitizers'
    fi
    # Numbers of a layout are read as they lie there.
    printf '#undef __BYTE_ORDER__\n#define __BYTE_ORDER__ __ORDER_BIG_ENDIAN__\n#include "pureefjord_events.h"\n' > "$folder/big.c"
    same 'no big-endian machine' "$("$cc" -w -I"$top/bindings" -fsyntax-only "$folder/big.c" 2>&1 | grep -o 'has to be little-endian' | uniq)" 'has to be little-endian'
}

# Values as deep as may be, in no more stack than the header says.
in_little_stack() {
    # shellcheck disable=SC2086
    tried 'the stack, built' "$cc" $warnings -std=c11 -O2 -I"$top/bindings" -pthread -o "$folder/stack" "$top/tests/bindings/stack.c" "$library"
    tried 'the stack' "$folder/stack"
    sed -n 's/ were used.*/ were used/p' "$folder/told"
}

# The header in C++, and the example over both objects.
examples() {
    if has "${CXX:-g++}"; then
        printf '#include "pureefjord.h"\nint main() { pureefjord_options options = PUREEFJORD_USUAL; pureefjord_answer answer;\n' > "$folder/plus.cc"
        printf 'return (int)pureefjord_check(options.catalog, 0, &options, &answer); }\n' >> "$folder/plus.cc"
        # shellcheck disable=SC2086
        tried 'C++, built' "${CXX:-g++}" $warnings -I"$top/bindings" -o "$folder/plus" "$folder/plus.cc" "$library"
        tried 'C++' "$folder/plus"
        # shellcheck disable=SC2086
        tried 'C++, values, built' "${CXX:-g++}" $warnings -std=c++11 -I"$top/bindings" -o "$folder/plus" -x c++ "$top/tests/bindings/values.c" -x none "$library"
        tried 'C++, values' "$folder/plus"
    else
        left_out 'C++'
    fi
    # shellcheck disable=SC2086
    tried 'the example, static' "$cc" $warnings -I"$top/bindings" -o "$folder/example" "$top/bindings/c/example.c" "$library"
    same 'the example, equivalent' "$("$folder/example" "$top/examples/short.10n" "$top/examples/short.ion"; echo $?)" "equivalent 1
0"
    # shellcheck disable=SC2086
    tried 'the example, shared' "$cc" $warnings -I"$top/bindings" -o "$folder/shared" "$top/bindings/c/example.c" -L"$folder/lib" -lpureefjord -Wl,-rpath,"$folder/lib"
    same 'the example, different' "$("$folder/shared" "$top/examples/short.ion" "$top/examples/other.ion"; echo $?)" "different 1 [2]
1"
    same 'the example, refused' "$("$folder/shared" "$top/examples/short.ion" "$top/examples/cut.10n" 2>&1; echo $?)" "refused right 7 Incomplete
2"
    printf '{"id": 1, "size": 20}\n{size: 22, id: 2} {id: 3} {id: 4, size: x::-2, size: 100} "size" {size: 1.5}\n' > "$folder/log.ion"
    # shellcheck disable=SC2086
    tried 'the sum, built' "$cc" $warnings -I"$top/bindings" -o "$folder/sum" "$top/bindings/c/sum.c" "$library"
    same 'the sum' "$("$folder/sum" size "$folder/log.ion"; echo $?)" "40 in 3 records
0"
    same 'the sum before a refusal' "$(printf '{size: 7} ]' > "$folder/log.ion"; "$folder/sum" size "$folder/log.ion" 2> "$folder/refused"; cat "$folder/refused")" "7 in 1 records
refused 11 Unexpected"
}

in_other_languages() {
    tried Python python3 "$top/tests/bindings/calls.py" "$folder/python"
    tried 'few documents of every kind' python3 "$top/tests/exhaustive.py" "$folder/python" --few
    set -- "$folder/lines"
    if has rustc; then
        for source in calls lines; do
            tried "Rust, $source, built" rustc --edition 2024 -D warnings -o "$folder/${source}_rs" "$top/tests/bindings/$source.rs" -L "native=$folder/lib" -l static=pureefjord
        done
        tried Rust "$folder/calls_rs"
        set -- "$folder/lines" "$folder/lines_rs"
    else
        left_out Rust
    fi
    tried 'values, in all of these languages' python3 "$top/tests/bindings/values.py" "$folder/python" "$@"
}

# block LANGUAGE: the block of docs/BINDINGS.md in a language.
block() { sed -n "/^\`\`\`$1\$/,/^\`\`\`\$/p" "$top/docs/BINDINGS.md" | grep -v '^```'; }

# Its blocks in C and Rust, over two records.
blocks() {
    {
        block c
        printf '#include <stdio.h>\nint main(void) { static const uint8_t log[] = "{size: 2} {size: 3, a: \\"b\\"}"; uint8_t layout[512];\n'
        printf 'const pureefjord_options usual = PUREEFJORD_USUAL; pureefjord_answer answer;\n'
        printf 'pureefjord_events(log, sizeof log - 1, &usual, layout, sizeof layout, &answer); printf("%%d", (int)sum(layout, &answer)); return 0; }\n'
    } > "$folder/block.c"
    # shellcheck disable=SC2086
    tried 'the page: C, built' "$cc" $warnings -I"$top/bindings" -o "$folder/block" "$folder/block.c" "$library"
    same 'the page: C' "$("$folder/block")" 5
    if has rustc; then
        {
            printf '#[path = "%s/bindings/rust/pureefjord.rs"]\nmod pureefjord;\nfn main() -> Result<(), Box<dyn std::error::Error>> {\n' "$top"
            printf 'let octets = b"{size: 2} {size: 3, a: \\"b\\"}";\n'
            block rust
            printf 'print!("{sizes} {strings}");\nOk(())\n}\n'
        } > "$folder/block.rs"
        tried 'the page: Rust, built' rustc --edition 2024 -D warnings -o "$folder/block_rs" "$folder/block.rs" -L "native=$folder/lib" -l static=pureefjord
        same 'the page: Rust' "$("$folder/block_rs")" '5 1'
    fi
}

# The command lines of docs/BINDINGS.md as they stand, but the one that builds, and its lines for CMake.
page() {
    mkdir -p "$folder/page"
    ln -s "$top/bindings" "$top/examples" "$folder/page"
    awk '/^## Link it/ { on = 1; next } /^## / { on = 0 } on && /^    / { sub(/^    /, ""); print }' "$top/docs/BINDINGS.md" > "$folder/lines"
    if ! has pkg-config; then sed -i '/pkg-config/d' "$folder/lines"; left_out 'the page: pkg-config'; fi
    if ! has cargo || ! has rustc; then sed -i -e '/cargo/d' -e '/main\.rs/d' "$folder/lines"; left_out 'the page: Rust'; fi
    if ! python3 -m venv "$folder/venv" > /dev/null 2>&1; then sed -i '/venv/d' "$folder/lines"; left_out 'the page: pip'; fi
    sed -i "s|^P=.*|P='$folder'|" "$folder/lines"
    tried 'the lines of the page' sh -c 'cd "$1" && CARGO_NET_OFFLINE=true bash -e ../lines' - "$folder/page"
    if has cmake; then
        mkdir "$folder/cmake"
        {
            printf 'cmake_minimum_required(VERSION 3.16)\nproject(user C)\nadd_executable(example %s/bindings/c/example.c)\n' "$top"
            block cmake
        } > "$folder/cmake/CMakeLists.txt"
        tried 'the page: CMake' sh -c 'cd "$1" && cmake -S . -B out -DCMAKE_PREFIX_PATH="$2" && cmake --build out && out/example "$3/short.ion" "$3/short.10n"' - \
            "$folder/cmake" "$folder" "$top/examples"
    else
        left_out 'the page: CMake'
    fi
}

if [ ! -f "$top/crates/ion_c/out/libion_c.a" ]; then
    echo 'bindings.sh: first run rt lib in crates/ion_c'
    exit 4
fi
build
in_c
in_little_stack
examples
in_other_languages
blocks
page
echo "$passed passed, $failed failed"
[ "$failed" = 0 ]
