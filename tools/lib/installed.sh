# Programs and pages over an installed prefix; read by checks that have read tools/lib/count.sh. They have the folder of the prefix in
# $prefix, that of its documents in $documents, a folder for what is built in $out, and in $path the folders of commands. Their function
# `outside` runs a command in an environment that knows the prefix and $path, and nothing of the toolchain or the repository.

# has TOOL PART HOW: whether this tool, which the named part needs, is there. If not, says how to get it.
has() {
    outside sh -c "command -v $1" > "$out/said" 2>&1 || {
        echo "skipped: $2 (there is no $1: $3)"
        return 1
    }
}

# ---- calls and pages

# The calls that an object or an archive defines, one a line. The symbol that carries the version is none.
defines() {
    nm -g --defined-only "$1" | awk 'NF == 3 && $3 !~ /_needs_archive_/ { print $3 }' | sort
}

# Each object defines the calls of its archive and of the channel for threads and nothing else, and each of them has a page.
has_all_calls() {
    (defines "$prefix/lib/lib$1.a" && defines "$prefix/lib/libfak_channel.a") | grep -E '^fak_(c|channel)_' | sort > "$out/calls" || return
    for call in fak_c_open fak_channel_step fak_channel_send; do
        grep -qx "$call" "$out/calls" || return
    done
    defines "$prefix/lib/$1.o" | cmp - "$out/calls" || return
    while read -r call; do
        [ -f "$prefix/share/man/man3/$call.3" ] || return
    done < "$out/calls"
}

# A page has no line of a body before its example: a brace that closes nothing.
has_no_brace() {
    sed '/^\.SH EXAMPLES/,$d' "$prefix/share/man/man3/$1.3" > "$out/before" && grep -q fak_c "$out/before" && ! grep -nx '}' "$out/before"
}

check_calls() {
    for archive in fak_c fak_c_rattle; do
        holds "the calls of $archive" has_all_calls "$archive"
    done
    for page in fak_c fak_channel; do
        holds "the declarations of $page.3" has_no_brace "$page"
    done
}

# ---- programs over the prefix

# Whether the program prints what the example prints, and ends with status 0.
adds_up() {
    outside "$@" > "$out/sum" && grep -x 'the sum is 500500' "$out/sum"
}

# The example in C, followed by these words for the linker.
in_c() {
    outside cc -std=c11 -D_POSIX_C_SOURCE=200809L -O2 -Wall -Wextra -Werror $(outside pkg-config --cflags fak_c) \
        "$documents/examples/c/example.c" "$@" -pthread -o "$out/in_c" && adds_up "$out/in_c"
}

by_pkg_config() {
    in_c $(outside pkg-config --libs "$1")
}

# The linker reads the object before anything asks for its calls.
by_object_first() {
    outside cc $(outside pkg-config --variable=object "$1") -O2 $(outside pkg-config --cflags "$1") "$documents/examples/c/example.c" \
        -pthread -o "$out/object" && adds_up "$out/object"
}

# The example of the channel, by pkg-config and over the object, and with the channel's source in place of its archive.
by_channel() {
    example="$documents/examples/c/channel_example.c"
    for words in "$(outside pkg-config --libs "$1")" "$(outside pkg-config --variable=object "$1")" \
        "$(outside pkg-config --variable=channel "$1") $prefix/lib/lib$1.a $prefix/lib/libfak_c_heap.a"; do
        outside cc -std=c11 -O2 -Wall -Wextra -Werror $(outside pkg-config --cflags "$1") "$example" $words -pthread -o "$out/by_channel" \
            && adds_up "$out/by_channel" || return
    done
}

# A program over the pool of the examples.
by_pool() {
    cat > "$out/pool_user.c" <<'END'
#include "fak_pool.h"
#include <stdatomic.h>
#include <stdio.h>
static atomic_size_t sum;
static void add(void *argument) {
    atomic_fetch_add(&sum, (size_t)argument);
}
int main(void) {
    fak_pool *pool = fak_pool_create(4, 16);
    for (size_t number = 1; pool != NULL && number <= 1000; number++)
        fak_pool_add(pool, add, (void *)number);
    fak_pool_free(pool);
    printf("the sum is %zu\n", sum);
    return 0;
}
END
    outside cc -std=c11 -O2 -Wall -Wextra -Werror "-I$documents/examples/c" "$out/pool_user.c" "$documents/examples/c/fak_pool.c" \
        $(outside pkg-config --cflags --libs fak_c) -pthread -o "$out/by_pool" && adds_up "$out/by_pool"
}

# Writes a program with a queue in memory of its own.
write_block_user() {
    cat > "$1/block_user.c" <<'END'
#include "block.h"
#include "fak_c.h"
static _Alignas(16) unsigned char block[FAK_C_QUEUE_BYTES(1, 4)];
int main(void) {
    fak_c_seat seat = {0};
    uint64_t ticket = 0;
    fak_c_block_begin(block, sizeof block);
    if (fak_c_open(&seat, 1, 4, 9) != FAK_C_OK || fak_c_insert(&seat, 7, &ticket) != FAK_C_OK)
        return 1;
    fak_c_block_end();
    return fak_c_block_is_free(block) || fak_c_leave(&seat) != FAK_C_OK || !fak_c_block_is_free(block);
}
END
}

# This program with no heap and next to one.
by_block() {
    write_block_user "$out" || return
    block=$(outside pkg-config --variable=block fak_c)
    outside cc -std=c11 -O2 $(outside pkg-config --cflags fak_c) "$out/block_user.c" "$block" "$prefix/lib/libfak_c.a" \
        -o "$out/block_user" && outside "$out/block_user" || return
    outside cc -std=c11 -O2 -DFAK_C_BLOCK_AND_HEAP $(outside pkg-config --cflags fak_c) "$out/block_user.c" "$block" \
        $(outside pkg-config --libs fak_c) -o "$out/block_user" && outside "$out/block_user"
}

# The example that counts the lines of files in a pool, over the headers.
by_lines() {
    examples="$documents/examples/c"
    outside cc -std=c11 -O2 -Wall -Wextra -Werror "$examples/lines.c" "$examples/fak_pool.c" $(outside pkg-config --cflags --libs fak_c) \
        -pthread -o "$out/lines" && outside "$out/lines" "$prefix"/include/fak_c/*.h > "$out/counted" \
        && grep -x "$(cat "$prefix"/include/fak_c/*.h | wc -l) lines, 0 files not read" "$out/counted"
}

# The example of a free list of pages.
by_free_list() {
    outside cc -std=c11 -O2 -Wall -Wextra -Werror "$documents/examples/c/free_list.c" $(outside pkg-config --cflags --libs fak_c) -pthread \
        -o "$out/free_list" && outside "$out/free_list" > "$out/counted" && grep -x 'each of 1024 pages is free once' "$out/counted"
}

# A program over the headers of another version does not link with the archives or the objects, and the message names the version.
is_refused_by_archives() {
    mkdir "$out/headers" && cp "$prefix"/include/fak_c/*.h "$out/headers" || return
    sed -i '/^#define FAK_C_VERSION_SYMBOL /s/[0-9]_[0-9]_[0-9]/9_9_9/g' "$out/headers/fak_c.h"
    for words in "$(outside pkg-config --libs fak_c)" "$(outside pkg-config --libs fak_c_rattle) -Wl,--gc-sections" \
        "$(outside pkg-config --variable=object fak_c)" "$(outside pkg-config --variable=object fak_c_rattle)"; do
        ! outside cc -O2 -I"$out/headers" "$documents/examples/c/example.c" $words -pthread -o "$out/other" > "$out/refused" 2>&1 || return
        grep 'undefined reference to .fak_c_header_9_9_9_needs_archive_9_9_9' "$out/refused" || return
    done
}

check_c() {
    for archive in fak_c fak_c_rattle; do
        holds "C by pkg-config, $archive" by_pkg_config "$archive"
        holds "C with the object first, $archive" by_object_first "$archive"
        holds "C with the channel, $archive" by_channel "$archive"
    done
    holds 'C with the pool of the examples' by_pool
    holds 'C with memory of its own' by_block
    holds 'C with the lines of files' by_lines
    holds 'C with a free list' by_free_list
    holds 'C with the headers of another version' is_refused_by_archives
}

# The example in C++, over this target of the CMake package.
by_cmake() {
    rm -rf "$out/cpp" && cp -R "$documents/examples/cpp" "$out/cpp" && sed -i "s/fak_c::fak_c/fak_c::$1/" "$out/cpp/CMakeLists.txt" \
        && outside cmake -S "$out/cpp" -B "$out/cpp/build" -DCMAKE_PREFIX_PATH="$prefix" && outside cmake --build "$out/cpp/build" \
        && adds_up "$out/cpp/build/example"
}

# The program with memory of its own, over this target of the CMake package, for a system without threads.
by_cmake_alone() {
    rm -rf "$out/alone" && mkdir "$out/alone" && write_block_user "$out/alone" || return
    printf '%s\n' 'cmake_minimum_required(VERSION 3.13)' 'project(example C)' 'find_package(fak_c REQUIRED)' \
        'add_executable(example block_user.c ${FAK_C_BLOCK})' "target_link_libraries(example fak_c::$1)" > "$out/alone/CMakeLists.txt"
    outside cmake -S "$out/alone" -B "$out/alone/build" -DCMAKE_PREFIX_PATH="$prefix" -DCMAKE_SYSTEM_NAME=Generic \
        && outside cmake --build "$out/alone/build" && "$out/alone/build/example"
}

# A later version than the installed one is not found.
is_refused_by_version() {
    mkdir "$out/version"
    printf 'project(example NONE)\nfind_package(fak_c 9.9)\nmessage("found: ${fak_c_FOUND}")\n' > "$out/version/CMakeLists.txt"
    outside cmake -S "$out/version" -B "$out/version/build" -DCMAKE_PREFIX_PATH="$prefix" 2>&1 | grep 'found: 0'
}

# The targets with the channel bring the threads of the C library.
brings_threads() {
    mkdir "$out/threads" || return
    for target in fak_c rattle; do
        printf 'project(example CXX)\nfind_package(fak_c REQUIRED)\nget_target_property(linked fak_c::%s INTERFACE_LINK_LIBRARIES)\n%s\n' \
            "$target" 'message("linked: ${linked}")' > "$out/threads/CMakeLists.txt"
        outside cmake -S "$out/threads" -B "$out/threads/build" -DCMAKE_PREFIX_PATH="$prefix" 2>&1 | grep 'linked: .*;Threads::Threads' \
            || return
    done
}

# The target that compiles the channel needs the language C.
brings_source() {
    rm -rf "$out/source" && cp -R "$documents/examples/cpp" "$out/source" \
        && sed -i 's/fak_c::fak_c/fak_c::source/' "$out/source/CMakeLists.txt" || return
    ! outside cmake -S "$out/source" -B "$out/source/build" -DCMAKE_PREFIX_PATH="$prefix" > "$out/refused" 2>&1 \
        && grep 'fak_c::source_needs_the_language_C' "$out/refused" || return
    rm -r "$out/source/build" && sed -i 's/^project(example CXX)/project(example C CXX)/' "$out/source/CMakeLists.txt" \
        && outside cmake -S "$out/source" -B "$out/source/build" -DCMAKE_PREFIX_PATH="$prefix" \
        && outside cmake --build "$out/source/build" && adds_up "$out/source/build/channel_example"
}

by_cxx() {
    outside c++ -std=c++17 -O2 -Wall -Wextra -Werror "$documents/examples/cpp/$1.cpp" $(outside pkg-config --cflags --libs fak_c) \
        -pthread -o "$out/by_cxx" && adds_up "$out/by_cxx"
}

check_cpp() {
    has c++ 'C++' 'Debian: apt-get install g++' || return
    holds 'C++ by pkg-config' by_cxx example
    holds 'C++ with the channel' by_cxx channel_example
    has cmake 'C++ by CMake' 'Debian: apt-get install cmake' || return
    holds 'C++ by CMake' by_cmake fak_c
    holds "C++ by CMake, Rattle's own compiler" by_cmake rattle
    holds 'C by CMake without a heap' by_cmake_alone no_heap
    holds "C by CMake without a heap, Rattle's own compiler" by_cmake_alone rattle_no_heap
    holds 'CMake and another version' is_refused_by_version
    holds 'CMake and threads' brings_threads
    holds 'CMake and the source of the channel' brings_source
}

# Builds the crate in a folder of its own with these settings, which must fail with this line and no other of its own.
says_what_is_missing() {
    line=$1
    shift
    ! outside env "$@" cargo build --offline --manifest-path "$out/copied/Cargo.toml" --target-dir "$out/target" > "$out/built" 2>&1 \
        || return
    cat "$out/built"
    [ "$(grep -c '^ *fak-seats: ' "$out/built")" -eq 1 ] && grep -qF "  fak-seats: $line" "$out/built"
}

# An archive of another version, or of none, is refused.
is_refused_by_crate() {
    other="$out/other-$1"
    own=$(sed -n 's/^version = "\(.*\)"$/\1/p' "$out/copied/Cargo.toml")
    mkdir -p "$other" && cp "$prefix/lib/libfak_c.a" "$other" && sed -i "$2" "$other/libfak_c.a" \
        && says_what_is_missing "this crate has version $own, but libfak_c.a $1: " FAK_C_DIR="$other"
}

check_rust() {
    has cargo 'Rust' 'rustup installs it' || return
    holds 'Rust by a path' adds_up cargo run --quiet --offline --manifest-path "$documents/examples/rust/Cargo.toml" \
        --target-dir "$out/target"
    cp -R "$prefix/share/fak_c/rust" "$out/copied"
    holds 'Rust by PKG_CONFIG_PATH' adds_up cargo run --quiet --offline --example sum --manifest-path "$out/copied/Cargo.toml" \
        --target-dir "$out/target"
    holds 'the pool of workers in Rust' adds_up cargo run --quiet --offline --features std --example pool \
        --manifest-path "$out/copied/Cargo.toml" --target-dir "$out/target"
    holds 'Rust without the library' says_what_is_missing 'pkg-config knows no fak_c: ' PKG_CONFIG_PATH= PKG_CONFIG_LIBDIR="$out/nowhere"
    holds 'Rust without pkg-config' says_what_is_missing 'there is no no-pkg-config (' PKG_CONFIG=no-pkg-config
    holds 'Rust with an empty FAK_C_DIR' says_what_is_missing 'FAK_C_DIR has no libfak_c.a: ' FAK_C_DIR="$out"
    holds 'Rust with another version' is_refused_by_crate 9.9.9 's/_needs_archive_[0-9]_[0-9]_[0-9]/_needs_archive_9_9_9/g'
    holds 'Rust with an archive without a version' is_refused_by_crate none 's/_needs_archive_/_needs_nothing_/g'
}

# ---- the programs and their pages

# The lines of this block of a program's page.
block_of_page() {
    awk -v wanted="$2" '/^\.RS$/ { block++; inside = 1; next } /^\.RE$/ { inside = 0 } inside && block == wanted' \
        "$prefix/share/man/man1/$1.1" | sed 's/\\-/-/g'
}

# The example of a program's page prints what the page says.
prints_its_example() {
    block_of_page "$1" 1 > "$out/example"
    block_of_page "$1" 2 > "$out/printed"
    [ -s "$out/example" ] && [ -s "$out/printed" ] && outside env PATH="$prefix/bin:$path" sh "$out/example" | cmp - "$out/printed"
}

# A page is laid out without a warning.
is_laid_out() {
    (cd "$prefix/share/man" && LC_ALL=C.UTF-8 groff -man -Tutf8 -ww -z "$1") > "$out/warnings" 2>&1 && ! grep . "$out/warnings"
}

check_programs() {
    for program in fak fak_where; do
        holds "the example of the page of $program" prints_its_example "$program"
    done
    has groff 'the manual pages' 'Debian: apt-get install groff-base' || return
    for page in man1/fak.1 man1/fak_where.1 man3/fak_c.3 man3/fak_channel.3; do
        holds "the layout of $page" is_laid_out "$page"
    done
}

# ---- all of it

# check_installed first|all: the calls, and what is built and run over the prefix; with the word `first` only in C.
check_installed() {
    check_calls
    if has pkg-config 'C, C++ and Rust' 'Debian: apt-get install pkg-config'; then
        check_c
        if [ "$1" = all ]; then
            check_cpp
            check_rust
        fi
    fi
    [ "$1" = first ] || check_programs
}
