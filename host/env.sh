# How the host side is built and run on this machine. For bash; source it at the top of the repository.
#
# The proved library is for x86-64 Linux. On another processor the programs that link it are built for
# x86-64 all the same, and run under an emulator. Everything is compiled for release and for the common
# x86-64 processor without extensions; but the proved programs, which `rt ci` compiles, want an x86-64-v2 (of
# 2009 or newer), and end with 127 on an older one.

# Products go here. `rt ci` reads no .rt or .antt file here, and refuses one: copies of crates lie elsewhere.
build=build

# The crate whose calls the host programs link, its archive, what that is made from, and the programs that are tested
# from here.
library=lotlog
archive=$build/lib$library.a
proved_from=(crates.txt crates/*/src crates/*/specs crates/*/proofs)
programs=(lot_audit lot_compare)

# Flags of the Rust compiler, `cc` for C, and `tools` before the names of those that read and change archives.
rust_flags=(--edition 2021 -C opt-level=3 -C target-cpu=x86-64 -L "$build")

# Words for C and for Rust that put a program's libraries into it, where the emulator would have to find them.
static=()
rust_static=()

if [ "$(uname -m)" = x86_64 ]; then
    rustc=${RUSTC:-rustc}
    cc=cc
    tools=
    emulator=()
else
    # the packaged compiler, which finds the packaged standard library for x86-64
    rustc=${RUSTC:-/usr/bin/rustc}
    cc=x86_64-linux-gnu-gcc
    tools=x86_64-linux-gnu-
    emulator=(qemu-x86_64)
    rust_flags+=(--target x86_64-unknown-linux-gnu -C linker="$cc" -C relocation-model=static)
    static=(-static)
    rust_static=(-C target-feature=+crt-static)
fi

# Runs a program for x86-64.
run() { "${emulator[@]}" "$@"; }

# Whether a product is there and newer than every file below the paths given.
is_fresh() { # PRODUCT PATH..
    [ -e "$1" ] && [ -z "$(find "${@:2}" -newer "$1" -print -quit)" ]
}

# Makes a folder that is gone when the shell ends, outside the repository.
make_room() { # sets `room`
    room=$(mktemp -d "${TMPDIR:-/tmp}/lotlog-room.XXXXXX")
    # shellcheck disable=SC2064
    trap "rm -rf '$room'" EXIT
}

# Proves the crates that scripts/room copies, and writes the library's archive. `rt lib` in crates/lotlog makes such an archive
# too, out/liblotlog.a, but would prove each crate below once more: it takes nothing of what `rt ci` has proved.
proved_library() { # ARCHIVE WORD..: sets `room` to where the crates lie
    local kit crate words=()
    make_room
    scripts/room "$room/crates" "${@:2}"
    room=$room/crates
    (cd "$room" && rt ci)
    kit=$(dirname "$(rt doc)")
    for crate in $(sed -n "s/^$library staticlib://p" "$room/crates.txt"); do
        words+=(--extern "$crate=$room/crates/$crate/out/rlib/$crate.rlib")
    done
    for crate in "$room"/crates/*/out/rlib; do words+=(-L "dependency=$crate"); done
    (cd "$room/crates/$library" && "$kit/bin/rattle" build src/lib.rt --crate-name "$library" --crate-type staticlib \
        --target x86_64-unknown-linux-gnu --cpu x86-64 --links "$library=" --jobs "$(nproc)" \
        --extern "std=$kit/rlibs/std.rlib" -L "dependency=$kit/rlibs" "${words[@]}" \
        --antt-project "$kit/rattle/logic/antt-project.json" --logic-built "$kit/logic_built" \
        --toolchain "$kit/toolchain" -o "$room/archive")
    mkdir -p "$build"
    cp "$room/archive" "$1"
}

# Sets `externs` to the words that let a crate use others.
use_crates() { # CRATE..
    local crate
    externs=()
    for crate in "$@"; do externs+=(--extern "$crate=$build/lib$crate.rlib"); done
}

# Builds a Rust library, build/libNAME.rlib, unless it is newer than all of host/.
rust_library() { # NAME SOURCE [CRATE..]
    is_fresh "$build/lib$1.rlib" host && return
    use_crates "${@:3}"
    mkdir -p "$build"
    "$rustc" "${rust_flags[@]}" --crate-type rlib --crate-name "$1" "${externs[@]}" -o "$build/lib$1.rlib" "$2"
}

# Builds a Rust program, build/NAME.
rust_program() { # NAME SOURCE [CRATE..]
    use_crates "${@:3}"
    mkdir -p "$build"
    "$rustc" "${rust_flags[@]}" "${rust_static[@]}" "${externs[@]}" -o "$build/$1" "$2"
}

# Builds the tests of a Rust library, build/NAME.
rust_tests() { # NAME SOURCE [CRATE..]
    rust_flags+=(--test)
    rust_program "$@"
}

# Builds a Rust program that calls the proved library, build/NAME.
linked_program() { # NAME SOURCE [CRATE..]
    [ -e "$archive" ] || { echo "$archive is missing: host/run library makes it" >&2; return 1; }
    rust_flags+=(-C link-arg="$archive")
    rust_program "$@"
}

# The same for a program that loads a library as it runs, which none can that has its libraries in it.
loading_program() { # NAME SOURCE [CRATE..]
    rust_static=()
    linked_program "$@"
}

# Writes where the library of OpenSSL is that benchmarks time, as the C compiler finds it; nothing if it is nowhere.
libcrypto() {
    local file
    file=$("$cc" -print-file-name=libcrypto.so.3 2>/dev/null) || return 0
    [ ! -e "$file" ] || echo "$file"
}
