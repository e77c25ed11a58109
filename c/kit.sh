# Read by the scripts here, by cost/skm and by tools/retarget: where the toolchain is, how it makes an archive for C, and how a program without a C library
# is compiled and linked. `top` is the top of the checkout, set by who reads this.

# Says why it cannot be done, and ends.
die() {
    printf '%s: %s\n' "${0##*/}" "$*" >&2
    exit 2
}

rt=$(command -v rt) || die "there is no rt on this machine: the Rattle toolchain is needed, its rt on the PATH"
home=$(dirname "$(dirname "$(readlink -f "$rt")")")
machine=$(uname -m)
tools=$home/toolchain
archive=$top/crates/abi/out/libabi.a
no_archive="there is no archive $archive: rt lib in crates/abi makes it"

# The toolchain's own compiler, else one of the machine.
cc=$tools/bin/clang
[ -x "$cc" ] || cc=$(command -v clang || command -v gcc) || die "neither the toolchain at $home nor this machine has a compiler for C"

# Proves a library for C and compiles it, over the libraries that stand in out/ of the crates below it: no other crate is proved.
built() { # CRATE WORD..
    crate=$1
    shift
    for c in $(sed -n "s/#.*//; s/^ *$crate\( [^:]*\)\{0,1\}://p" "$top/crates.txt"); do
        if [ -d "$top/crates/$c" ]; then set -- "$@" --extern "$c=$top/crates/$c/out/rlib/$c.rlib"; else set -- "$@" --extern "$c=$home/rlibs/$c.rlib"; fi
    done
    for c in "$top"/crates/*/out/rlib; do set -- "$@" -L "dependency=$c"; done
    (cd "$top/crates/$crate" && "$home/bin/rattle" build --crate-name "$crate" src/lib.rt --crate-type staticlib --extern "std=$home/rlibs/std.rlib" \
        -L "dependency=$home/rlibs" --antt-project "$home/rattle/logic/antt-project.json" --logic-built "$home/logic_built" --jobs 2 "$@")
}

# Compiles C without any header but those in c/shim.
compile() { # TARGET WORD..
    to=$1
    shift
    case $cc in
    "$tools"/*) set -- --target="$to" --no-default-config "$@" ;;
    */clang) set -- --target="$to" "$@" ;;
    *) [ "${to%%-*}" = "$machine" ] || die "$cc makes code for $machine alone" ;;
    esac
    "$cc" -nostdinc -isystem "$top/c/shim" -I "$top/c" -ffreestanding -fno-builtin -O2 -Wall -Wextra -Werror -pedantic "$@"
}

# A tool of LLVM. In the toolchain all of them are one program, which looks at the name that it is called by. `work` is a folder of the caller's.
llvm() { # NAME WORD..
    tool=$1
    shift
    [ -x "$tools/bin/clang" ] || { "$tool" "$@"; return; }
    [ -e "$work/$tool" ] || ln -s "$tools/bin/clang" "$work/$tool"
    "$work/$tool" "$@"
}

# Links without a C library.
linked() { # WORD..
    if [ -x "$tools/bin/clang" ] || command -v ld.lld >/dev/null; then llvm ld.lld "$@"; else ld "$@"; fi
}

# Makes a program of a C file and an archive.
program() { # TARGET FILE ARCHIVE OUT
    compile "$1" -std=c99 -c "$2" -o "$4.o"
    compile "$1" -std=c99 -c "$top/c/alone.c" -o "$4.alone.o"
    case $1 in
    wasm32-*) llvm wasm-ld --no-entry --export=main -o "$4" "$4.o" "$4.alone.o" "$3" ;;
    *) linked -static --gc-sections -o "$4" "$4.o" "$4.alone.o" "$3" ;;
    esac
}
