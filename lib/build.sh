# Read behind lib/prove.sh, in the repository's folder, by the scripts that want more of proved code than rt makes: it is compiled by the toolchain's `rattle`
# itself, which proves the crate once more, over the libraries that stand proved in crates/*/out/rlib. $kit is the toolchain's folder.

# build_code OUT NAME FOLDER FILE LIBRARIES FLAGS..: OUT is what is made of the crate NAME in FOLDER, whose root is FILE there, over these libraries.
build_code() (
    out=$(readlink -m "$1") name=$2 folder=$3 root=$4 libraries=$5
    shift 5
    for below in std $libraries; do
        rlib=$kit/rlibs/$below.rlib
        [ ! -d "$top/crates/$below" ] || rlib=$top/crates/$below/out/rlib/$below.rlib
        set -- "$@" --extern "$below=$rlib"
    done
    mkdir -p "${out%/*}"
    cd "$folder" && "$kit/bin/rattle" build --crate-name "$name" "$root" "$@" -L "dependency=$kit/rlibs" --logic-built "$kit/logic_built" \
        --antt-project "$kit/rattle/logic/antt-project.json" --toolchain "$kit/toolchain" --backend llvm -o "$out" </dev/null 2>&1
)

# build_crate OUT CRATE FLAGS..: the same of a crate of the repository.
build_crate() (
    out=$1 crate=$2 root=src/main.rt
    shift 2
    [ -f "crates/$crate/$root" ] || root=src/lib.rt
    build_code "$out" "$crate" "crates/$crate" "$root" "$(libraries_of "$crate")" "$@"
)

# libraries_of CRATE: those that it stands on, by crates.txt.
libraries_of() { sed -n "s/#.*//; s/^$1\( [^:]*\)\{0,1\}: *//p" crates.txt; }

# are_there CRATE: whether each library that it stands on is built.
are_there() (
    for below in $(libraries_of "$1"); do
        [ ! -d "crates/$below" ] || [ -d "crates/$below/out/rlib/$below.rlib" ] || exit 1
    done
)

# left_by_gate CRATE: whether those libraries are what `rt ci` has left: without the stamps by which rt knows its own again.
left_by_gate() (
    for below in $(libraries_of "$1"); do [ ! -e "crates/$below/out/rlib/stamp" ] || exit 1; done
    are_there "$1"
)

# prove_object CRATE: `prove`, and target/obj/CRATE.o is the object of which the program was linked. rt leaves it where it has made the program itself; `rt ci`
# may have had the program from an earlier run. Then it is compiled once more, and has to give that program, byte for byte.
prove_object() {
    prove "$1" || return 1
    mkdir -p target/log
    { [ -s "target/log/$1.say" ] && gives_program "$1"; } || make_object "$1" || {
        rm -f "target/started/$1" "crates/$1/out/$1"
        prove "$1" && gives_program "$1"
    }
}

make_object() { are_there "$1" && build_crate "target/obj/$1.o" "$1" >"target/log/$1.say" && gives_program "$1"; }

# gives_program CRATE: whether the toolchain's linker makes of target/obj/CRATE.o, byte for byte, the program that stands there proved.
gives_program() (
    [ -f "target/obj/$1.o" ] && linked=$(mktemp) || exit 1
    "$kit/bin/rattle-link" --target x86_64-unknown-linux-gnu --toolchain "$kit/toolchain" -o "$linked" "target/obj/$1.o" "$kit/c/libos_c.a" \
        "$kit/c/liblibc_c.a" >/dev/null 2>&1 && cmp -s "$linked" "target/bin/$1"
    gives=$?
    rm -f "$linked"
    exit "$gives"
)
