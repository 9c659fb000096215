# Read by bin/package behind lib/prove.sh and lib/build.sh: the objects of proved programs, and the archive of the functions for C. For x86-64 they are those
# that were proved; for aarch64 the toolchain makes them of the same libraries, and proves each once more for that processor.

# code_for ARCHITECTURE NAME FILE: $code is what is made of the crate for that processor; for x86-64 it is FILE.
code_for() {
    code=$3
    [ "$1" != amd64 ] || return 0
    code=target/package/$1/${3##*/} kept=''
    { read -r kept <"$code.made" && [ "$kept" = "$(fingerprint_of "$2") $(sha256sum <"$code")" ]; } 2>/dev/null && return
    say "$2: for $1"
    # the libraries stand as they were proved: `rt ci` has left them, or rt looks at each once more
    left_by_gate "$2" || { rm -f "target/started/$2" && prove "$2" "$3"; } || fail "$2: not proved"
    mkdir -p "${code%/*}"
    set -- "$2" --target aarch64-unknown-linux-gnu
    case $code in *.a) set -- "$@" --crate-type staticlib ;; esac
    build_crate "$code" "$@" >"$code.say" || fail "$1: not made; $code.say has what the toolchain said"
    print=$(sha256sum <"$code") && echo "$(fingerprint_of "$1") $print" >"$code.made"
}
