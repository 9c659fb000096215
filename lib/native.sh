# Read by benchmarks behind lib/prove.sh and lib/build.sh, in the repository's folder: proved code as an archive that a Rust program calls. $room is a folder of
# the benchmark's own, target/bench/log has what the tools say.

mkdir -p target/bench
: >target/bench/log

# build_archive NAME CRATE FOLDER FILE: $room/libNAME.a of a source in FOLDER, whose root is FILE there, over the crate, which is proved, and what that stands
# on; as `rt lib` makes one.
build_archive() {
    build_code "$room/lib$1.a" "$1" "$3" "$4" "$2 $(libraries_of "$2")" --crate-type staticlib >>target/bench/log || {
        tail -n 20 target/bench/log
        exit 1
    }
}

# build_second NAME CONDITION PROGRAM: the second program with what it times of libNAME.a, and of libfec where that is installed.
build_second() {
    fec=
    if echo '#include <fec.h>' | cc -E - >target/bench/fec.h 2>&1; then fec='--cfg fec -l fec'; fi
    # shellcheck disable=SC2086 # words, an argument each
    rustc --edition 2021 -C opt-level=3 --cfg "$2" -L "$room" -l "static=$1" $fec second/main.rs -o "$3" || exit 1
}
