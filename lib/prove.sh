# Read behind lib/help.sh by the scripts that prove before they run: what is proved, and how a proved program is run. lib/files.sh has what they read and write.

# what stands before each line that a program says, and the command by which a program ends with its script
named='' mortal=''

# prove CRATE [ARCHIVE]: what is made of CRATE, its program or the archive, is what was proved from these sources by this toolchain: target/started
# says so, or it is proved and made now. Of a library without an archive there is rt's own stamp.
prove() {
    [ -z "$installed" ] || return 0
    find_rt || return 1
    made=${2:-crates/$1/out/rlib/stamp}
    [ ! -f "$top/crates/$1/src/main.rt" ] || made=target/bin/$1
    ! is_proved "$1" "$made" || return 0
    # beside this shell, so that a signal ends both at once
    above=$ending proving='' status=0
    at_end 'kill $proving 2>/dev/null || :'
    prove_anew "$1" "$made" &
    proving=$!
    wait "$proving" || status=1
    ending=$above
    set_traps
    return "$status"
}

# find_rt: the toolchain is there, $rt in the folder $kit; else it says so.
find_rt() {
    rt=$(command -v rt) && rt=$(readlink -f "$rt") || {
        echo "$called: the Rattle toolchain's rt is not on the path" >&2
        return 1
    }
    kit=${rt%/*/*}
}

# is_proved CRATE FILE: whether target/started has the fingerprints of these sources and of this file.
is_proved() {
    kept=''
    { read -r kept <"$top/target/started/$1" && [ "$kept" = "$(fingerprint_of "$1") $(sha256sum <"$top/$2")" ]; } 2>/dev/null
}

# fingerprint_of CRATE: one of all that its proof hangs on: the toolchain, crates.txt, each file of the crate and of those that it stands on, but for the
# edits, and for what rt keeps.
fingerprint_of() (
    cd "$top" || exit 1
    # shellcheck disable=SC2046 # words, an argument each
    {
        sha256sum "$kit/KIT-ID" "$rt"
        find crates.txt $(folders_below "$1") -regex 'crates/[^/]*/\(must-fail\|out\)' -prune -o \( -type f -o -type l \) -exec sha256sum {} + |
            LC_ALL=C sort
    } 2>/dev/null | sha256sum
)

# folders_below CRATE: those of the crate and of all that it stands on, by crates.txt.
folders_below() {
    awk -v crate="$1" '
        function visit(name,    words, n, i) {
            if (seen[name]++) return
            print "crates/" name
            n = split(on[name], words, " ")
            for (i = 1; i <= n; i++) if (words[i] in on) visit(words[i])
        }
        { sub(/#.*/, ""); at = index($0, ":") }
        at { name = substr($0, 1, at - 1); sub(/ .*/, "", name); on[name] = substr($0, at + 1) }
        END { visit(crate) }' crates.txt
}

# prove_anew CRATE FILE: in a shell of its own, proves and makes it, and notes its fingerprints. One proof at a time: the programs of a pipe start
# together, and two proofs in one place disturb each other.
prove_anew() {
    cd "$top" && mkdir -p target/started && room=$(mktemp -d) || exit 1
    trap 'rm -rf "$room"' EXIT
    trap 'end_proof; exit 1' HUP INT TERM
    {
        if command -v flock >/dev/null && ! flock -n 9; then
            echo "$called: waiting for another proof in this folder" >&2
            flock 9 &
            wait $!
            ! is_proved "$1" "$2" || exit 0
        fi
        before='' now=$(fingerprint_of "$1")
        # a source that was saved meanwhile may not be in it
        until [ "$now" = "$before" ]; do
            before=$now
            check_and_make "$1" || exit 1
            take_made "$1" "$2" || exit 1
            now=$(fingerprint_of "$1")
        done
        note_made "$1" "$2" "$now"
    } 9<"$top"
}

# check_and_make CRATE: the crate proved, and its program or its library made in its folder, by rt; where that is refused, what it says is shown.
check_and_make() {
    all=$(folders_below "$1" | wc -l)
    # a pipe's status is that of `tell_progress`: that all is made is a last line. It runs beside this shell, which a signal then ends at once
    ask_rt "$1" </dev/null 2>&1 >/dev/null | tell_progress "$all" >"$room/told" &
    wait $!
    [ "$(tail -n 1 "$room/told")" = "$1: ALL PROVED" ] || {
        cat "$room/told" >&2
        return 1
    }
    # where nothing had changed, rt says nothing of a proof
    ! grep -q '^logic=proved' "$room/told" || { mkdir -p target/log && cp "$room/told" "target/log/$1.say"; }
}

# ask_rt CRATE: what rt says comes on standard error. It makes a program only to run it: it runs here, on nothing, and what it writes is thrown away.
ask_rt() {
    cd "crates/$1" || exit 1
    if [ -f src/main.rt ]; then
        in_own_group "$rt" run
    else
        { in_own_group "$rt" lib && echo "$1: ALL PROVED"; } >&2
    fi
}

# take_made CRATE FILE: what rt has made in the crate's folder stands at its place under target/, where rt moves nothing; of a program its object too.
take_made() {
    case $2 in
    target/bin/*)
        put_in_place "crates/$1/out/$1" "$2" || return 1
        rm -f "target/obj/$1.o"
        [ ! -f "crates/$1/out/$1.o" ] || put_in_place "crates/$1/out/$1.o" "target/obj/$1.o"
        ;;
    *.a) put_in_place "crates/$1/out/lib$1.a" "$2" ;;
    esac
}

# put_in_place FILE PLACE: a copy, by one move.
put_in_place() { mkdir -p "${2%/*}" && cp "$1" "$2.$$" && mv -f "$2.$$" "$2"; }

# note_made CRATE FILE FINGERPRINT: of these sources this file was made, proved.
note_made() {
    mkdir -p target/started
    print=$(sha256sum <"$2") && echo "$3 $print" >"target/started/$1.$$" && mv "target/started/$1.$$" "target/started/$1"
}

# in_own_group COMMAND..: in a group of processes of its own, by whose number it can be ended with all that it has begun.
in_own_group() {
    if command -v setsid >/dev/null; then
        setsid sh -c 'echo $$ >"$0" && exec "$@"' "$room/group" "$@"
    else
        "$@"
    fi
}

end_proof() {
    kill $! 2>/dev/null || :
    [ -s "$room/group" ] || return 0
    kill -s TERM -- "-$(cat "$room/group")" 2>/dev/null || :
    wait
}

# tell_progress CRATES: hands rt's lines on, and tells of each crate that is proved anew; how many there are at most. What a program says that rt runs
# is left out.
tell_progress() {
    at=0 runs=''
    while IFS= read -r line; do
        [ -z "$runs" ] || continue
        case $line in
        "rt: running out/"*)
            runs=${line#rt: running out/}
            line="${runs%%;*}: ALL PROVED"
            ;;
        "rt: chose --jobs "*" for "*)
            at=$((at + 1))
            echo "$called: proving ${line##* }: $at, of $1 at most" >&2
            ;;
        esac
        printf '%s\n' "$line"
    done
}

# start FILE ARGUMENTS..: a program takes this shell's place, by the toolchain's C library. With STACK_KIB=n on a stack of n KiB.
start() {
    [ -z "$installed" ] || exec $mortal "$@" # a package's programs need no C library but what is in them
    # shellcheck disable=SC3045 # POSIX has it not; the shells of Debian have
    [ -z "${STACK_KIB:-}" ] || ulimit -s "$STACK_KIB"
    exec $mortal "$kit/toolchain/lib/ld-linux-x86-64.so.2" --library-path "$kit/toolchain/lib" "$@"
}

# run CRATE ARGUMENTS..: its program, which `prove` has seen in this shell.
run() (
    program=$top/target/bin/$1
    shift
    start "$program" "$@"
)

# run_with_status PROGRAM ARGUMENTS..: runs it, proved. Our programs end with status 0 themselves: where one says something on standard error, the status
# is 1. What it says is passed on as it comes. A signal that ends this shell ends the program: it would read on, and take what its successor waits for.
run_with_status() {
    program='' talk='' ended=0 above=$ending
    at_end 'kill $program 2>/dev/null || :; rm -rf "$talk"'
    true 2>/dev/null 5<&0 || exec 0>/dev/null # closed: the program says that it cannot read
    # .. also a signal that no shell sees, where there is a command for that
    ! setpriv --pdeathsig TERM true 2>/dev/null || mortal='setpriv --pdeathsig TERM'
    # a pipe by two numbers; a program in the background has its input by another one
    talk=$(mktemp -d) && mkfifo "$talk/said" || return 1
    # shellcheck disable=SC2094 # both ends of a pipe
    exec 5<&0 6<>"$talk/said" 7<"$talk/said"
    rm -rf "$talk"
    {
        exec <&7 5<&- 6>&- 7<&-
        pass_lines_on
    } &
    passing=$!
    {
        exec <&5 2>&6 5<&- 6>&- 7<&-
        file=$top/target/bin/$1
        shift
        start "$file" "$@"
    } &
    program=$!
    wait "$program" || ended=$?
    exec 5<&- 6>&- 7<&-
    wait "$passing" || [ "$ended" -eq 141 ] || ended=1
    ending=$above
    set_traps
    case $ended in
    0 | 1) ;;
    141) # who read the output has gone: nothing is said, but where the signal for that is ignored, which a program cannot know
        ended=1
        ! ignores_pipe || echo "$named${1%_main}: cannot write standard output" >&2
        ;;
    *) echo "$called: $1 ended with status $ended" >&2 && ended=1 ;;
    esac
    return "$ended"
}

# ignores_pipe: whether a write to a pipe without a reader ends nobody here.
ignores_pipe() { sh -c 'kill -s PIPE "$$"' 2>/dev/null; }

# pass_lines_on: those of standard input to standard error; fails where there was one that is no warning.
pass_lines_on() {
    failed=0
    while IFS= read -r line || [ -n "$line" ]; do
        printf '%s\n' "$named$line" >&2
        is_warning "$line" || failed=1
    done
    return "$failed"
}

# is_warning LINE: whether it says of no failure. No line is such, but in a script that has a function of its own for it, behind this file.
is_warning() { return 1; }

# run_each PROGRAM ARGUMENTS.. -- FILE..: the same of each file, or of standard input where none is named; the status is 1 where one of them failed or
# could not be read. Of more than one file each one's lines stand behind its name, as head(1) has it, and what is said names it.
run_each() {
    worst=0 arguments='' between=''
    while [ "$1" != -- ]; do
        arguments="$arguments $1"
        shift
    done
    shift
    # shellcheck disable=SC2086 # words, an argument each
    if [ $# -eq 0 ]; then
        run_with_status $arguments
        return
    fi
    many=$#
    for file; do
        [ -z "$(why_unreadable "$file")" ] || { worst=1 && continue; }
        [ "$many" -eq 1 ] || print_head_line "$file" || return 1
        # shellcheck disable=SC2086 # words, an argument each
        { run_with_status $arguments || worst=1; } <"$file" || worst=1
    done
    return "$worst"
}

# print_head_line FILE: behind which its lines stand.
print_head_line() {
    named="$1: "
    trap 'exit 1' PIPE # as where a program's reader has gone
    printf "$between==> %s <==\n" "$1" 2>/dev/null || {
        echo "$called: cannot write standard output" >&2
        return 1
    }
    trap - PIPE
    between='\n'
}
