# Read by tests behind lib/help.sh, in the repository's folder: what they share. $room is a folder of the test's own, which it has made.

wrong=0 detail='' within=600

# a shell's program in the background ignores INT, and so would all that it starts
unignored='env --default-signal=INT'
$unignored true 2>/dev/null || unignored=''

# differs WHAT: says that the test has failed, and where; with the first lines of the file $detail, where the test names one.
# shellcheck disable=SC2034 # its last line looks at it
differs() {
    printf '%s\n' "differs: $1${detail:+: $(head -n 3 "$detail" 2>/dev/null)}"
    wrong=1
}

# same FILE FILE WHAT: both have the same bytes.
same() {
    cmp "$1" "$2" || differs "$3"
}

# long_lines: of the files that standard input names, the numbers of lines that have more than 160 signs, whatever the locale is: a byte that goes on with a
# sign does not count.
long_lines() {
    LC_ALL=C xargs awk '
        function finish() { if (numbers != "") print file ": more than 160 signs:" numbers }
        FNR == 1 { finish(); file = FILENAME; numbers = "" }
        length($0) > 160 { line = $0; gsub(/[\200-\277]/, "", line); if (length(line) > 160) numbers = numbers " " FNR }
        END { finish() }'
}

# second_program: $second is the second program, built where that is still to do. Its script looks at every source at each call.
# shellcheck disable=SC2034 # it is for who calls this
second_program() {
    bin/second fcs 00 >/dev/null
    second=target/second/second
}

# waits COMMAND..: until it is true, for a minute at most, or for $within tenths of a second.
waits() {
    tries=0
    until "$@"; do
        tries=$((tries + 1))
        [ "$tries" -lt "$within" ] || return 1
        sleep 0.1
    done
}

# opens COMMAND..: starts it, $started, with a pipe as its input that stays open, as 3. What it writes is in $room/out, what it says in $room/said.
opens() {
    rm -f "$room/pipe"
    mkfifo "$room/pipe"
    : >"$room/out"
    $unignored "$@" <"$room/pipe" >"$room/out" 2>"$room/said" &
    started=$!
    exec 3>"$room/pipe"
}

# unread: nobody reads that pipe any more.
unread() { sh -c 'trap "" PIPE; ! echo >&3' 2>/dev/null; }

# dies SIGNAL PROCESS WHAT: it dies of the signal, at once.
dies() {
    kill -s "$1" "$2"
    { sleep 5 && kill -s KILL "$2"; } 2>/dev/null &
    patience=$!
    status=0
    wait "$2" 2>/dev/null || status=$?
    kill "$patience" 2>/dev/null || :
    case $1,$status in HUP,129 | INT,130 | TERM,143 | KILL,137) ;; *) differs "status $status of $3 at $1" ;; esac
}

# closes SIGNAL WHAT: what was opened dies of the signal, and nobody reads the pipe any more, which is closed.
closes() {
    dies "$1" "$started" "$2"
    waits unread || differs "$2 reads on behind $1"
    exec 3>&-
}

# refused STATUS COMMAND..: it ends with that status, says something and writes nothing.
refused() {
    want=$1 status=0
    shift
    "$@" </dev/null >"$room/out" 2>"$room/said" || status=$?
    [ "$status" -eq "$want" ] && [ -s "$room/said" ] && [ ! -s "$room/out" ] || differs "status $status of $*"
}

# fails LINE COMMAND..: it ends with status 1, says this line alone and writes nothing.
fails() {
    line=$1
    shift
    refused 1 "$@"
    [ "$(cat "$room/said")" = "$line" ] || differs "what $* says"
}
