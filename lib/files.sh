# Read behind lib/help.sh by the scripts that read or write files: which ports, which files, what a terminal does to bytes.

# ports_range A-B: sets first and last to these ports; they are numbers of at most five digits, A is not above B and B is at most 65535.
ports_range() {
    first=${1%%-*} last=${1#*-}
    case $1 in *-*) ;; *) usage "no range of ports (A-B): $1" ;; esac
    for port in "$first" "$last"; do case $port in '' | *[!0-9]* | ??????*) usage "no range of ports (A-B): $1" ;; esac; done
    [ "$first" -le "$last" ] || usage "the first port is above the last: $1"
    [ "$last" -le 65535 ] || usage "there is no port above 65535: $1"
}

# files_only FILE..: none of them is an option; a file may begin with - where it is there, or behind --.
files_only() {
    [ -z "$plain" ] || return 0
    for file; do
        case $file in
        -) [ -e - ] || usage "no file is called -; standard input is read where no file is named" ;;
        -*) [ -e "$file" ] || usage "options stand first, each once: $file" ;;
        esac
    done
}

# why_unreadable FILE: why it cannot be read; nothing where it can.
why_unreadable() {
    if [ -d "$1" ]; then
        echo 'is a directory'
    elif [ ! -r "$1" ]; then
        echo 'no such file, or not to be read'
    fi
}

# can_read FILE..: says of each that cannot be read why, before anything is proved; fails where none can.
can_read() {
    files_only "$@"
    can=$#
    for file; do
        why=$(why_unreadable "$file")
        [ -n "$why" ] || continue
        printf '%s\n' "$called: $file: $why" >&2
        can=$((can - 1))
    done
    [ $# -eq 0 ] || [ "$can" -gt 0 ]
}

# from_file [FILE]: standard input is the file from here on.
from_file() {
    if [ -z "$plain" ] && [ "${1-}" = -- ]; then
        plain=/
        shift
    fi
    files_only "$@"
    [ $# -le 1 ] || usage "one file at most"
    [ $# -eq 1 ] || return 0
    can_read "$1" || exit 1
    command exec <"$1" || exit 1
}

# bytes_in [FILE..]: each of them, or standard input, hands on bytes as they come. A terminal in line mode holds them back, alters some and takes one
# for the end: that is said, and what to do.
bytes_in() {
    if [ $# -eq 0 ] && [ -t 0 ]; then
        refuse_line_mode "standard input" "$(stty -a 2>/dev/null)"
    fi
    for file; do
        [ ! -c "$file" ] || refuse_line_mode "$file" "$(stty -a -F "$file" 2>/dev/null)"
    done
}

refuse_line_mode() { # NAME SETTINGS
    case $2 in *' min = 0;'*)
        echo "$called: $1 is a terminal that ends where no byte waits: stty -F DEVICE raw -echo min 1, or read a file" >&2
        exit 1
        ;;
    esac
    ! has_setting "$2" icanon isig icrnl inlcr igncr istrip iuclc ixon parmrk || {
        echo "$called: $1 is a terminal in line mode, which holds bytes back and alters them: stty -F DEVICE raw -echo, or read a file" >&2
        exit 1
    }
}

# bytes_out: standard output takes bytes as they are; a terminal in line mode puts others in their place: that is said, and what to do.
bytes_out() {
    [ -t 1 ] || return 0
    { settings=$(stty -a <&3 2>/dev/null) || :; } 3>&1
    ! has_setting "$settings" opost || {
        echo "$called: standard output is a terminal in line mode, which alters bytes: stty -F DEVICE raw -echo, or write to a file" >&2
        exit 1
    }
}

# hint_stream [FILE..]: where a file, or standard input that is one, is read as a recording and begins as a stream does, a line says so. Nothing is decided
# by it.
hint_stream() {
    [ $# -gt 0 ] || set -- /dev/stdin
    reader=bin/board
    [ -z "$installed" ] || reader=tirunqesh-board
    for file; do
        [ -f "$file" ] || continue
        name=$file
        [ "$file" != /dev/stdin ] || name='standard input'
        case $(exec 2>/dev/null && od -An -tx1 -N4 <"$file"):${options-} in
        ' 7d 3a e2 42:'*--stream*) printf '%s\n' "$called: $name begins as a stream does: --stream?" >&2 ;;
        ' 7d 3a e2 42:'*) printf '%s\n' "$called: $name begins as a stream does, which $reader --stream reads" >&2 ;;
        esac
    done
}

# has_setting SETTINGS WORD..: whether one of the words stands in what stty says.
has_setting() {
    [ -n "$1" ] || return 1
    settings=" $(printf %s "$1" | tr '\n' ' ') "
    shift
    for word; do
        case $settings in *" $word "*) return 0 ;; esac
    done
    return 1
}

# write_out FILE: its bytes to standard output; where that fails it says so, but for a reader that has gone.
write_out() {
    cat "$1" 2>/dev/null || {
        [ $? -eq 141 ] || echo "$called: cannot write standard output" >&2
        return 1
    }
}
