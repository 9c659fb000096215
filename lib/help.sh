# Read by every script before it does anything: -h or --help prints the comment at the script's head, --version the version, and nothing is proved; any other
# option is refused, but for those that the script names in $options, each once; -- ends them. One that may have its value behind a sign = stands there
# with the sign too.

# $top is the repository, $called the script in it, where it is called by a link too; cd goes where it is told.
script=$(readlink -f "$0")
top=${script%/*/*}
called=${script#"$top/"}
unset CDPATH

# In a package (bin/package; COMMIT stands there, no source does, and nothing is proved) the head says tirunqesh-NAME, and $called is the name that
# was called.
installed='' headed=$called
if [ -f "$top/COMMIT" ] && [ ! -e "$top/crates" ] && [ ! -e "$top/crates.txt" ]; then
    installed=1 headed=tirunqesh-${script##*/} called=${0##*/}
    case $called in "${script##*/}" | *[!A-Za-z0-9_.-]*) called=$headed ;; esac
fi

# print_head: the comment at the script's head, as it holds here.
print_head() {
    root=$(printf '%s\n' "${top%/lib/tirunqesh}" | sed 's/[\\|&]/\\&/g')
    sed -n '2,$ { /^#/!q; s/^# \{0,1\}//p; }' "$script" | sed "s|$headed|$called|g${installed:+; s|/usr/share/|$root/share/|g}"
}

# print_version: that of VERSION, and the commit.
print_version() {
    commit=''
    if [ -n "$installed" ]; then
        commit=$(cut -c 1-12 "$top/COMMIT")
    elif [ -e "$top/.git" ]; then
        commit=$(git -C "$top" rev-parse --short=12 HEAD 2>/dev/null) || commit=''
        [ -z "$commit" ] || [ -z "$(git --no-optional-locks -C "$top" status --porcelain)" ] || commit=$commit-dirty
    fi
    echo "$called $(cat "$top/VERSION") (${commit:-no commit is known})"
}

# usage [WHAT]: says what is wrong with the arguments, and how the script is called, by the lines of its head that begin with its name.
usage() {
    {
        [ $# -eq 0 ] || printf '%s\n' "$called: $1"
        print_head | sed -n "s|^\(${called}[^:]*\): .*|\1|p" | sed '1s/^/usage: /; 2,$s/^/   or: /'
        echo "--help says more"
    } >&2
    exit 2
}

# only_numbers MOST ARGUMENTS..: each of the arguments is a number, and there are no more than so many.
only_numbers() {
    [ $# -le $(($1 + 1)) ] || usage "too many arguments"
    shift
    for argument; do case $argument in '' | *[!0-9]*) usage "no number: $argument" ;; esac; done
}

# value_of WHAT ARGUMENTS..: $value is that of the option which stands first, behind its sign = or in the argument behind it, of which there are $behind; where
# there is none, WHAT says what it should be.
# shellcheck disable=SC2034 # both are for who calls it
value_of() {
    what=$1 behind=0
    shift
    value=${1#*=}
    case $1 in
    *=*) ;;
    *)
        [ $# -gt 1 ] || usage "$1 $what"
        value=$2 behind=1
        ;;
    esac
}

# at_end COMMANDS: runs them where this shell ends, by a signal too, of which it then dies: not every sh does so by itself. What was asked for before
# is run behind them.
at_end() {
    ending="$1${ending:+; $ending}"
    set_traps
}

set_traps() {
    trap - EXIT HUP INT TERM
    [ -n "$ending" ] || return 0
    # shellcheck disable=SC2064 # what is to be run is known by now
    trap "$ending" EXIT
    for signal in HUP INT TERM; do
        # shellcheck disable=SC2064 # .. and of which signal
        trap "trap - EXIT $signal; $ending; kill -s $signal \$\$; exit 1" "$signal"
    done
}

# a script that has options reads this file again for each: what it was given before is kept. $plain is / behind --, where every argument is a name
[ "${reading-}" = $$ ] || reading=$$ ending='' given='' plain=''
case ${1-} in
-h | --help)
    print_head || exit 1
    exit 0
    ;;
--version)
    print_version || exit 1
    exit 0
    ;;
--)
    [ -n "$plain" ] || shift
    plain=/
    ;;
-?*)
    case " ${options-} " in
    *" $1 "* | *" ${1%%=*}= "*) ;;
    *) usage "there is no option $1" ;;
    esac
    case "$given " in *" ${1%%=*} "*) usage "options stand first, each once: ${1%%=*}" ;; esac
    given="$given ${1%%=*}"
    ;;
esac
