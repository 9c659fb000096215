# A script of bin/ as it is installed (form=script), or its manual page (form=manual), from the comment at its head; or a users' page as it is installed
# (form=page). Read by bin/package, which gives besides `form` the `name` of the script, the `commands` that are installed, the pages that are `left` out,
# `version` and `date`.
# A head is a list of items: one or more that begin with the script's name (how it is called, a colon, what it does), one that begins with `Status:`, one
# that begins with `Example:`. Names and paths become those of an installed tree, and what is said of proving goes: nothing is proved there.

# a text without every piece that matches
function without(text, pattern) {
    gsub(pattern, "", text)
    return text
}

# a text with the names that commands have where they are installed
function renamed(text,    each, i, n, done, at) {
    n = split(commands, each, " ")
    for (i = 1; i <= n; i++) {
        done = ""
        while (at = index(text, "bin/" each[i])) {
            # bin/board is no part of bin/boards or bin/board.sh
            done = done substr(text, 1, at - 1)
            text = substr(text, at + 4)
            done = done (text ~ ("^" each[i] "([^A-Za-z0-9_.]|[.]?$|[.][^A-Za-z])") ? "tirunqesh-" : "bin/")
            done = done substr(text, 1, length(each[i]))
            text = substr(text, length(each[i]) + 1)
        }
        text = done text
    }
    return text
}

# .. and with what lies in a folder of the sources where it is installed; where the folder stands behind a path, that says already where it is
function moved(text, folder,    done, at) {
    while (at = index(text, folder)) {
        done = done substr(text, 1, at - 1)
        done = done (done ~ /[A-Za-z0-9_.\/-]$/ ? "" : "/usr/share/tirunqesh/") folder
        text = substr(text, at + length(folder))
    }
    return done text
}

# a page that names one which is not installed: that one stays in docs/, which is docs: until all others are placed
function unlinked(text,    each, i, n, link) {
    n = split(left, each, " ")
    for (i = 1; i <= n; i++) {
        link = "\\[" each[i] "\\]\\((docs/)?" each[i] "[.]md\\)"
        gsub(link, "docs:" each[i] ".md of the sources", text)
        gsub("docs/" each[i] "[.]md", "docs:" each[i] ".md", text)
    }
    return text
}

# .. and with the paths that files have there
function placed(text) {
    text = moved(moved(unlinked(renamed(text)), "samples/"), "viewer/")
    while (match(text, /docs\/[A-Z]+[.]md/)) text = substr(text, 1, RSTART - 1) "/usr/share/doc/tirunqesh/" substr(text, RSTART + 5)
    gsub(/docs:/, "docs/", text)
    return text
}

# an item of a head: nothing is proved, and what it writes goes into the folder it is called in
function installed(text) {
    text = without(text, " *Proves first what is still to be proved[^.]*[.]")
    text = without(text, ", or not proved| or not proved|, not proved")
    return without(placed(text), "target/")
}

# prints a text in lines of at most 78 signs, each behind `before`; the first line is not broken before its sign number `least`
function fold(text, before, least,    word, i, n, line) {
    n = split(text, word, " ")
    line = word[1]
    for (i = 2; i <= n; i++)
        if (length(line) >= least && length(before line " " word[i]) > 78) {
            print before line
            line = word[i]
            least = 0
        } else
            line = line " " word[i]
    print before line
}

# where a call ends: the sign number of the colon behind it
function colon(item) {
    return match(item, /: /) ? RSTART : 0
}

# what a command does, in a line: its first clause, without marks
function brief(item,    text, at) {
    text = substr(item, colon(item) + 2)
    gsub(/`/, "", text)
    if (match(text, /; |[.] |: /)) text = substr(text, 1, RSTART - 1)
    sub(/[.]$/, "", text)
    while (length(text) > 100 && match(text, /, [^,]*$/)) text = substr(text, 1, RSTART - 1)
    return text
}

function statuses(text,    at) {
    sub(/^Status: */, "", text)
    print ".SH EXIT STATUS"
    while (text ~ /^[0-9]+ /) {
        print ".TP\n.B " substr(text, 1, index(text, " ") - 1)
        text = substr(text, index(text, " ") + 1)
        at = match(text, /; [0-9]+ /) ? RSTART : length(text) + 1
        print troff(substr(text, 1, at - 1))
        text = substr(text, at + 2)
    }
    if (text != "") print ".PP\n" troff(text)
}

# a line for each call; one that is too long for a page goes on behind a pipe's bar
function examples(text,    each, i, n, at) {
    print ".SH EXAMPLES\n.EX"
    n = split(text, each, "; ")
    for (i = 1; i <= n; i++) {
        while (length(each[i]) > 70 && (at = index(each[i], " | "))) {
            print troff(substr(each[i], 1, at + 1))
            each[i] = "    " substr(each[i], at + 3)
        }
        print troff(each[i])
    }
    print ".EE"
}

# the commands that the page speaks of, and the pages of the documents
function others(text,    each, i, n, line) {
    n = split(commands, each, " ")
    for (i = 1; i <= n; i++)
        if (each[i] != name && text ~ ("tirunqesh-" each[i] "([^A-Za-z0-9_]|$)")) line = line (line == "" ? "" : ",\n") ".BR tirunqesh\\-" each[i] " (1)"
    while (match(text, /\/usr\/share\/doc\/tirunqesh\/[A-Z]+[.]md/)) {
        line = line (line == "" ? "" : ",\n") ".I " substr(text, RSTART, RLENGTH)
        text = substr(text, RSTART + RLENGTH)
    }
    return line
}

function manual(    i, all, called, see) {
    called = "tirunqesh-" name
    print ".TH " toupper(troff(called)) " 1 " date " \"Tirunqesh " version "\" Tirunqesh\n.nh\n.ad l"
    print ".SH NAME\n" troff(called) " \\- " troff(brief(item[1]))
    print ".SH SYNOPSIS\n.nf"
    for (i = 1; i <= items && index(item[i], called) == 1; i++)
        print "\\fB" troff(called) "\\fR" troff(substr(item[i], length(called) + 1, colon(item[i]) - length(called) - 1))
    print ".fi\n.SH DESCRIPTION"
    for (i = 1; i <= items; i++) {
        all = all " " item[i]
        if (item[i] ~ /^Status:/) {
            print ".PP\n" troff("`--help` says the same, `--version` the version and the commit.")
            statuses(item[i])
        }
        else if (item[i] ~ /^Example:/) examples(substr(item[i], 10))
        else
            print (i > 1 ? ".PP\n" : "") troff(described(item[i], called))
    }
    see = others(all)
    if (see != "") print ".SH SEE ALSO\n" see
}

# an item without its call, where it is the only one; else the call in bold before it
function described(text, called,    does) {
    if (index(text, called) != 1) return text
    does = substr(text, colon(text) + 2)
    return item[2] ~ ("^" called) ? "`" substr(text, 1, colon(text)) "` " does : toupper(substr(does, 1, 1)) substr(does, 2)
}

form == "page" { print placed($0); next }
NR == 1 && /^#!/ { next }
!body && /^#/ {
    line = $0
    sub(/^# ?/, "", line)
    if (!items || index(line, "bin/" name) == 1 && line ~ /: / || line ~ /^(Status|Example):/) item[++items] = line
    else item[items] = item[items] " " line
    next
}
!body {
    body = 1
    for (i = 1; i <= items; i++) item[i] = installed(item[i])
    if (form == "manual") {
        manual()
        exit
    }
    print "#!/bin/sh"
    for (i = 1; i <= items; i++) fold(item[i], "# ", index(item[i], "tirunqesh-" name) == 1 ? colon(item[i]) + 2 : 0)
}
{ print }
