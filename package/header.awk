# Manual pages of the functions that a C header declares, each from the comment above it, and one of the header itself, from the comment at its head and the
# names below it. Read by bin/package, which gives the header, `folder`, where the pages go, `page`, the name of the header's own, `version` and `date`.

# what holds of the repository and not of an installed tree: sentences that name a script, a test or a source of it
function installed(text,    sentence, i, n, out) {
    n = split(text, sentence, /[.] /)
    for (i = 1; i <= n; i++)
        if (sentence[i] !~ /(tests|crates|bin)\//) out = out sentence[i] (i < n ? ". " : "")
    sub(/[.]? *$/, ".", out)
    gsub(/docs\//, "/usr/share/doc/tirunqesh/", out)
    return out
}

function begin(name, brief) {
    file = folder "/" name ".3"
    sub(/[.] .*|: .*|; .*|[.]$/, "", brief)
    print ".TH " toupper(troff(name)) " 3 " date " \"Tirunqesh " version "\" Tirunqesh\n.nh\n.ad l" >file
    print ".SH NAME\n" troff(name) " \\- " troff(tolower(substr(brief, 1, 1)) substr(brief, 2)) >file
    print ".SH SYNOPSIS\n.nf\n.B #include <tirunqesh/rack.h>" >file
}

function finish(    i) {
    print ".SH SEE ALSO" >file
    for (i = 1; i <= functions; i++) if (file != folder "/" named[i] ".3") print ".BR " named[i] " (3)," >file
    if (file != folder "/" page ".3") print ".BR " troff(page) " (3)," >file
    print ".I /usr/share/doc/tirunqesh/RACK.md" >file
    close(file)
}

# a page: its comment is what the function does and, from the line on that begins with an answer, what it answers
function described(i,    line, k, n, does, answers) {
    n = split(comment[i], line, "\n")
    for (k = 1; k <= n; k++)
        if (answers != "" || line[k] ~ /^0[ ,]/) answers = answers (answers == "" ? "" : " ") line[k]
        else does = does (does == "" ? "" : " ") line[k]
    begin(named[i], does)
    print ".sp\n" troff(declared[i]) "\n.fi\n.SH DESCRIPTION\n" troff(installed(does)) >file
    if (answers != "") print ".SH RETURN VALUE\n" troff(answers) >file
    finish()
}

# comments, their lines joined by line feeds; the first is the header's own
/^\/\*/ { open = 1; text = "" }
open {
    line = $0
    gsub(/^\/\* ?|^   | *\*\/$/, "", line)
    text = text (text == "" ? "" : "\n") line
    if (/\*\/$/) {
        open = 0
        if (head == "") head = text
    }
    next
}
/^enum/ { names = names ".PP\n" (text == head ? "" : troff(installed(text))) "\n.EX\n"; listing = 1; text = head }
listing { names = names troff($0) "\n"; if (/^}/) { names = names ".EE\n"; listing = 0 } next }
/^size_t / { declaring = 1; whole = "" }
declaring {
    line = $0
    whole = whole (whole == "" ? "" : "\n") line
    if (/;$/) {
        declaring = 0
        comment[++functions] = text
        declared[functions] = whole
        sub(/^size_t /, "", whole)
        named[functions] = substr(whole, 1, index(whole, "(") - 1)
    }
}
END {
    for (i = 1; i <= functions; i++) described(i)
    gsub(/\n/, " ", head)
    begin(page, head)
    print ".fi\n.SH DESCRIPTION\n" troff(installed(head)) "\n.SH NAMES" >file
    printf "%s", names >file
    finish()
}
