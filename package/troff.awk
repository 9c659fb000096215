# text for a page: signs that troff takes for its own, and `words` in bold
function troff(text,    part, i, n, out) {
    gsub(/\\/, "\\e", text)
    gsub(/-/, "\\-", text)
    gsub(/'/, "\\(aq", text)
    gsub(/~/, "\\(ti", text)
    gsub(/\^/, "\\(ha", text)
    n = split(text, part, "`")
    for (i = 1; i <= n; i++) out = out (i % 2 ? part[i] : "\\fB" part[i] "\\fR")
    return out ~ /^[.]/ ? "\\&" out : out
}
