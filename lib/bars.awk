# The lines of bin/sheet as a picture (SVG): the loss of each port as a bar. Read by bin/sheet --plot, which gives `recordings`, how many there are, `others`,
# how many of them do not count, and where not all ports are asked for, `first` and `last`. Figures have a point where LC_ALL is C.

# of how many recordings it is
function of_which(    text) {
    text = " of " (recordings == 1 ? "a recording" : recordings " recordings")
    return others > 0 ? text ", of which " others (others == 1 ? " does" : " do") " not count" : text
}
# .. and of which ports
function of_ports() {
    return first == "" ? "" : first == last ? ", port " first + 0 : ", ports " first + 0 " to " last + 0
}
# what is not nothing is not 0.00
function percent(share) {
    return share > 0 && share < 0.00005 ? "&lt;0.01 %" : sprintf("%.2f %%", 100 * share)
}
{ port[NR] = $1; missing[NR] = $6; total[NR] = $7; share[NR] = $7 > 0 ? $6 / $7 : 0; if (share[NR] > most) most = share[NR] }
END {
    step = 24; left = 70; wide = 420; top = 74; height = top + step * NR + 40
    # the scale ends at the next of 1, 2, 5, 10, 20, 50, 100 percent
    n = split("0.01 0.02 0.05 0.1 0.2 0.5 1", ends, " ")
    for (i = 1; i <= n; i++) if (!scale && most <= ends[i]) scale = ends[i]
    if (!scale) scale = 1
    printf "<svg xmlns=\"http://www.w3.org/2000/svg\" width=\"900\" height=\"%d\" font-family=\"sans-serif\" font-size=\"13\">\n", height
    printf "<rect width=\"900\" height=\"%d\" fill=\"white\"/>\n", height
    print "<text x=\"16\" y=\"24\" font-size=\"16\">Loss by port" of_which() "</text>"
    print "<text x=\"16\" y=\"44\" fill=\"#555\">missing of all that were to come" of_ports() "</text>"
    printf "<text x=\"%d\" y=\"66\" text-anchor=\"end\" fill=\"#555\">port</text>\n", left - 10
    if (NR == 0) printf "<text x=\"%d\" y=\"66\" fill=\"#555\">no packet of such a port came in</text>\n", left
    for (i = 1; i <= NR; i++) {
        y = top + step * (i - 1)
        printf "<text x=\"%d\" y=\"%d\" text-anchor=\"end\">%s</text>\n", left - 10, y + 14, port[i]
        printf "<rect x=\"%d\" y=\"%d\" width=\"%.1f\" height=\"16\" fill=\"#2b6ca3\"/>\n", left, y + 2, wide * share[i] / scale
        figures = percent(share[i]) " (" missing[i] " of " total[i] ")"
        printf "<text x=\"%.1f\" y=\"%d\" fill=\"#333\">%s</text>\n", left + wide * share[i] / scale + 6, y + 14, figures
    }
    y = top + step * NR + 6
    printf "<line x1=\"%d\" y1=\"%d\" x2=\"%d\" y2=\"%d\" stroke=\"#555\"/>\n", left, y, left + wide, y
    for (i = 0; i <= 4; i++)
        printf "<text x=\"%.1f\" y=\"%d\" text-anchor=\"middle\" fill=\"#555\">%g %%</text>\n", left + wide * i / 4, y + 18, 100 * scale * i / 4
    print "</svg>"
}
