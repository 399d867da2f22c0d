# The times in rounds.csv or changes.csv, by the word in `what`, over the number of threads. The key has the forms in the order of their
# times on the most threads. Lines of this repository are solid.
set terminal svg noenhanced size 860,(what eq "rounds" ? 800 : 420) font "DejaVu Sans,12" background rgb "white"
set datafile separator ","
set logscale xy
set xrange [0.9:4.4]
set xtics (1, 2, 4)
set xlabel "threads at once"
set border 3 linecolor rgb "#59636e"
set tics nomirror
set grid ytics linecolor rgb "#d1d9e0"
set key outside right top samplen 2.5 spacing 1.15 font ",11" Left reverse
set lmargin 9
# The lines of one form, and the names of all forms.
lines_of(table, match) = sprintf("<awk -F, '%s' %s.csv", match, table)
names(table, match, name, time) = \
    system(sprintf("awk -F, '%s {print $%d \",\" $%d}' %s.csv | sort -rg | sed 's/.*,\\(.*\\)/\"\\1\"/'", match, time, name, table))
is_ours(name) = name[1:4] eq "gate" || name[1:5] eq "queue"
colour(at) = word("#0550ae #bc4c00 #116329 #8250df #a40e26 #00727a #7d4e00 #6e7781 #1f2328 #c2477f #2f81f7 #57ab5a #b08800 #986ee2 #e5534b", at)
do for [i = 1:15] {
    set style line i linewidth 2.2 dashtype 1 pointtype 7 pointsize 0.5 linecolor rgb colour(i)
    set style line 20 + i linewidth 1.2 dashtype 2 pointtype 7 pointsize 0.5 linecolor rgb colour(i)
}

if (what eq "rounds") {
    set multiplot layout 2, 1
    do for [kind in "gate queue"] {
        set title sprintf("a round of the %s, ns: the least of the runs", kind) font ",13"
        forms = names("rounds", sprintf("$1 == \"%s\" && $3 == 4", kind), 2, 4)
        plot for [i = 1:words(forms)] lines_of("rounds", sprintf("$1 == \"%s\" && $2 == \"%s\"", kind, word(forms, i))) using 3:4 \
            with linespoints linestyle (is_ours(word(forms, i)) ? i : 20 + i) title word(forms, i)
    }
    unset multiplot
} else {
    set title "a change of limits, µs: the median" font ",13"
    forms = names("changes", "$2 == 4", 1, 3)
    plot for [i = 1:words(forms)] lines_of("changes", sprintf("$1 == \"%s\"", word(forms, i))) using 2:3 \
        with linespoints linestyle (is_ours(word(forms, i)) ? i : 20 + i) title word(forms, i)
}
