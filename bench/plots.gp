# Draws the pictures of the folder that the variable `folder` names, from the data there.
set encoding utf8
set terminal svg size 960,640 dynamic background "white" font "sans-serif,13" linewidth 1.4
ending = ".svg"
# For trials: another terminal, and files that end otherwise.
if (exists("trial")) { eval "set terminal ".trial; ending = ".png" }
# Colours that are told apart by who doesn't see red or green, too.
array colour = ["#0072b2", "#e69f00", "#009e73", "#cc79a7"]
grey = "#d5d5d5"
dark = "#606060"
set grid lc rgb "#e4e4e4" lt 1 lw 0.5
set border 3 lc rgb "#808080"
set tics nomirror
set style fill solid 0.85 noborder
set datafile missing "nan"
# The names of a file's blocks, as words in quotes.
names(file) = system("grep '^\"' ".file." | tr '\\n' ' '")

# ---- Of the runs: peeled, solved, undetermined.
data = folder."/shares.dat"
all = names(data)
set output folder."/shares".ending
set multiplot layout 2,4 margins 0.07,0.98,0.09,0.82 spacing 0.04,0.14
set label 1 "How many runs of a block peel, are solved, or stay undetermined" at screen 0.07,0.96 font ",16"
set label 2 "peeled" at screen 0.07,0.91 tc rgb colour[1]
set label 3 "solved by elimination" at screen 0.15,0.91 tc rgb colour[2]
set label 4 "undetermined" at screen 0.335,0.91 tc rgb dark
set label 5 "two thirds of the packets are source packets; single losses" at screen 0.98,0.91 right
set xrange [60:100]
set xtics 20
set yrange [0:100]
set key off
do for [i = 0:6] {
    set title word(all, i + 1) offset 0,-0.7
    set xlabel (i > 2 ? "packets that come, %" : "") offset 0,0.5
    set ylabel (i % 4 ? "" : "runs, %") offset 1.5,0
    plot data index i using 1:(100) with filledcurves x1 lc rgb grey, \
        data index i using 1:(100 * ($2 + $3)) with filledcurves x1 lc rgb colour[2], \
        data index i using 1:(100 * $2) with filledcurves x1 lc rgb colour[1]
    if (i == 0) { unset label }
}
unset multiplot

# ---- Packets above k.
data = folder."/needed.dat"
all = names(data)
set output folder."/needed".ending
set multiplot layout 2,2 margins 0.07,0.98,0.09,0.82 spacing 0.07,0.14
set label 1 "How many packets above k a block needs, in random order" at screen 0.07,0.96 font ",16"
set label 2 "peeling: mean" at screen 0.07,0.91 tc rgb colour[1]
set label 3 "peeling: at most (dashed)" at screen 0.21,0.91 tc rgb colour[1]
set label 4 "half of the runs are solved" at screen 0.46,0.91 tc rgb colour[2]
set label 5 "95 of 100 are solved (dashed)" at screen 0.71,0.91 tc rgb colour[2]
set logscale x
set xtics autofreq
set xrange [40:25000]
set yrange [0:35]
do for [i = 0:3] {
    set title word(all, i + 1) offset 0,-0.7
    set xlabel (i > 1 ? "source packets k, with n = 3/2 k" : "") offset 0,0.5
    set ylabel (i % 2 ? "" : "% of k") offset 1.5,0
    plot data index i using 1:2 with linespoints pt 7 ps 0.5 lw 2 lc rgb colour[1], \
        data index i using 1:3 with lines dt 2 lc rgb colour[1], \
        data index i using 1:4 with linespoints pt 7 ps 0.5 lw 2 lc rgb colour[2], \
        data index i using 1:5 with lines dt 2 lc rgb colour[2]
    if (i == 0) { unset label }
}
unset multiplot
unset logscale x

# ---- Bursts.
data = folder."/bursts.dat"
all = names(data)
set output folder."/bursts".ending
set multiplot layout 2,2 margins 0.07,0.98,0.09,0.82 spacing 0.07,0.14
set label 1 "How many runs of a block are rebuilt where losses come in bursts" at screen 0.07,0.96 font ",16"
set label 2 "single losses" at screen 0.07,0.91 tc rgb colour[1]
set label 3 "bursts of 10 packets" at screen 0.21,0.91 tc rgb colour[2]
set label 4 "bursts of 50 packets" at screen 0.40,0.91 tc rgb colour[3]
set label 5 "packets in the order of the file" at screen 0.98,0.91 right
set xrange [5:40]
set yrange [0:100]
do for [i = 0:3] {
    set title word(all, 3 * i + 1)[0:strstrt(word(all, 3 * i + 1), ":") - 1] offset 0,-0.7
    set xlabel (i > 1 ? "mean loss, %" : "") offset 0,0.5
    set ylabel (i % 2 ? "" : "runs rebuilt, %") offset 1.5,0
    plot for [j = 0:2] data index 3 * i + j using 1:(100 * $2) with linespoints pt 7 ps 0.4 lw 2 lc rgb colour[j + 1]
    if (i == 0) { unset label }
}
unset multiplot

# ---- Speed.
data = folder."/speed.dat"
set output folder."/speed".ending
set multiplot layout 1,2 margins 0.08,0.97,0.12,0.86 spacing 0.08,0.1
set label 1 "Megabytes of the object a second, whole program" at screen 0.08,0.96 font ",16"
set label 2 "encode" at screen 0.08,0.91 tc rgb colour[1]
set label 3 "decode of all packets" at screen 0.18,0.91 tc rgb colour[2]
set label 4 "decode, a fifth lost" at screen 0.39,0.91 tc rgb colour[3]
set label 5 "16 MiB" at screen 0.98,0.91 right
set logscale x
unset title
set yrange [0:*]
do for [i = 0:1] {
    if (i) { set xrange [10:60000] } else { set xrange [10:90000] }
    set xlabel (i ? "source symbols of a block, of 256 bytes each" : "bytes of a symbol, 1,000 source symbols a block")
    set ylabel (i ? "" : "MB/s") offset 1.5,0
    plot for [j = 2:4] data index i using 1:j with linespoints pt 7 ps 0.6 lw 2 lc rgb colour[j - 1]
    if (i == 0) { unset label }
}
unset multiplot
