# gnuplot -e "data='FOLDER/once.dat'; without='FOLDER/none.dat'; out='FILE.svg'" examples/sweep/plot.gp
# The numbers are those of examples/sweep/table: loss, readings that came and half its interval, frames on the air and half its interval.
set terminal svg size 860,400 font "sans-serif,12" background "white"
set output out
set multiplot layout 1,2
set xlabel "loss between neighbouring houses, %"
set xrange [-2:32]
set grid ytics lc rgb "#dddddd"
set key bottom left reverse Left
set title "readings that came, %, by how often the modem sends"
set yrange [0:102]
plot data u 1:2:3 w yerrorlines lw 2 pt 7 ps 0.5 lc rgb "#0055aa" t "up to 5 times again", \
     without u 1:2:3 w yerrorlines lw 2 pt 5 ps 0.5 lc rgb "#cc5500" t "once"
set title "frames on the air for one reading that came"
set key top left reverse Left
set yrange [0:*]
plot data u 1:4:5 w yerrorlines lw 2 pt 7 ps 0.5 lc rgb "#0055aa" t "up to 5 times again", \
     without u 1:4:5 w yerrorlines lw 2 pt 5 ps 0.5 lc rgb "#cc5500" t "once"
unset multiplot
