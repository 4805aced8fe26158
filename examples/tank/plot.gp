# Plots the log of the tank, level and phase over seconds: run it by gnuplot in the folder that holds
# log_plant.csv. It writes tank.svg.
set datafile separator ","
set key autotitle columnhead top left
set terminal svg size 800,400
set output "tank.svg"
set xlabel "seconds"
set ylabel "level"
set y2label "phase"
set y2range [-0.5:1.5]
set y2tics ("FILL" 0, "HOLD" 1)
set ytics nomirror
plot "log_plant.csv" using ($1 / 1000000):2 with linespoints, \
     "" using ($1 / 1000000):3 with steps axes x1y2
