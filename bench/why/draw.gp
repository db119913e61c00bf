# Draws what run.sh measured: lateness over time, a row for each way of sharing, and the shares of turns that are later than so much.
set terminal svg size 900,900 noenhanced font 'sans-serif,13' background '#ffffff'
colours = "#888888 #c0392b #e67e22 #b7950b #8e44ad #1f6fb2 #1e8449"
set output out.'_time.svg'
set multiplot layout words(kinds),1 margins 0.10,0.97,0.06,0.97 spacing 0.012
set logscale y
set yrange [1:20000]
set xrange [0:(seconds < 3 ? seconds : 3)]
set ytics (1, '' 10 1, 100, '' 1000 1, '10 ms' 10000) nomirror
set ytics add ('1 µs' 1, '100 µs' 100)
set xtics format ''
set grid ytics linecolor '#dddddd'
unset key
do for [i=1:words(kinds)] {
    if (i == words(kinds)) { set xtics format '%g s' }
    set label 1 word(kinds, i) at graph 0.01,0.86 front font 'sans-serif,14'
    plot room.'/'.third.'.'.word(kinds, i).'.time' using 1:2 with impulses linecolor rgb word(colours, i) linewidth 1
}
unset multiplot
reset
set terminal svg size 900,480 noenhanced font 'sans-serif,13' background '#ffffff'
set output out.'_shares.svg'
set logscale xy
set xrange [1:20000]
set xtics ('1 µs' 1, '10 µs' 10, '100 µs' 100, '1 ms' 1000, '10 ms' 10000)
set yrange [*:1]
set ytics ('all' 1, '1 in 10' 0.1, '1 in 100' 0.01, '1 in 1,000' 0.001, '1 in 10,000' 0.0001, '1 in 100,000' 0.00001)
set xlabel 'the loop had its record so late, or later'
set ylabel 'share of turns'
set grid linecolor '#dddddd'
set key outside right top
plot for [i=1:words(kinds)] room.'/'.third.'.'.word(kinds, i).'.share' using 1:2 with lines linewidth 2 linecolor rgb word(colours, i) title word(kinds, i)
