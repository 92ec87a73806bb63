# The streams of a tidal cell, hour by hour from springs over neaps to springs: the moon's tide of 12.42 hours, the sun's of 12, an overtide of 6.21, each an
# ellipse, and a residual. Parts are cut to whole hundredths of a millimetre per second. `awk -f samples/tidal-cell.awk` prints samples/tidal-cell.txt.
BEGIN {
    for (hour = 0; hour < 355; hour++) {
        m = .505868 * hour
        s = .523599 * hour
        east = 120000 * cos(m) + 40000 * cos(s) + 9000 * cos(2 * m - 1) + 5000
        north = 60000 * cos(m - .6) + 20000 * cos(s - .6) + 6000 * cos(2 * m + .4) - 3000
        printf "%d %d\n", east, north
    }
}
