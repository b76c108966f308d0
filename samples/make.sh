#!/bin/sh
# Writes the sample network files beside this script, byte for byte: sh samples/make.sh
set -eu
cd "$(dirname "$0")"

# a number in one, two or four bytes, the highest first
one() { printf "\\$(printf '%03o' "$1")"; }
two() {
    one $(($1 / 256))
    one $(($1 % 256))
}
four() {
    two $(($1 / 65536))
    two $(($1 % 65536))
}

# the head of a file: its version, n, m, and the kinds of the criteria (0 added, 1 worst, 2 closing)
header() {
    version=$1 n=$2 m=$3
    shift 3
    one "$version"
    four $((4 + $# + m * (3 + version + 4 * $#)))
    one "$n"
    two "$m"
    one $#
    for kind; do one "$kind"; done
}

# the states of a row, which only version 2 writes: it may be dug, must be, or may not
open=0 must=1 barred=2

# a row: two end nodes, a street (0 off the road), a state, its costs
row() {
    one "$1"
    one "$2"
    two "$3"
    [ "$version" -eq 1 ] || one "$4"
    shift 4
    for cost; do four "$cost"; done
}

# network A of document 01
{
    header 1 3 4 0 1
    row 1 2 0 $open 4 7
    row 1 2 0 $open 6 2
    row 1 3 0 $open 5 5
    row 2 3 0 $open 3 6
} > network-a.bin

# A quarter of nine houses, the plant at a corner. Streets 1 to 3 run across, 4 to 6 down; four pairs of neighbours have a second
# trench beside the first, two of them off the road (street 0).
# The criteria: cost (added), greatest depth in centimetres (worst), days for which the street is closed (closing).
#   1 -- 2 -- 3   street 1
#   |    |    |
#   4 -- 5 -- 6   street 2
#   |    |    |
#   7 -- 8 -- 9   street 3
#   streets 4, 5, 6
# In version 2 the second trench between 2 and 5 is open already, so that it must be dug, and the one between 5 and 6 is barred.
quarter() {
    header "$1" 9 16 0 1 2
    row 1 2 1 $open 420 180 6
    row 2 3 1 $open 380 210 5
    row 4 5 2 $open 510 160 7
    row 5 6 2 $barred 450 240 4
    row 7 8 3 $open 390 200 5
    row 8 9 3 $open 470 170 6
    row 1 4 4 $open 350 220 3
    row 4 7 4 $open 400 190 4
    row 2 5 5 $open 360 230 5
    row 5 8 5 $open 330 250 4
    row 3 6 6 $open 440 150 6
    row 6 9 6 $open 410 180 5
    row 1 2 0 $open 560 140 0
    row 2 5 5 $must 480 170 8
    row 5 8 0 $open 590 160 0
    row 6 9 6 $open 530 130 9
}
quarter 1 > quarter.bin
quarter 2 > quarter-with-states.bin
