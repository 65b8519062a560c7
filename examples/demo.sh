#!/bin/sh
# Shows the command line at work on the five examples: sh demo.sh PROGRAM
#
# Says what is asked, shows the command and prints its answer. The commands run on copies in a temporary folder; typed
# in this folder they answer the same. The nodes of the world are made there by the program `world`, which has to stand
# beside the command line, as make puts it. The status is 0 only if all of the output is that of demo.expected.

usage() {
    echo "usage: sh demo.sh PROGRAM, the path of the command line bulhyemik, with the program world beside it" >&2
    exit 2
}

[ $# -eq 1 ] || usage
case $1 in
    /*) program=$1 ;;
    *) program=$PWD/$1 ;;
esac
maker=$(dirname "$program")/world
for each in "$program" "$maker"; do
    [ -f "$each" ] && [ -x "$each" ] || usage
done

work=${TMPDIR:-/tmp}/bulhyemik-demo.$$
(umask 077 && mkdir "$work") || exit 2
trap 'rm -rf "$work"' EXIT
trap 'exit 2' HUP INT TERM
from=$(dirname "$0")
cp "$from"/canyon.* "$from"/harbour[.-]* "$from"/pacific.* "$from"/world.* "$from"/quake.* "$from/demo.expected" "$work" || exit 2
cd "$work" || exit 2

bulhyemik() {
    "$program" "$@"
}

world() {
    "$maker"
}

# ask WORDS COMMAND: what the command prints, then what it says on standard error; a status other than 0 is told.
ask() {
    printf '\n%s\n$ %s\n' "$1" "$2"
    eval "$2" 2>words
    status=$?
    cat words
    [ $status -eq 0 ] || echo "status $status"
}

demo() {
    echo 'Catalano Canyon: two grids that touch, with offsets of latitude and longitude in arc-seconds.'
    ask 'Are the header and its grids as they should be?' \
        'bulhyemik check canyon.txt'
    ask 'Which grids are they, and where do they lie?' \
        'bulhyemik grids canyon.txt'
    ask 'Is the node file long enough? For each grid: its values, and how many of them are no data.' \
        'bulhyemik check canyon.txt canyon.nodes'
    ask 'Is the header written back byte for byte? (cmp prints nothing if so.)' \
        'bulhyemik format canyon.txt >written && cmp written canyon.txt'
    ask 'Do the floats of the grids load as the node file, in steps of 2 to the power -20 arc-second?' \
        'bulhyemik load canyon.floats loaded 20 && cmp loaded canyon.nodes'
    ask 'Which grids are used anywhere on the earth, and where is the southmost, then westmost point of each?' \
        'bulhyemik inforce canyon.txt -648000000 648000000 -324000000 324000000'
    ask 'And within a tenth of a degree on the line where they touch?' \
        'bulhyemik inforce canyon.txt 27360000 27720000 144000000 144000000'
    ask 'Six points (longitude, latitude, day): which grid is used, and what are the two offsets in steps?' \
        'bulhyemik lookup canyon.txt canyon.nodes <canyon.points'
    ask 'The first in degrees and arc-seconds. Annex E.1 works out 1.45000 and -2.40333; README.md tells of the second.' \
        'bulhyemik screen canyon.txt canyon.nodes 27720000 143880000 0'
    ask 'The same for a program, as an object of JSON.' \
        'bulhyemik screen --json canyon.txt canyon.nodes 27720000 143880000 0'
    ask 'And the first three points as a table, with its units.' \
        'head -3 canyon.points | bulhyemik lookup --csv canyon.txt canyon.nodes'
    ask 'What if Q were 21?' \
        'sed 1s/20/21/ canyon.txt | bulhyemik check -'

    printf '\n%s\n' 'Harbour: silt in metres, settling from day 100 to 200; on day 300 two fifths are dredged.'
    ask 'Are the header, its grids and its node file as they should be? One value of the third grid is no data.' \
        'bulhyemik check harbour.txt harbour.nodes'
    ask 'Is the header written back byte for byte?' \
        'bulhyemik format harbour.txt >written && cmp written harbour.txt'
    ask 'Which grids are used anywhere on the earth?' \
        'bulhyemik inforce harbour.txt -648000000 648000000 -324000000 324000000'
    ask 'And over the two basins? Neither hides the bay there alone; together they do.' \
        'bulhyemik inforce harbour.txt -14390000 -14370000 180010000 180020000'
    ask 'One milliarcsecond further north the bay comes out again.' \
        'bulhyemik inforce harbour.txt -14390000 -14370000 180010000 180020001'
    ask 'An exercise area was drawn a milliarcsecond wider than the bay: where is the first point that no grid holds?' \
        'bulhyemik hole harbour.txt -14400000 -14359999 180000000 180030000'
    ask 'And does the bay itself have such a point?' \
        'bulhyemik hole harbour.txt -14400000 -14360000 180000000 180030000'
    ask 'One point on five days, then eight places on day 200: the silt in steps of 2 to the power -10 metre.' \
        'bulhyemik lookup harbour.txt harbour.nodes <harbour.points'
    ask 'A whole exercise, 10,000 positions from west to east: which grids are used, one after the other?' \
        "awk 'BEGIN { for (k = 0; k < 10000; k++) print 4 * k - 14400000 \"\\t180015000\\t200\" }' >track
  bulhyemik lookup harbour.txt harbour.nodes <track >whole && cut -f 5 whole | uniq"
    ask 'The same in four parts, all at once, and joined: are the answers those of the whole? (cmp prints nothing if so.)' \
        'split -l 2500 track part.
  for part in part.*; do bulhyemik lookup harbour.txt harbour.nodes <$part >fixes.$part & done; wait
  cat fixes.* | cmp - whole'

    printf '\n%s\n' 'Logs: what simulators wrote down in the harbour, a fix a line, judged line by line.'
    ask 'Does the log of our own points pass?' \
        'bulhyemik judge harbour.txt harbour.nodes harbour.log'
    ask 'And all that lookup prints, be it 10,000 lines?' \
        'bulhyemik lookup harbour.txt harbour.nodes <track | bulhyemik judge harbour.txt harbour.nodes -'
    ask 'A simulator that logs fractions of steps:' \
        'bulhyemik judge harbour.txt harbour.nodes harbour-form.log'
    ask 'One that takes the bay where the better grid has no data:' \
        'bulhyemik judge harbour.txt harbour.nodes harbour-refused.log'
    ask 'One that takes rank 1 for the worst:' \
        'bulhyemik judge harbour.txt harbour.nodes harbour-grid.log'
    ask 'One that cuts fractions off, where the nearest step is asked for:' \
        'bulhyemik judge harbour.txt harbour.nodes harbour-shift.log'

    printf '\n%s\n' 'Pacific: the level of the sea in metres, in two grids across the 180 degree meridian, each written from its own side.'
    ask 'Where do they lie, and which longitudes of points is that?' \
        'bulhyemik grids pacific.txt'
    ask 'Points at 179.5, -179.5, 180, -180, 178.5, -178.5 degrees, east of the sea, and one that has to be turned first.' \
        'bulhyemik lookup pacific.txt pacific.nodes <pacific.points'
    ask 'Which grids does an area across the meridian use?' \
        'bulhyemik inforce pacific.txt 644400000 -640800000 -62100000 -58500000'
    ask 'So asked for in two calls:' \
        'bulhyemik inforce pacific.txt 644400000 648000000 -62100000 -58500000
  bulhyemik inforce pacific.txt -648000000 -640800000 -62100000 -58500000'
    ask 'And anywhere on the earth? Longitudes are those of the area, so the westmost is -180 degrees.' \
        'bulhyemik inforce pacific.txt -648000000 648000000 -324000000 324000000'
    ask 'Going east from -180 degrees along 17 degrees south, where does the sea end?' \
        'bulhyemik hole pacific.txt -648000000 648000000 -61200000 -61200000'
    ask 'What if both had rank 1? As written they lie far apart.' \
        "sed '/sea/s/2\\(.52\\)\$/1\\1/' pacific.txt | bulhyemik check -"

    printf '\n%s\n' 'World: heights of a made-up geoid in metres, one grid of one degree round the whole earth.'
    ask 'Its 65,341 nodes are made by a formula. Are they those of the header, and does each have a value?' \
        'world >world.nodes && bulhyemik check world.txt world.nodes'
    ask 'Where does it lie? Just a turn wide: its first and its last column are the same meridian.' \
        'bulhyemik grids world.txt'
    ask 'Is there a place on the earth that it does not hold?' \
        'bulhyemik hole world.txt -648000000 648000000 -324000000 324000000'
    ask 'Half a degree to both sides of the 180 degree meridian, on it, both poles, a node, the canyon, and beyond the north pole.' \
        'bulhyemik lookup world.txt world.nodes <world.points'
    ask 'The lowest node and the canyon in degrees and metres. A step is 2 to the power -20 metre, about a micrometre.' \
        'tail -3 world.points | head -2 | bulhyemik screen world.txt world.nodes'
    ask '10,000 positions round the whole earth, half a degree north of the equator: does their log pass?' \
        "awk 'BEGIN { for (k = 0; k < 10000; k++) print 129600 * k - 648000000 \"\\t1800000\\t0\" }' >track
  bulhyemik lookup world.txt world.nodes <track | bulhyemik judge world.txt world.nodes -"
    ask 'What does a float of 100 metres load as?' \
        "printf '\\000\\000\\310\\102' >hundred && bulhyemik load hundred loaded 20 && od -A n -t d4 loaded"
    ask 'And one of -2048 metres? In steps that is the number of the no-data mark, which only no data becomes.' \
        "printf '\\000\\000\\000\\305' >deep && bulhyemik load deep loaded 20"

    printf '\n%s\n' 'Quake: how much deeper a harbour is than its chart says: an earthquake, silt from then on, and dredging.'
    ask 'Are the header and its node file as they should be?' \
        'bulhyemik check quake.txt quake.nodes'
    ask 'Which functions of time does it have, and where does its grid lie?' \
        'bulhyemik grids quake.txt'
    ask 'Is the header written back byte for byte, with its functions in the order in which they were written?' \
        'bulhyemik format quake.txt >written && cmp written quake.txt'
    ask 'A node of a million steps on ten days, so that each shift is the factor of the day; then a point within the cell on three.' \
        'bulhyemik lookup quake.txt quake.nodes <quake.points'
    ask 'The node in metres, on the day before the earthquake, on its day and at the end of the dredging.' \
        "sed -n '2p;3p;9p' quake.points | bulhyemik screen quake.txt quake.nodes"
    ask 'What if the floor had been sounded after the earthquake, on day 1100? The same three days:' \
        "sed 2s/900/1100/ quake.txt >later.txt
  sed -n '2p;3p;9p' quake.points | bulhyemik lookup later.txt quake.nodes"
    ask 'What if the dredging ended on the day on which it starts? Such a change is a step.' \
        'sed 4s/1500/1200/ quake.txt | bulhyemik check -'
    ask 'And if its reference day were left out? The first word of a line decides its form, and a ramp2 has four numbers.' \
        'sed 4s/.1300// quake.txt | bulhyemik check -'
}

demo >transcript
cat transcript
cmp -s transcript demo.expected && exit 0
{
    echo 'demo.sh: this is not what demo.expected holds (< expected, > printed):'
    diff demo.expected transcript
} >&2
exit 1
