//! The texts of `--help`.

pub const ALL: &str = "\
usage: bulhyemik COMMAND ARGUMENT..

Looks up shifts in groups of grids.

  check HEADER                            judge a header
  check HEADER NODES                      judge a header and its node file
  grids HEADER                            functions and grids of a header, as tables
  format HEADER                           write a header back
  lookup HEADER NODES LON LAT DAY         shifts of a point on a day, in steps
  lookup HEADER NODES                     the same for points from standard input
  screen HEADER NODES LON LAT DAY         degrees and shifts in units, as floats
  screen HEADER NODES                     the same for points from standard input
  inforce HEADER WEST EAST SOUTH NORTH    grids in force in an area
  hole HEADER WEST EAST SOUTH NORTH       the first point that no grid holds
  judge HEADER NODES LOG                  judge a log line by line, by the lookup
  load FLOATS NODES Q [FLAG]              make a node file from a file of floats
  help [COMMAND]                          say more of a command

-h or --help behind a command says more of it; -V or --version prints the
version. Files that are read can be - for standard input; behind -- a word that
begins with - is no option. Longitudes and latitudes are whole milliarcseconds:
1 degree is 3600000. Points and areas have longitudes of at most 180 degrees,
648000000 in size; a grid can reach beyond.

With --json or --csv grids, lookup, screen, inforce and hole print records for
programs: JSON, an object on a line, or CSV, a line of headings first. A refusal
is an object of refused, place and words, or a line of refused and place; that
of a point has the point too. What goes to standard error stays the same.

docs/RULES.md says how a header is written, how a node file is made, what a log
is, and what every refusal means.

exit status: 0 accepted or passed, 1 refused or failed, 2 usage or file error
";

const CHECK: &str = "\
usage: bulhyemik check HEADER
       bulhyemik check HEADER NODES

Judges a header text. Prints `accepted`, or `refused`, the number of the
refusal and its place, parted by tabs; the refusal in words goes to standard
error.

With NODES, a file of little-endian 32-bit integers, judges too whether it is
long enough, and behind `accepted` prints a line for each grid: its number, its
name, how many values it has in the file, and how many of them are the no-data
mark. Values that stand in no grid are counted on standard error. Many of either
tell of a file of another group.

  bulhyemik check examples/canyon.txt
  bulhyemik check examples/canyon.txt examples/canyon.nodes

exit status: 0 accepted, 1 refused, 2 usage or file error
";

const GRIDS: &str = "\
usage: bulhyemik grids [--functions] [--tsv | --json | --csv] HEADER

Prints what a header holds: its functions of time, if it has any, then, below an
empty line, its grids.

A function has a line: its number, its kind (ramp, step or ramp2) and its
numbers by their names, in the order of the header; days are plain numbers, S0,
S1 and MULT are millionths.

A grid has two: number, name, rank, and for each axis the extent in
milliarcseconds and in degrees, the spacing and the count of nodes; then the
first and the last position of the grid's values in the node list, counted from
0. An extent is shown as the header has it; where a grid reaches the 180 degree
meridian or beyond, lines `points` below its longitudes say which longitudes of
points it holds.

With --functions the functions alone are printed, which --tsv and --csv leave
out without it.

With --tsv it is one line a grid, parted by tabs: number, name, rank, west,
east, south and north in milliarcseconds, DLON, DLAT, NI, NJ, first and last
position; or, with --functions, one line a function: number, kind, A, S0, B, S1,
EVENT, START, END, REF and MULT, empty where the kind has no such number. With
--csv the same is parted by commas, below a line of headings.

With --json it is one object: group (its name), unit, quantum (Q), parameters
(how many there are), functions and grids, lists with an object for each: what a
line of --tsv has, as number, kind, a_day, s0_millionths, b_day, s1_millionths,
event_day, start_day, end_day, ref_day and mult_millionths, those of its kind
alone; and as number, name, rank, west_mas, east_mas, south_mas, north_mas,
dlon_mas, dlat_mas, ni, nj, first and last. With --functions grids are left out.

  bulhyemik grids examples/quake.txt
  bulhyemik grids --functions --csv examples/quake.txt

exit status: 0 accepted, 1 refused, 2 usage or file error
";

const FORMAT: &str = "\
usage: bulhyemik format HEADER

Reads a header text and prints it as the library writes it: the same bytes.

  bulhyemik format examples/canyon.txt

exit status: 0 accepted, 1 refused, 2 usage or file error
";

const LOOKUP: &str = "\
usage: bulhyemik lookup [--json | --csv] HEADER NODES LON LAT DAY
       bulhyemik lookup [--json | --csv] HEADER NODES < POINTS

Looks up a point on a day. Prints `fix`, LON, LAT, DAY, the name of the grid
used and its shifts in steps, parted by tabs; or `refused`, the number of the
refusal, its place, LON, LAT and DAY. NODES is a file of little-endian 32-bit
integers. LON and LAT are in milliarcseconds, LON at most 648000000 in size. A
grid that reaches beyond the 180 degree meridian is used on both sides of it.

Without a point, each line of standard input is one: LON, LAT and DAY parted by
tabs. Each gets its line as it comes, in the same order. A line that is not of
this form ends the command with status 2.

With --json a point's line is an object: longitude_mas, latitude_mas, day, grid,
steps (a list of the shifts), unit and quantum (Q); or behind day refused, place
and words. With --csv it is parted by commas, below a line of headings:
longitude, latitude, day, refused and place, both 0 where the point is accepted,
grid and shifts, all empty where it is refused.

  bulhyemik lookup examples/canyon.txt examples/canyon.nodes 27720000 143880000 0
  bulhyemik lookup examples/canyon.txt examples/canyon.nodes < examples/canyon.points

exit status: 0 accepted, 1 refused (one point or more), 2 usage or file error
";

const SCREEN: &str = "\
usage: bulhyemik screen [--json | --csv] HEADER NODES LON LAT DAY
       bulhyemik screen [--json | --csv] HEADER NODES < POINTS

Looks up a point on a day and prints what the screen shows: `shown`, its
longitude and latitude in degrees, DAY, the name of the grid used and its shifts
in the group's unit, parted by tabs; or `refused`, the number of the refusal,
its place, LON, LAT and DAY. Each float is the shortest decimal that reads back
as the same one.

Without a point, each line of standard input is one: LON, LAT and DAY parted by
tabs. Each gets its line as it comes, in the same order. A line that is not of
this form ends the command with status 2.

With --json a point's line is an object: longitude_mas, latitude_mas, day, grid,
longitude_degrees, latitude_degrees, shifts (a list) and unit; or behind day
refused, place and words. With --csv it is parted by commas, below a line of
headings: longitude, latitude, day, refused and place, both 0 where the point is
accepted, grid, degrees and shifts, all empty where it is refused.

  bulhyemik screen examples/canyon.txt examples/canyon.nodes 27720000 143880000 0

exit status: 0 accepted, 1 refused (one point or more), 2 usage or file error
";

const INFORCE: &str = "\
usage: bulhyemik inforce [--json | --csv] HEADER WEST EAST SOUTH NORTH

Lists the grids that are chosen somewhere in an area, sides included, best rank
first: number, name, and longitude and latitude of the southmost, then westmost
coordinate at which the grid is chosen, parted by tabs. The sides are in
milliarcseconds. An area across the 180 degree meridian needs two calls:
WEST 648000000 SOUTH NORTH, and -648000000 EAST SOUTH NORTH.

With --json it is one object: count, and grids, a list with an object for each:
number, name, longitude_mas and latitude_mas. With --csv the lines are parted by
commas, below a line of headings.

  bulhyemik inforce examples/canyon.txt -648000000 648000000 -324000000 324000000

exit status: 0 accepted, 1 refused, 2 usage or file error
";

const HOLE: &str = "\
usage: bulhyemik hole [--json | --csv] HEADER WEST EAST SOUTH NORTH

Says whether an area, sides included, has a coordinate that no grid holds.
Prints `hole`, and longitude and latitude of the southmost, then westmost such
coordinate, parted by tabs; or `none`. The sides are in milliarcseconds; an area
across the 180 degree meridian needs two calls, as of inforce.
Nodes play no part: where a grid has no data, a lookup is still refused by 8.

With --json it is one object: hole (an object of longitude_mas and latitude_mas,
or null). With --csv it is a line of headings, and below it one of longitude and
latitude if there is a hole.

  bulhyemik hole examples/canyon.txt 27360000 28320000 143640000 144540000

exit status: 0 accepted, hole or none, 1 refused, 2 usage or file error
";

const JUDGE: &str = "\
usage: bulhyemik judge HEADER NODES LOG

Judges a log, whoever wrote it. Prints `passed` and the count of its lines, or
`failed`, the number of the first bad line, from 1, and its kind, parted by tabs.
What is wrong with that line goes to standard error, in words.

A line is as lookup prints it: `fix`, LON, LAT, DAY, the name of a grid and a
shift in steps for each parameter of the group, parted by tabs and closed by a
line feed. The kind of a bad line is the first of these that holds:

  form              the line is not so formed
  lookup refused    the lookup of the point on that day is refused
  other grid        the lookup chooses a grid of another name
  other shift       the lookup finds another shift

An empty log passes. A header or node file can be refused, as by check.

  bulhyemik judge examples/harbour.txt examples/harbour.nodes examples/harbour.log

exit status: 0 passed, 1 failed or refused, 2 usage or file error
";

const LOAD: &str = "\
usage: bulhyemik load FLOATS NODES Q [FLAG]

Loads FLOATS, a file of little-endian 32-bit floats in units, writes NODES, a
file of little-endian 32-bit integers in steps of 2 to the power -Q of the unit,
and prints their count. NaN and floats with the bits of FLAG become the no-data
mark. FLAG is a decimal number, as -9999 or 1.5e30, or the 8 hex digits of a
float's bits, as 0xc61c3c00. NODES appears whole or not at all; a file that
stands there is replaced and keeps its mode.

  bulhyemik load examples/canyon.floats canyon.nodes 20

exit status: 0 accepted, 1 refused, 2 usage or file error
";

const HELP: &str = "\
usage: bulhyemik help [COMMAND]

Says what a command does, what it prints and how it ends.

exit status: 0, 2 usage error
";

/// The text of a command.
pub fn of(command: &str) -> &'static str {
    match command {
        "check" => CHECK,
        "grids" => GRIDS,
        "format" => FORMAT,
        "lookup" => LOOKUP,
        "screen" => SCREEN,
        "inforce" => INFORCE,
        "hole" => HOLE,
        "judge" => JUDGE,
        "load" => LOAD,
        "help" => HELP,
        _ => ALL,
    }
}
