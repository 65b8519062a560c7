/* The hole of an area: row by row, from grid to grid along each. */
#include "plain.h"

#include <string.h>

/* The westmost longitude of a row, from `lon` on, that none of these holds, and the lowest north side of those passed; the
 * rectangles rise by west side. */
static int64_t along(const plain_sides *cover, int64_t count, int64_t lon, int64_t lat, int64_t *north)
{
    int64_t k;
    *north = LATITUDE;
    for (k = 0; k < count && cover[k].west <= lon; k++)
        if (cover[k].south <= lat && lat <= cover[k].north && lon <= cover[k].east) {
            lon = cover[k].east + 1;
            if (cover[k].north < *north)
                *north = cover[k].north;
        }
    return lon;
}

/* Behind a row that grids cover together comes the one above the lowest of their north sides. */
uint64_t plain_hole(const bulhyemik_group *group, int64_t west, int64_t east, int64_t south, int64_t north,
                    bulhyemik_uncovered *uncovered, uint64_t *place)
{
    plain_sides sides[BULHYEMIK_MOST_GRIDS], piece[MOST_PIECES], cover[ALL_PIECES], area = {west, east, south, north};
    int64_t turn[MOST_PIECES], count = 0, lon, lat, covered, k, p;
    uint64_t number = plain_judged_area(group, &area, sides, place);
    memset(uncovered, 0, sizeof *uncovered);
    if (number != 0)
        return number;
    for (k = 0; k < group->grids; k++) {
        int64_t pieces = plain_pieces(&sides[k], piece, turn);
        for (p = 0; p < pieces; p++)
            if (meet(&piece[p], &area))
                put_by_west(cover, count++, &piece[p]);
    }
    for (lat = south; lat <= north; lat = covered + 1) {
        lon = along(cover, count, west, lat, &covered);
        if (lon <= east) {
            uncovered->found = 1;
            uncovered->lon = lon;
            uncovered->lat = lat;
            break;
        }
    }
    return 0;
}
