// An exercise from start to end, as in ../c/exercise.c, by the owning types of bulhyemik.hpp.
//
//     c++ -std=c++17 exercise.cpp $(pkg-config --cflags --libs bulhyemik) -o exercise
//     ./exercise ../harbour.txt ../harbour.nodes ../harbour.points
//
// It prints what ../callers.expected holds. Its status is 1 after a refusal and 2 if a file can't be used.
#include "bulhyemik.hpp"

#include <iomanip>
#include <iostream>
#include <sstream>

// The points of a file, one a line: longitude, latitude and day.
static std::vector<bulhyemik::position> read_points(const std::string &path) {
    std::istringstream text(bulhyemik::read_file(path));
    std::vector<bulhyemik::position> points;
    for (std::string line; std::getline(text, line);) {
        std::istringstream fields(line);
        bulhyemik::position at{};
        if (!(fields >> at.lon >> at.lat >> at.day) || !(fields >> std::ws).eof())
            throw std::runtime_error(path + ": a line is not longitude, latitude and day");
        points.push_back(at);
    }
    return points;
}

// A function of time by its kind; factors are in millionths.
static void print(const bulhyemik::ramp &of) {
    std::cout << "ramp, " << of.s0 << " until day " << of.a << ", " << of.s1 << " from day " << of.b << " on\n";
}

static void print(const bulhyemik::step &of) {
    std::cout << "step, " << of.mult << " on day " << of.event << ", counted from day " << of.reference << '\n';
}

static void print(const bulhyemik::ramp2 &of) {
    std::cout << "ramp2, " << of.mult << " from day " << of.start << " to day " << of.end << ", counted from day "
              << of.reference << '\n';
}

static void run(const std::string &header, const std::string &nodes, const std::string &points) {
    const auto group = bulhyemik::group::from_file(header);
    const bulhyemik::model model(group, bulhyemik::read_nodes(nodes));
    std::cout << "group " << group.name() << ": " << group.size() << " grids, steps of 2 to the power -"
              << group.fields().quantum << ' ' << group.unit() << '\n';
    size_t number = 0;
    for (const bulhyemik::function &function : group.functions()) {
        std::cout << "function " << ++number << ": ";
        std::visit([](const auto &kind) { print(kind); }, function);
    }

    // One point, in steps, and what a screen shows of it.
    const bulhyemik::position one{-14395000, 180005000, 133};
    const bulhyemik::fix found = model.lookup(one);
    const bulhyemik::screen_record shown = model.screen(one);
    std::cout << "one point: grid " << group.grid_name(found.grid) << ", " << found.result[0] << " steps, "
              << std::fixed << std::setprecision(10) << shown.shift[0] << ' ' << group.unit() << " at "
              << std::setprecision(7) << shown.longitude << ", " << shown.latitude << '\n';

    // A list of points by one call.
    const std::vector<bulhyemik::position> track = read_points(points);
    std::string log;
    size_t k = 0;
    for (const bulhyemik::answer &answer : model.replay(track)) {
        const bulhyemik::position &at = track[k];
        std::cout << "point " << ++k << ": ";
        if (answer.number == BULHYEMIK_ACCEPTED) {
            std::cout << "grid " << group.grid_name(answer.fix.grid) << ", " << answer.fix.result[0] << " steps\n";
            log += model.log_line(at);
        } else {
            std::cout << "refused by " << answer.number << '\n';
        }
    }

    // A log has a line for each accepted point; anybody's is judged line by line. Here the last line is cut off.
    std::cout << "the log of these points " << (model.judge_log(log) ? "fails" : "passes") << '\n';
    if (const auto fault = model.judge_log(log.substr(0, log.size() - 1)))
        std::cout << "without its last byte it fails at line " << fault->line << ", by kind " << fault->kind << '\n';

    // The grids that an area uses, and the first point of a wider one that no grid holds.
    for (const bulhyemik::entry &entry : group.in_force({-14390000, -14370000, 180010000, 180020000}))
        std::cout << "in force: grid " << group.grid_name(entry.grid) << ", first at " << entry.lon << ", " << entry.lat
                  << '\n';
    if (const auto hole = group.hole({-14400000, -14359999, 180000000, 180030000}))
        std::cout << "no grid holds " << hole->lon << ", " << hole->lat << '\n';

    // A refusal says what is wrong, and where: this text is cut off in its second line.
    try {
        bulhyemik::group(group.text().substr(0, 40));
    } catch (const bulhyemik::refused &refusal) {
        std::cout << "a header that is cut off: refused by " << refusal.number << " at line " << refusal.place << '\n';
    }
}

int main(int argc, char **argv) try {
    if (argc != 4)
        throw std::runtime_error("usage: exercise HEADER NODES POINTS");
    run(argv[1], argv[2], argv[3]);
    return 0;
} catch (const bulhyemik::refused &refusal) {
    std::cerr << "exercise: " << refusal.what() << '\n';
    return 1;
} catch (const std::exception &error) {
    std::cerr << "exercise: " << error.what() << '\n';
    return 2;
}
