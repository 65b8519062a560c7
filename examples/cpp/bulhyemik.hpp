// bulhyemik.hpp: owning types over bulhyemik.h, for C++17 and later; they need the standard library alone.
//
// What a call refuses is thrown as bulhyemik::refused, a file that can't be used as std::system_error or
// std::runtime_error. Units, limits and the meaning of every answer are as bulhyemik.h has them.
//
// There is no state: const calls may run at once on different threads.
#ifndef BULHYEMIK_HPP
#define BULHYEMIK_HPP

#include <bulhyemik.h>

#include <algorithm>
#include <cerrno>
#include <cstdio>
#include <iterator>
#include <limits>
#include <memory>
#include <optional>
#include <stdexcept>
#include <string>
#include <string_view>
#include <system_error>
#include <utility>
#include <variant>
#include <vector>

namespace bulhyemik {

// The structs of bulhyemik.h that a caller meets.
using answer = bulhyemik_answer;
using entry = bulhyemik_entry;
using fault = bulhyemik_fault;
using fix = bulhyemik_fix;
using grid = bulhyemik_grid;
using position = bulhyemik_position;
using ramp = bulhyemik_ramp;
using ramp2 = bulhyemik_ramp2;
using screen_record = bulhyemik_screen;
using step = bulhyemik_step;

// A function of time, of one of its kinds.
using function = std::variant<ramp, step, ramp2>;

struct area {
    int64_t west, east, south, north; // in mas
};

struct point {
    int64_t lon, lat; // in mas
};

// A refused call: the refusal's number, one of bulhyemik_refusal, and its place.
struct refused : std::runtime_error {
    refused(uint64_t by, uint64_t at)
        : std::runtime_error("refused by " + std::to_string(by) + " at " + std::to_string(at)), number(by), place(at) {}
    uint64_t number, place;
};

// All bytes of a file.
inline std::string read_file(const std::string &path) {
    const std::string advice = "give a file that can be read for " + path;
    const std::unique_ptr<std::FILE, int (*)(std::FILE *)> file(std::fopen(path.c_str(), "rb"), std::fclose);
    std::string bytes;
    char part[16384];
    while (const size_t got = file ? std::fread(part, 1, sizeof part, file.get()) : 0)
        bytes.append(part, got);
    if (!file || std::ferror(file.get()))
        throw std::system_error(errno, std::generic_category(), advice);
    return bytes;
}

namespace detail {

// Makes a call, given all its arguments but the last, the place, and throws what it refuses.
template <class Call, class... Arguments>
void accept(Call call, Arguments... arguments) {
    uint64_t place;
    const uint64_t number = call(arguments..., &place);
    if (number != BULHYEMIK_ACCEPTED)
        throw refused(number, place);
}

// A file of 32-bit numbers, least byte first: as all machines that bulhyemik.h admits have them.
template <class Number>
std::vector<Number> read_numbers(const std::string &path) {
    const std::string bytes = read_file(path);
    if (bytes.size() % sizeof(Number) != 0)
        throw std::runtime_error("give a file of 32-bit numbers for " + path + ": the size of this one, " +
                                 std::to_string(bytes.size()) + " bytes, is no multiple of 4");
    std::vector<Number> numbers(bytes.size() / sizeof(Number));
    std::copy(bytes.begin(), bytes.end(), reinterpret_cast<char *>(numbers.data()));
    return numbers;
}

// The bytes of a text as the library takes them.
inline const uint8_t *bytes_of(std::string_view text) noexcept {
    return reinterpret_cast<const uint8_t *>(text.data());
}

// The text that a call writes, given its room and all arguments of the call before its output.
template <class Call, class... Arguments>
std::string written(size_t room, Call call, Arguments... arguments) {
    std::string out(room, '\0');
    uint64_t count;
    accept(call, arguments..., reinterpret_cast<uint8_t *>(out.data()), out.size(), &count);
    out.resize(static_cast<size_t>(count));
    return out;
}

// The name of a group or of a grid.
template <class Named>
std::string_view name_of(const Named &named) noexcept {
    return {reinterpret_cast<const char *>(named.name), static_cast<size_t>(named.name_length)};
}

// A function of an accepted group.
inline function function_of(const bulhyemik_function &of) noexcept {
    switch (of.kind) {
    case BULHYEMIK_STEP:
        return of.numbers.step;
    case BULHYEMIK_RAMP2:
        return of.numbers.ramp2;
    default:
        return of.numbers.ramp;
    }
}

} // namespace detail

inline std::vector<int32_t> read_nodes(const std::string &path) { return detail::read_numbers<int32_t>(path); }
inline std::vector<float> read_floats(const std::string &path) { return detail::read_numbers<float>(path); }

// Floats in units as nodes in steps; NaN and floats of the flag's bits become the no-data mark.
inline std::vector<int32_t> load_nodes(const std::vector<float> &floats, int64_t quantum,
                                       float flag = std::numeric_limits<float>::quiet_NaN()) {
    std::vector<int32_t> nodes(floats.size());
    detail::accept(bulhyemik_load_nodes, floats.data(), floats.size(), flag, quantum, nodes.data(), nodes.size());
    return nodes;
}

// An accepted group, and the range of its grids. Copies share what was read; views of names last as long as any copy.
class group {
public:
    explicit group(std::string_view text) {
        const auto read = std::make_shared<bulhyemik_group>();
        detail::accept(bulhyemik_read_header, detail::bytes_of(text), text.size(), read.get());
        fields_ = read;
    }

    static group from_file(const std::string &path) { return group(read_file(path)); }

    // A group is copied where others are moved, so that the one moved from stays accepted.
    group(const group &) = default;
    group &operator=(const group &) = default;

    const bulhyemik_group &fields() const noexcept { return *fields_; }
    std::string_view name() const noexcept { return detail::name_of(*fields_); }
    std::string_view unit() const noexcept { return fields_->unit == BULHYEMIK_METRE ? "metre" : "arc-second"; }

    // The functions of time, as they were written.
    std::vector<function> functions() const {
        std::vector<function> all;
        std::transform(fields_->function, fields_->function + fields_->functions, std::back_inserter(all),
                       detail::function_of);
        return all;
    }

    const grid *begin() const noexcept { return fields_->grid; }
    const grid *end() const noexcept { return begin() + size(); }
    size_t size() const noexcept { return static_cast<size_t>(fields_->grids); }

    // The name of a grid by its number, from 1 as in an answer; empty if there is none, as beside a refusal.
    std::string_view grid_name(int64_t number) const noexcept {
        return number < 1 || number > fields_->grids ? std::string_view() : detail::name_of(begin()[number - 1]);
    }

    // The header text, the same bytes that were read.
    std::string text() const {
        return detail::written(BULHYEMIK_HEADER_BYTES, bulhyemik_write_header, fields_.get());
    }

    // The grids that an area uses, best rank first.
    std::vector<entry> in_force(const area &of) const {
        bulhyemik_in_force list;
        detail::accept(bulhyemik_grids_in_force, fields_.get(), of.west, of.east, of.south, of.north, &list);
        return std::vector<entry>(list.entry, list.entry + list.count);
    }

    // The southmost, then westmost point of an area that no grid holds, if there is one.
    std::optional<point> hole(const area &of) const {
        bulhyemik_uncovered uncovered;
        detail::accept(bulhyemik_hole, fields_.get(), of.west, of.east, of.south, of.north, &uncovered);
        return uncovered.found ? std::optional(point{uncovered.lon, uncovered.lat}) : std::nullopt;
    }

private:
    std::shared_ptr<const bulhyemik_group> fields_;
};

// A group and its nodes, enough for all its grids.
class model {
public:
    model(const bulhyemik::group &of, std::vector<int32_t> nodes) : group_(of), nodes_(std::move(nodes)) {
        replay({}); // with no points, too few nodes are all that can be refused
    }

    const bulhyemik::group &group() const noexcept { return group_; }
    const std::vector<int32_t> &nodes() const noexcept { return nodes_; }

    // What a lookup finds, in steps.
    fix lookup(const position &at) const {
        fix found;
        detail::accept(bulhyemik_lookup, &group_.fields(), nodes_.data(), nodes_.size(), at.lon, at.lat, at.day,
                       &found);
        return found;
    }

    // The answers to all points, in their order. A point that is refused has its number there and does not throw.
    std::vector<answer> replay(const std::vector<position> &points) const {
        std::vector<answer> results(points.size());
        detail::accept(bulhyemik_lookup_many, &group_.fields(), nodes_.data(), nodes_.size(), points.data(),
                       points.size(), results.data(), results.size());
        return results;
    }

    // What a lookup finds, in degrees and units.
    screen_record screen(const position &at) const {
        const fix found = lookup(at);
        const bulhyemik_group &of = group_.fields();
        screen_record shown;
        detail::accept(bulhyemik_screen_record, at.lon, at.lat, of.quantum, of.parameters, BULHYEMIK_ACCEPTED,
                       uint64_t{0}, &found, &shown);
        return shown;
    }

    // The line of a log for a point and a day, with its line feed. Such lines pass.
    std::string log_line(const position &at) const {
        return detail::written(BULHYEMIK_LOG_LINE_BYTES, bulhyemik_write_log_line, &group_.fields(), nodes_.data(),
                               nodes_.size(), &at);
    }

    // The first bad line of a log and its kind, one of bulhyemik_log_kind; nothing if the log passes.
    std::optional<fault> judge_log(std::string_view log) const {
        fault found;
        detail::accept(bulhyemik_judge_log, &group_.fields(), nodes_.data(), nodes_.size(), detail::bytes_of(log),
                       log.size(), &found);
        return found.line != 0 ? std::optional(found) : std::nullopt;
    }

private:
    bulhyemik::group group_;
    std::vector<int32_t> nodes_;
};

} // namespace bulhyemik

#endif
