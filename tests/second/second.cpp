// A second implementation of the calls of the conformance pack, written from include/vizturel.h, docs/CALLS.md and conformance/README.md alone: a
// world is a sorted list of runs, and a call looks at all of them. Plays the lists that are named, each from stores without words, or standard input.
#include <cstdint>
#include <cstdio>
#include <string>
#include <vector>

namespace {

using std::string;
using std::vector;
using Number = std::uint64_t;
using Bytes = vector<unsigned char>;

const Number kTop = UINT64_MAX;  // the highest position
const Number kSide = 65536;      // rows of the plane, and columns
const Number kWorlds = 16;
const Number kHeights = 22;
const Number kWindow = 524288;  // positions of the longest window
const unsigned char kLent = 0xee;
const Number kLentWord = 17216961135462248174u;

struct Run {
    Number start;
    Number end;
};
using Runs = vector<Run>;

struct World {
    Number floor;
    Number ceiling;
    Runs runs;
};

struct Store {
    Number capacity = 0;  // 0 where the length is that of no pool
    bool sound = false;
    vector<World> worlds;
};

struct Place {
    Store *store;
    Number world;
};

struct Bound {
    Number kind;
    Number value;
};

struct Range {
    bool empty;
    bool reversed;
    Number first;
    Number last;
};

struct Rect {
    Number top;
    Number left;
    Number bottom;
    Number right;
};

struct Count {
    Number carry;
    Number low;
};

// an answer as in a frame
struct Answer {
    Number refusal = 0;
    Number found = 0;
    Number number = 0;
    Number end = 0;
    Number first = 0;
    Number last = 0;
    Number value = 0;
};

enum Operation { kAnd, kOr, kXor };

// ---- runs

Number lesser(Number a, Number b) { return a < b ? a : b; }

Number larger(Number a, Number b) { return a > b ? a : b; }

// Adds a run whose start is not below that of the last one, and joins it to that if they overlap or touch.
void add(Runs &runs, Run run) {
    if (!runs.empty()) {
        Run &before = runs.back();
        if (before.end == kTop || run.start <= before.end + 1) {
            before.end = larger(before.end, run.end);
            return;
        }
    }
    runs.push_back(run);
}

// the runs of the value in first .. last, clipped
Runs parts(const Runs &runs, bool value, Number first, Number last) {
    Runs out;
    if (first > last) return out;
    Number at = first;
    for (const Run &run : runs) {
        if (run.end < first) continue;
        if (run.start > last) break;
        Number start = larger(run.start, first);
        Number end = lesser(run.end, last);
        if (value) out.push_back({start, end});
        if (!value && start > at) out.push_back({at, start - 1});
        if (end == last) return out;
        at = end + 1;
    }
    if (!value) out.push_back({at, last});
    return out;
}

Runs parts(const Runs &runs, bool value, Range range) {
    if (range.empty) return Runs();
    return parts(runs, value, range.first, range.last);
}

// the last position up to which a value stays that it has at a position; runs[i] is the first run that does not end below that
Number steady(const Runs &runs, size_t i, bool value) {
    if (value) return runs[i].end;
    if (i < runs.size()) return runs[i].start - 1;
    return kTop;
}

Runs joined(const Runs &a, const Runs &b, Operation op) {
    Runs out;
    size_t i = 0;
    size_t j = 0;
    Number at = 0;
    for (;;) {
        while (i < a.size() && a[i].end < at) i++;
        while (j < b.size() && b[j].end < at) j++;
        bool x = i < a.size() && a[i].start <= at;
        bool y = j < b.size() && b[j].start <= at;
        Number until = lesser(steady(a, i, x), steady(b, j, y));
        bool held = op == kAnd ? x && y : op == kOr ? x || y : x != y;
        if (held) add(out, {at, until});
        if (until == kTop) return out;
        at = until + 1;
    }
}

Runs inverted(const Runs &a) { return parts(a, false, 0, kTop); }

Runs moved(const Runs &a, Number distance, bool left) {
    Runs out;
    for (const Run &run : a) {
        if (left) {
            if (run.start > kTop - distance) continue;
            out.push_back({run.start + distance, lesser(run.end, kTop - distance) + distance});
        } else {
            if (run.end < distance) continue;
            out.push_back({larger(run.start, distance) - distance, run.end - distance});
        }
    }
    return out;
}

Count length(const Runs &runs) {
    Number low = 0;
    for (const Run &run : runs) low += run.end - run.start + 1;
    return {!runs.empty() && low == 0 ? Number(1) : Number(0), low};
}

bool same(const Runs &a, const Runs &b) {
    if (a.size() != b.size()) return false;
    for (size_t i = 0; i < a.size(); i++) {
        if (a[i].start != b[i].start) return false;
        if (a[i].end != b[i].end) return false;
    }
    return true;
}

bool held(const Runs &runs, Number x) { return !parts(runs, true, x, x).empty(); }

// whether runs are out of order: such a list is refused with 5
bool disordered(const Runs &runs) {
    for (size_t i = 0; i < runs.size(); i++) {
        if (runs[i].start > runs[i].end) return true;
        if (i == 0) continue;
        Number before = runs[i - 1].end;
        if (runs[i].start <= before) return true;
        if (runs[i].start - before < 2) return true;
    }
    return false;
}

// ---- stores

bool no_pool(const Store &store) { return store.capacity == 0; }

bool unsound(const Store &store) { return !store.sound; }

bool unopened(Place p) { return p.world >= p.store->worlds.size(); }

Runs &runs_of(Place p) { return p.store->worlds[p.world].runs; }

// whether a world may have so many runs
bool fits(Place p, Number runs) {
    if (runs > p.store->worlds[p.world].ceiling) return false;
    Number sum = 0;
    for (size_t i = 0; i < p.store->worlds.size(); i++) {
        const World &world = p.store->worlds[i];
        sum += larger(i == p.world ? runs : world.runs.size(), world.floor);
    }
    return sum <= p.store->capacity;
}

// ---- ranges, windows, rectangles

// whether a kind of a bound has a name: a range with a bound of another is empty, and not reversed
bool named(Number kind) { return kind == 1 || kind == 2 || kind == 3; }

Range range_of(Bound lower, Bound upper) {
    if (!named(lower.kind) || !named(upper.kind)) return {true, false, 0, 0};
    bool above = lower.kind == 2 && lower.value == kTop;  // the first position would be 2^64
    bool below = upper.kind == 2 && upper.value == 0;     // the last one would be -1
    Range range;
    range.first = lower.kind == 1 ? lower.value : lower.kind == 2 ? lower.value + 1 : 0;
    range.last = upper.kind == 1 ? upper.value : upper.kind == 2 ? upper.value - 1 : kTop;
    range.empty = above || below || range.first > range.last;
    if (above) {
        range.reversed = below || range.last != kTop;
    } else if (below) {
        range.reversed = range.first > 0;
    } else {
        range.reversed = range.first > range.last && range.first - range.last > 1;
    }
    return range;
}

bool no_window(Number base, Number length) {
    if (length == 0 || length > kWindow) return true;
    return length - 1 > kTop - base;
}

Number map_bytes(Number length) { return (length + 7) / 8; }

bool no_rect(Rect r) {
    if (r.top >= kSide || r.left >= kSide || r.bottom >= kSide || r.right >= kSide) return true;
    return r.top > r.bottom || r.left > r.right;
}

Runs cells_of(Rect r) {
    Runs out;
    for (Number row = r.top; row <= r.bottom; row++) add(out, {row * kSide + r.left, row * kSide + r.right});
    return out;
}

// ---- calls that a frame has too; 1 and 7 are given before

Answer refusal(Number number) {
    Answer answer;
    answer.refusal = number;
    return answer;
}

Answer counted(Count count) {
    Answer answer;
    answer.found = count.carry;
    answer.number = count.low;
    return answer;
}

Answer numbered(Number number) {
    Answer answer;
    answer.number = number;
    return answer;
}

Answer position(Number x) {
    Answer answer;
    answer.found = 1;
    answer.number = x;
    return answer;
}

Answer get(Place p, Number x) {
    if (unopened(p)) return refusal(12);
    return numbered(held(runs_of(p), x));
}

Answer empty(Place p) {
    if (unopened(p)) return refusal(12);
    runs_of(p).clear();
    return Answer();
}

Runs with_range(const Runs &runs, Range range, bool value) {
    if (range.empty) return runs;
    Runs out;
    if (range.first > 0) out = parts(runs, true, 0, range.first - 1);
    if (value) add(out, {range.first, range.last});
    if (range.last < kTop) {
        for (const Run &run : parts(runs, true, range.last + 1, kTop)) add(out, run);
    }
    return out;
}

Answer set_range(Place p, Range range, bool value) {
    Runs after = with_range(runs_of(p), range, value);
    if (!fits(p, after.size())) return refusal(8);
    Count changed = length(parts(runs_of(p), !value, range));
    runs_of(p) = after;
    return counted(changed);
}

Answer flip_range(Place p, Range range) {
    if (range.empty) return Answer();
    Runs after = joined(runs_of(p), Runs(1, {range.first, range.last}), kXor);
    if (!fits(p, after.size())) return refusal(8);
    runs_of(p) = after;
    return Answer();
}

Answer set(Place p, Range range, bool value) {
    if (unopened(p)) return refusal(12);
    return set_range(p, range, value);
}

Answer set_strict(Place p, Range range, bool value) {
    if (unopened(p)) return refusal(12);
    if (range.reversed) return refusal(14);
    return set_range(p, range, value);
}

Answer flip(Place p, Range range) {
    if (unopened(p)) return refusal(12);
    return flip_range(p, range);
}

Answer flip_strict(Place p, Range range) {
    if (unopened(p)) return refusal(12);
    if (range.reversed) return refusal(14);
    return flip_range(p, range);
}

Answer shift(Place p, Number distance, bool left) {
    if (unopened(p)) return refusal(12);
    runs_of(p) = moved(runs_of(p), distance, left);
    return Answer();
}

Answer run_at(Place p, Number x) {
    if (unopened(p)) return refusal(12);
    Answer answer;
    for (const Run &run : parts(runs_of(p), held(runs_of(p), x), 0, kTop)) {
        if (run.start <= x && x <= run.end) {
            answer.number = run.start;
            answer.end = run.end;
        }
    }
    return answer;
}

Answer find(Place p, Range range, bool value) {
    if (unopened(p)) return refusal(12);
    Runs found = parts(runs_of(p), value, range);
    if (found.empty()) return Answer();
    return position(found[0].start);
}

Answer tally_range(Place p, Range range, bool value) {
    Runs found = parts(runs_of(p), value, range);
    Answer answer = counted(length(found));
    answer.end = found.size();
    return answer;
}

Answer tally(Place p, Range range, bool value) {
    if (unopened(p)) return refusal(12);
    return tally_range(p, range, value);
}

Answer tally_strict(Place p, Range range, bool value) {
    if (unopened(p)) return refusal(12);
    if (range.reversed) return refusal(14);
    return tally_range(p, range, value);
}

Answer select(Place p, Range range, bool value, Number k) {
    if (unopened(p)) return refusal(12);
    for (const Run &run : parts(runs_of(p), value, range)) {
        if (k <= run.end - run.start) return position(run.start + k);
        k -= run.end - run.start + 1;
    }
    return Answer();
}

Answer gap(Place p, Range range, Number n) {
    if (unopened(p)) return refusal(12);
    if (n == 0) return refusal(9);
    for (const Run &run : parts(runs_of(p), false, range)) {
        if (n - 1 <= run.end - run.start) return position(run.start);
    }
    return Answer();
}

// a listing that has ended is 1 .. 0
Answer listing(Number first, Number last, bool value) {
    Answer answer;
    answer.first = first > last ? 1 : first;
    answer.last = first > last ? 0 : last;
    answer.value = value;
    return answer;
}

Answer ranges(Place p, Range range, bool value) {
    if (unopened(p)) return refusal(12);
    if (range.empty) return listing(1, 0, value);
    return listing(range.first, range.last, value);
}

Answer draw_front(Place p, Number first, Number last, bool value) {
    if (unopened(p)) return refusal(12);
    Runs left = parts(runs_of(p), value, first, last);
    if (left.empty()) return listing(1, 0, value);
    Run run = left.front();
    Answer answer = run.end == last ? listing(1, 0, value) : listing(run.end + 1, last, value);
    answer.found = 1;
    answer.number = run.start;
    answer.end = run.end;
    return answer;
}

Answer draw_back(Place p, Number first, Number last, bool value) {
    if (unopened(p)) return refusal(12);
    Runs left = parts(runs_of(p), value, first, last);
    if (left.empty()) return listing(1, 0, value);
    Run run = left.back();
    Answer answer = run.start == first ? listing(1, 0, value) : listing(first, run.start - 1, value);
    answer.found = 1;
    answer.number = run.start;
    answer.end = run.end;
    return answer;
}

Answer fill(Place p, Number base, Number span) {
    if (unopened(p)) return refusal(12);
    if (no_window(base, span)) return refusal(6);
    Number cells = length(parts(runs_of(p), true, base, base + (span - 1))).low;
    return numbered((1000 * cells + span - 1) / span);
}

Answer set_rect(Place p, Rect rect, bool value) {
    if (unopened(p)) return refusal(12);
    if (no_rect(rect)) return refusal(15);
    Runs cells = cells_of(rect);
    Runs after = value ? joined(runs_of(p), cells, kOr) : joined(runs_of(p), inverted(cells), kAnd);
    if (!fits(p, after.size())) return refusal(8);
    Count changed = length(joined(runs_of(p), after, kXor));
    runs_of(p) = after;
    return counted(changed);
}

Answer count_rect(Place p, Rect rect) {
    if (unopened(p)) return refusal(12);
    if (no_rect(rect)) return refusal(15);
    return numbered(length(joined(runs_of(p), cells_of(rect), kAnd)).low);
}

// a record of a frame, its eight words
Answer recorded(Store &store, const Number *w) {
    Place p = {&store, w[7]};
    Range range = range_of({w[1], w[2]}, {w[3], w[4]});
    Rect rect = {w[1], w[2], w[3], w[4]};
    bool value = w[5] != 0;
    switch (w[0]) {
        case 1: return empty(p);
        case 2: return set(p, range, value);
        case 3: return flip(p, range);
        case 4: return shift(p, w[2], value);
        case 5: return run_at(p, w[2]);
        case 6: return find(p, range, value);
        case 7: return refusal(12);
        case 8: return select(p, range, value, w[6]);
        case 9: return refusal(12);
        case 10: return ranges(p, range, value);
        case 11: return draw_front(p, w[2], w[4], value);
        case 12: return draw_back(p, w[2], w[4], value);
        case 13: return fill(p, w[2], w[4]);
        case 14: return gap(p, range, w[6]);
        case 15: return tally(p, range, value);
        case 16: return set_strict(p, range, value);
        case 17: return flip_strict(p, range);
        case 18: return tally_strict(p, range, value);
        case 19: return set_rect(p, rect, value);
        case 20: return count_rect(p, rect);
        default: return get(p, w[2]);
    }
}

// ---- lines

// the words of a line, taken one by one
struct Line {
    const string &text;
    size_t at;

    string word() {
        size_t end = text.find(' ', at);
        if (end == string::npos) end = text.size();
        string out = text.substr(at, end - at);
        at = end < text.size() ? end + 1 : end;
        return out;
    }

    Number number() {
        Number out = 0;
        for (char c : word()) out = 10 * out + Number(c - '0');
        return out;
    }

    Bound bound() {
        string out = word();
        Number value = 0;
        for (size_t i = 1; i < out.size(); i++) value = 10 * value + Number(out[i] - '0');
        return {Number(out[0] == 'i' ? 1 : out[0] == 'e' ? 2 : 3), value};
    }

    Range range() {
        Bound lower = bound();
        Bound upper = bound();
        return range_of(lower, upper);
    }

    Rect rect() {
        Rect out;
        out.top = number();
        out.left = number();
        out.bottom = number();
        out.right = number();
        return out;
    }

    Bytes bytes() {
        string digits = word();
        Bytes out;
        if (digits == "-") return out;
        for (size_t i = 0; i + 1 < digits.size(); i += 2) {
            out.push_back(static_cast<unsigned char>(16 * digit(digits[i]) + digit(digits[i + 1])));
        }
        return out;
    }

    static int digit(char c) { return c <= '9' ? c - '0' : c - 'a' + 10; }
};

string text(Number n) { return std::to_string(n); }

string hex(const Bytes &bytes) {
    if (bytes.empty()) return "-";
    const char *digits = "0123456789abcdef";
    string out;
    for (unsigned char byte : bytes) {
        out += digits[byte / 16];
        out += digits[byte % 16];
    }
    return out;
}

string refused(Number number) { return "refused " + text(number); }

string done(Answer a) { return a.refusal ? refused(a.refusal) : "done"; }

string total(Answer a) { return a.found ? "18446744073709551616" : text(a.number); }

string number(Answer a) { return a.refusal ? refused(a.refusal) : "number " + total(a); }

string number_and_runs(Answer a) { return a.refusal ? refused(a.refusal) : "number " + total(a) + " " + text(a.end); }

string value(Answer a) { return a.refusal ? refused(a.refusal) : "value " + text(a.number); }

string at(Answer a) { return a.refusal ? refused(a.refusal) : a.found ? "at " + text(a.number) : "none"; }

string left_over(Answer a) { return text(a.first) + " " + text(a.last) + " " + text(a.value); }

string drawn(Answer a) {
    if (a.refusal) return refused(a.refusal);
    if (!a.found) return "end " + left_over(a);
    return "drawn " + text(a.number) + " " + text(a.end) + " " + left_over(a);
}

string written(Number count, const Bytes &slice) { return "written " + text(count) + " " + hex(slice); }

string worded(const vector<Number> &words, Number room) {
    string out = "worded " + text(words.size());
    for (Number word : words) out += " " + text(word);
    for (Number i = words.size(); i < room; i++) out += " " + text(kLentWord);
    return out;
}

// ---- written sets

// 3 or 4 where the bytes are of no written set, whatever their runs, else 0
Number misformed(const Bytes &bytes) {
    if (bytes.size() < 5) return 3;
    if (bytes[0] != 1 && bytes[0] != 2) return 4;
    Number runs = 0;
    for (int i = 1; i < 5; i++) runs = 256 * runs + bytes[i];
    if (bytes.size() != 5 + 16 * runs) return 3;
    return 0;
}

// where byte j of run i is, of so many runs
size_t place_of(bool columns, size_t runs, size_t i, size_t j) { return columns ? 5 + runs * j + i : 5 + 16 * i + j; }

Runs told(const Bytes &bytes) {
    size_t count = (bytes.size() - 5) / 16;
    Runs runs;
    for (size_t i = 0; i < count; i++) {
        Run run = {0, 0};
        for (size_t j = 0; j < 8; j++) {
            run.start = 256 * run.start + bytes[place_of(bytes[0] == 2, count, i, j)];
            run.end = 256 * run.end + bytes[place_of(bytes[0] == 2, count, i, j + 8)];
        }
        runs.push_back(run);
    }
    return runs;
}

Bytes written_set(const Runs &runs, bool columns) {
    Bytes out(5 + 16 * runs.size());
    out[0] = columns ? 2 : 1;
    for (size_t i = 0; i < 4; i++) out[1 + i] = static_cast<unsigned char>(runs.size() >> (8 * (3 - i)));
    for (size_t i = 0; i < runs.size(); i++) {
        for (size_t j = 0; j < 8; j++) {
            out[place_of(columns, runs.size(), i, j)] = static_cast<unsigned char>(runs[i].start >> (8 * (7 - j)));
            out[place_of(columns, runs.size(), i, j + 8)] = static_cast<unsigned char>(runs[i].end >> (8 * (7 - j)));
        }
    }
    return out;
}

// the slice with the bytes in its front
Bytes lent(const Bytes &front, Number room) {
    Bytes out(room, kLent);
    for (size_t i = 0; i < front.size(); i++) out[i] = front[i];
    return out;
}

// the set of runs in any order, those that are dropped left out
Runs outcome_of(Runs runs) {
    Runs sorted;
    for (const Run &run : runs) {
        if (run.start > run.end) continue;
        size_t i = 0;
        while (i < sorted.size() && sorted[i].start <= run.start) i++;
        sorted.insert(sorted.begin() + static_cast<long>(i), run);
    }
    Runs out;
    for (const Run &run : sorted) add(out, run);
    return out;
}

Bytes fates_of(const Runs &runs, const Runs &outcome) {
    Bytes out;
    for (const Run &run : runs) {
        unsigned char fate = 0;
        if (run.start <= run.end) {
            int together = 0;
            for (const Run &whole : outcome) {
                if (run.start < whole.start || run.start > whole.end) continue;
                for (const Run &other : runs) {
                    if (other.start <= other.end && whole.start <= other.start && other.start <= whole.end) together++;
                }
            }
            fate = together == 1 ? 2 : 1;
        }
        out.push_back(fate);
    }
    return out;
}

// ---- the plane, heights, and why a list is full

// the pieces of a part of the plane that is a square or half of one, upper or lower halves of it being next to be made where it is no square
void survey_of(const Runs &runs, Number row, Number column, Number rows, Number columns, vector<Number> &out) {
    Number cells = length(joined(runs, cells_of({row, column, row + rows - 1, column + columns - 1}), kAnd)).low;
    if (cells == 0 || cells == rows * columns) {
        out.push_back(row);
        out.push_back(column);
        out.push_back(rows);
        out.push_back(columns);
        out.push_back(cells != 0);
    } else if (rows == columns) {
        survey_of(runs, row, column, rows, columns / 2, out);
        survey_of(runs, row, column + columns / 2, rows, columns / 2, out);
    } else {
        survey_of(runs, row, column, rows / 2, columns, out);
        survey_of(runs, row + rows / 2, column, rows / 2, columns, out);
    }
}

// how few runs make a tree of the height
Number fewest(Number height) {
    Number below = 0;
    Number runs = 1;
    for (Number h = 1; h < height; h++) {
        Number next = runs + below + 1;
        below = runs;
        runs = next;
    }
    return height == 0 ? 0 : runs;
}

// A part of the tree of fewest runs whose left sides are the higher ones: its height, and the rank of its first run.
struct Part {
    Number height;
    Number rank;
};

vector<Number> deepest_of(Number height) {
    vector<Number> out;
    vector<Part> queue(1, {height, 0});
    for (size_t i = 0; i < queue.size(); i++) {
        Part part = queue[i];
        Number left = part.height < 1 ? 0 : part.height - 1;
        Number right = part.height < 2 ? 0 : part.height - 2;
        Number rank = part.rank + fewest(left);
        out.push_back(2 * rank);
        out.push_back(2 * rank);
        if (left > 0) queue.push_back({left, part.rank});
        if (right > 0) queue.push_back({right, rank + 1});
    }
    return out;
}

// the places of the ranges that are to blame, none if none is refused
vector<Number> blamed(const vector<Range> &ranges, Number capacity) {
    vector<Number> out;
    Runs all;
    for (size_t f = 0; f < ranges.size(); f++) {
        all = with_range(all, ranges[f], true);
        if (all.size() <= capacity) continue;
        vector<bool> met(all.size(), false);
        for (size_t i = 0; i <= f; i++) {
            if (ranges[i].empty) continue;
            for (size_t j = 0; j < all.size(); j++) {
                if (ranges[i].first < all[j].start || ranges[i].first > all[j].end || met[j]) continue;
                met[j] = true;
                out.push_back(i);
            }
        }
        return out;
    }
    return out;
}

// ---- calls, each from its line

struct Player {
    Store stores[4];
    bool frame_made = false;
    Store *framed = nullptr;

    Store &store(Line &line) { return stores[line.number() % 4]; }

    Place place(Line &line) {
        string word = line.word();
        size_t slash = word.find('/');
        Line parts = {word, 0};
        word[slash] = ' ';
        Store *s = &stores[parts.number() % 4];
        return {s, parts.number()};
    }

    string call_words(Line line) {
        Store &s = store(line);
        s = Store();
        s.capacity = line.number();
        return "done";
    }

    string call_spoil(Line line) {
        store(line).sound = false;
        return "done";
    }

    string call_new(Line line) {
        Store &s = store(line);
        Number count = line.number();
        vector<World> worlds;
        for (Number i = 0; i < count; i++) {
            Number floor = line.number();
            Number ceiling = line.number();
            worlds.push_back({floor, ceiling, Runs()});
        }
        if (no_pool(s)) return refused(1);
        if (count == 0 || count > kWorlds) return refused(11);
        Number room = s.capacity;
        for (const World &world : worlds) {
            if (world.floor > world.ceiling) return refused(11);
            if (world.floor > room) return refused(11);
            room -= world.floor;
        }
        s.worlds = worlds;
        s.sound = true;
        return "done";
    }

    string call_deepest(Line line) {
        Store &s = store(line);
        Number height = line.number();
        Number room = line.number();
        if (no_pool(s)) return refused(1);
        if (height < 1 || height > kHeights) return refused(13);
        if (fewest(height) > s.capacity) return refused(8);
        if (2 * fewest(height) > room) return refused(2);
        return worded(deepest_of(height), room);
    }

    string call_why_full(Line line) {
        Store &s = store(line);
        Number room = line.number();
        Number count = line.number();
        vector<Range> ranges;
        for (Number i = 0; i < count / 2; i++) {
            Bound lower = {line.number(), 0};
            lower.value = line.number();
            Bound upper = {line.number(), 0};
            upper.value = line.number();
            ranges.push_back(range_of(lower, upper));
        }
        if (no_pool(s)) return refused(1);
        vector<Number> places = blamed(ranges, s.capacity);
        if (places.empty()) return refused(16);
        if (places.size() > room) return refused(2);
        return worded(places, room);
    }

    string call_set(Line line) {
        Place p = place(line);
        Range range = line.range();
        bool v = line.number() != 0;
        if (no_pool(*p.store)) return refused(1);
        if (unsound(*p.store)) return refused(7);
        return number(set(p, range, v));
    }

    string call_flip(Line line) {
        Place p = place(line);
        Range range = line.range();
        if (no_pool(*p.store)) return refused(1);
        if (unsound(*p.store)) return refused(7);
        return done(flip(p, range));
    }

    string call_get(Line line) {
        Place p = place(line);
        Number x = line.number();
        if (no_pool(*p.store)) return refused(1);
        if (unsound(*p.store)) return refused(7);
        return value(get(p, x));
    }

    string call_run_at(Line line) {
        Place p = place(line);
        Number x = line.number();
        if (no_pool(*p.store)) return refused(1);
        if (unsound(*p.store)) return refused(7);
        Answer a = run_at(p, x);
        if (a.refusal) return refused(a.refusal);
        return "run " + text(a.number) + " " + text(a.end);
    }

    string call_find(Line line) {
        Place p = place(line);
        Range range = line.range();
        bool v = line.number() != 0;
        if (no_pool(*p.store)) return refused(1);
        if (unsound(*p.store)) return refused(7);
        return at(find(p, range, v));
    }

    string call_tally(Line line) {
        Place p = place(line);
        Range range = line.range();
        bool v = line.number() != 0;
        if (no_pool(*p.store)) return refused(1);
        if (unsound(*p.store)) return refused(7);
        return number_and_runs(tally(p, range, v));
    }

    string call_set_strict(Line line) {
        Place p = place(line);
        Range range = line.range();
        bool v = line.number() != 0;
        if (no_pool(*p.store)) return refused(1);
        if (unsound(*p.store)) return refused(7);
        return number(set_strict(p, range, v));
    }

    string call_flip_strict(Line line) {
        Place p = place(line);
        Range range = line.range();
        if (no_pool(*p.store)) return refused(1);
        if (unsound(*p.store)) return refused(7);
        return done(flip_strict(p, range));
    }

    string call_tally_strict(Line line) {
        Place p = place(line);
        Range range = line.range();
        bool v = line.number() != 0;
        if (no_pool(*p.store)) return refused(1);
        if (unsound(*p.store)) return refused(7);
        return number_and_runs(tally_strict(p, range, v));
    }

    string call_select(Line line) {
        Place p = place(line);
        Range range = line.range();
        bool v = line.number() != 0;
        Number k = line.number();
        if (no_pool(*p.store)) return refused(1);
        if (unsound(*p.store)) return refused(7);
        return at(select(p, range, v, k));
    }

    string call_gap(Line line) {
        Place p = place(line);
        Range range = line.range();
        Number n = line.number();
        if (no_pool(*p.store)) return refused(1);
        if (unsound(*p.store)) return refused(7);
        return at(gap(p, range, n));
    }

    string call_ranges(Line line) {
        Place p = place(line);
        Range range = line.range();
        bool v = line.number() != 0;
        if (no_pool(*p.store)) return refused(1);
        if (unsound(*p.store)) return refused(7);
        Answer a = ranges(p, range, v);
        if (a.refusal) return refused(a.refusal);
        return "listing " + left_over(a);
    }

    string call_draw_front(Line line) {
        Place p = place(line);
        Number first = line.number();
        Number last = line.number();
        bool v = line.number() != 0;
        if (no_pool(*p.store)) return refused(1);
        if (unsound(*p.store)) return refused(7);
        return drawn(draw_front(p, first, last, v));
    }

    string call_draw_back(Line line) {
        Place p = place(line);
        Number first = line.number();
        Number last = line.number();
        bool v = line.number() != 0;
        if (no_pool(*p.store)) return refused(1);
        if (unsound(*p.store)) return refused(7);
        return drawn(draw_back(p, first, last, v));
    }

    string call_shift(Line line) {
        Place p = place(line);
        Number distance = line.number();
        bool left = line.number() != 0;
        if (no_pool(*p.store)) return refused(1);
        if (unsound(*p.store)) return refused(7);
        return done(shift(p, distance, left));
    }

    string call_shifted(Line line) {
        Place p = place(line);
        Place q = place(line);
        Number distance = line.number();
        bool left = line.number() != 0;
        if (no_pool(*p.store) || no_pool(*q.store)) return refused(1);
        if (unsound(*p.store) || unsound(*q.store)) return refused(7);
        if (unopened(p) || unopened(q)) return refused(12);
        Runs after = moved(runs_of(q), distance, left);
        if (!fits(p, after.size())) return refused(8);
        runs_of(p) = after;
        return "done";
    }

    string call_combine(Line line) {
        Place p = place(line);
        string word = line.word();
        Operation op = word == "and" ? kAnd : word == "or" ? kOr : kXor;
        Place q = place(line);
        Place r = place(line);
        if (no_pool(*p.store) || no_pool(*q.store) || no_pool(*r.store)) return refused(1);
        if (unsound(*p.store) || unsound(*q.store) || unsound(*r.store)) return refused(7);
        if (unopened(p) || unopened(q) || unopened(r)) return refused(12);
        Runs after = joined(runs_of(q), runs_of(r), op);
        if (!fits(p, after.size())) return refused(8);
        runs_of(p) = after;
        return "done";
    }

    string call_not(Line line) {
        Place p = place(line);
        Place q = place(line);
        if (no_pool(*p.store) || no_pool(*q.store)) return refused(1);
        if (unsound(*p.store) || unsound(*q.store)) return refused(7);
        if (unopened(p) || unopened(q)) return refused(12);
        Runs after = inverted(runs_of(q));
        if (!fits(p, after.size())) return refused(8);
        runs_of(p) = after;
        return "done";
    }

    string call_eq(Line line) {
        Place p = place(line);
        Place q = place(line);
        if (no_pool(*p.store) || no_pool(*q.store)) return refused(1);
        if (unsound(*p.store) || unsound(*q.store)) return refused(7);
        if (unopened(p) || unopened(q)) return refused(12);
        return "value " + text(same(runs_of(p), runs_of(q)));
    }

    string call_load(Line line) {
        Place p = place(line);
        Bytes bytes = line.bytes();
        if (no_pool(*p.store)) return refused(1);
        if (unsound(*p.store)) return refused(7);
        if (unopened(p)) return refused(12);
        Number wrong = misformed(bytes);
        if (wrong != 0) return refused(wrong);
        Runs runs = told(bytes);
        if (disordered(runs)) return refused(5);
        if (!fits(p, runs.size())) return refused(8);
        runs_of(p) = runs;
        return "done";
    }

    string call_mend(Line line) {
        Place p = place(line);
        Bytes bytes = line.bytes();
        Number room = line.number();
        Number report_room = line.number();
        if (no_pool(*p.store)) return refused(1);
        if (unsound(*p.store)) return refused(7);
        if (unopened(p)) return refused(12);
        Number wrong = misformed(bytes);
        if (wrong != 0) return refused(wrong);
        Runs runs = told(bytes);
        Runs outcome = outcome_of(runs);
        if (!fits(p, outcome.size())) return refused(8);
        Bytes set = written_set(outcome, bytes[0] == 2);
        Bytes report = fates_of(runs, outcome);
        if (set.size() > room) return refused(2);
        if (report.size() > report_room) return refused(2);
        runs_of(p) = outcome;
        return written(set.size(), lent(set, room)) + " " + text(report.size()) + " " + hex(lent(report, report_room));
    }

    string call_build(Line line) {
        Place p = place(line);
        Number count = line.number();
        Runs runs;
        for (Number i = 0; i < count; i++) {
            Number start = line.number();
            Number end = line.number();
            runs.push_back({start, end});
        }
        if (no_pool(*p.store)) return refused(1);
        if (unsound(*p.store)) return refused(7);
        if (unopened(p)) return refused(12);
        if (disordered(runs)) return refused(5);
        if (!fits(p, runs.size())) return refused(8);
        runs_of(p) = runs;
        return "done";
    }

    string call_write_set(Line line) {
        Place p = place(line);
        Number edition = line.number();
        Number room = line.number();
        if (no_pool(*p.store)) return refused(1);
        if (unsound(*p.store)) return refused(7);
        if (unopened(p)) return refused(12);
        Bytes set = written_set(runs_of(p), edition == 2);
        if (set.size() > room) return refused(2);
        return written(set.size(), lent(set, room));
    }

    string call_convert(Line line) {
        Bytes bytes = line.bytes();
        Number room = line.number();
        Number wrong = misformed(bytes);
        if (wrong != 0) return refused(wrong);
        Runs runs = told(bytes);
        if (disordered(runs)) return refused(5);
        Bytes set = written_set(runs, bytes[0] == 1);
        if (set.size() > room) return refused(2);
        return written(set.size(), lent(set, room));
    }

    string call_read_map(Line line) {
        Place p = place(line);
        Number base = line.number();
        Number span = line.number();
        Bytes map = line.bytes();
        if (no_pool(*p.store)) return refused(1);
        if (unsound(*p.store)) return refused(7);
        if (unopened(p)) return refused(12);
        if (no_window(base, span)) return refused(6);
        if (map.size() != map_bytes(span)) return refused(6);
        Runs ones;
        for (Number i = 0; i < 8 * map.size(); i++) {
            if ((map[i / 8] >> (i % 8) & 1) == 0) continue;
            if (i >= span) return refused(10);
            add(ones, {base + i, base + i});
        }
        Range window = {false, false, base, base + (span - 1)};
        Runs after = joined(with_range(runs_of(p), window, false), ones, kOr);
        if (!fits(p, after.size())) return refused(8);
        Count changed = length(joined(runs_of(p), after, kXor));
        runs_of(p) = after;
        return number(counted(changed));
    }

    string call_clear_map(Line line) {
        Number base = line.number();
        Number span = line.number();
        Bytes map = line.bytes();
        if (no_window(base, span)) return refused(6);
        if (map.size() != map_bytes(span)) return refused(6);
        Number cleared = 0;
        for (Number i = span; i < 8 * map.size(); i++) {
            if ((map[i / 8] >> (i % 8) & 1) == 0) continue;
            cleared++;
            map[i / 8] = static_cast<unsigned char>(map[i / 8] - (1 << (i % 8)));
        }
        return "cleared " + text(cleared) + " " + hex(map);
    }

    string call_write_map(Line line) {
        Place p = place(line);
        Number base = line.number();
        Number span = line.number();
        Number room = line.number();
        if (no_pool(*p.store)) return refused(1);
        if (unsound(*p.store)) return refused(7);
        if (unopened(p)) return refused(12);
        if (no_window(base, span)) return refused(6);
        if (map_bytes(span) > room) return refused(2);
        Bytes map(map_bytes(span), 0);
        for (const Run &run : parts(runs_of(p), true, base, base + (span - 1))) {
            for (Number i = run.start - base; i <= run.end - base; i++) {
                map[i / 8] = static_cast<unsigned char>(map[i / 8] | 1 << (i % 8));
            }
        }
        return written(map.size(), lent(map, room));
    }

    string call_fill(Line line) {
        Place p = place(line);
        Number base = line.number();
        Number span = line.number();
        if (no_pool(*p.store)) return refused(1);
        if (unsound(*p.store)) return refused(7);
        return number(fill(p, base, span));
    }

    string call_set_rect(Line line) {
        Place p = place(line);
        Rect rect = line.rect();
        bool v = line.number() != 0;
        if (no_pool(*p.store)) return refused(1);
        if (unsound(*p.store)) return refused(7);
        return number(set_rect(p, rect, v));
    }

    string call_count_rect(Line line) {
        Place p = place(line);
        Rect rect = line.rect();
        if (no_pool(*p.store)) return refused(1);
        if (unsound(*p.store)) return refused(7);
        return number(count_rect(p, rect));
    }

    string call_survey(Line line) {
        Place p = place(line);
        Number row = line.number();
        Number column = line.number();
        Number k = line.number();
        Number room = line.number();
        if (no_pool(*p.store)) return refused(1);
        if (unsound(*p.store)) return refused(7);
        if (unopened(p)) return refused(12);
        if (k > 8) return refused(15);
        Number side = Number(1) << k;
        if (row > kSide - side || column > kSide - side) return refused(15);
        vector<Number> pieces;
        survey_of(runs_of(p), row, column, side, side, pieces);
        if (pieces.size() > room) return refused(2);
        return worded(pieces, room);
    }

    string call_frame(Line line) {
        Store &s = store(line);
        Number calls = line.number();
        Number room = line.number();
        framed = &s;
        frame_made = false;
        if (no_pool(s)) return refused(1);
        if (unsound(s)) return refused(7);
        if (calls > room) return refused(2);
        frame_made = true;
        return "done";
    }

    string call_record(Line line) {
        Number words[8];
        for (Number &word : words) word = line.number();
        if (!frame_made) return "-";
        Answer a = recorded(*framed, words);
        string out = "record " + text(a.refusal) + " " + text(a.found) + " " + text(a.number) + " " + text(a.end);
        return out + " " + left_over(a) + " 0";
    }

    string answer(const string &text_of) {
        Line line = {text_of, 0};
        string call = line.word();
        if (call == "words") return call_words(line);
        if (call == "spoil") return call_spoil(line);
        if (call == "new") return call_new(line);
        if (call == "deepest") return call_deepest(line);
        if (call == "why_full") return call_why_full(line);
        if (call == "set") return call_set(line);
        if (call == "flip") return call_flip(line);
        if (call == "get") return call_get(line);
        if (call == "run_at") return call_run_at(line);
        if (call == "find") return call_find(line);
        if (call == "tally") return call_tally(line);
        if (call == "set_strict") return call_set_strict(line);
        if (call == "flip_strict") return call_flip_strict(line);
        if (call == "tally_strict") return call_tally_strict(line);
        if (call == "select") return call_select(line);
        if (call == "gap") return call_gap(line);
        if (call == "ranges") return call_ranges(line);
        if (call == "draw_front") return call_draw_front(line);
        if (call == "draw_back") return call_draw_back(line);
        if (call == "shift") return call_shift(line);
        if (call == "shifted") return call_shifted(line);
        if (call == "combine") return call_combine(line);
        if (call == "not") return call_not(line);
        if (call == "eq") return call_eq(line);
        if (call == "load") return call_load(line);
        if (call == "mend") return call_mend(line);
        if (call == "build") return call_build(line);
        if (call == "write_set") return call_write_set(line);
        if (call == "convert") return call_convert(line);
        if (call == "read_map") return call_read_map(line);
        if (call == "clear_map") return call_clear_map(line);
        if (call == "write_map") return call_write_map(line);
        if (call == "fill") return call_fill(line);
        if (call == "set_rect") return call_set_rect(line);
        if (call == "count_rect") return call_count_rect(line);
        if (call == "survey") return call_survey(line);
        if (call == "frame") return call_frame(line);
        if (call == "record") return call_record(line);
        return "no such call";
    }
};

void play(std::FILE *calls) {
    Player player;
    char buffer[8192];
    while (std::fgets(buffer, sizeof buffer, calls)) {
        string line = buffer;
        while (!line.empty() && line.back() == '\n') line.pop_back();
        std::printf("%s\n", player.answer(line).c_str());
    }
}

}  // namespace

int main(int count, char **names) {
    if (count < 2) play(stdin);
    for (int i = 1; i < count; i++) {
        std::FILE *calls = std::fopen(names[i], "r");
        if (calls == nullptr) return 1;
        play(calls);
        std::fclose(calls);
    }
    return 0;
}
