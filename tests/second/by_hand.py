"""Wrong builds of second.cpp that the rules of mutants.py do not make: meanings that another implementation may have.

An edit: the function (or the constant), the text that goes, the text that comes, what is wrong with it; then, where the function does not tell them, the calls
that answer wrongly and the refusals that it is about.
"""

WORLD = "World &w = p.store->worlds[p.world]; "
SUM = "Number sum = 0; for (size_t i = 0; i < p.store->worlds.size(); i++) { World &v = p.store->worlds[i]; sum += "

# what stands for fits(p, N) in one call
ROOM = {
    "the ceiling is ignored":
        "[&] { " + WORLD + "Number c = w.ceiling; w.ceiling = kTop; bool ok = fits(p, N); w.ceiling = c; return ok; }()",
    "only the ceiling counts": "(N <= p.store->worlds[p.world].ceiling)",
    "the other worlds are ignored": "(N <= p.store->worlds[p.world].ceiling && N <= p.store->capacity)",
    "floors are ignored":
        "[&] { " + SUM + "i == p.world ? N : v.runs.size(); } return sum <= p.store->capacity && N <= p.store->worlds[p.world].ceiling; }()",
    "the neighbours' floors are ignored":
        "[&] { " + SUM + "i == p.world ? larger(N, v.floor) : v.runs.size(); } return sum <= p.store->capacity && "
        "N <= p.store->worlds[p.world].ceiling; }()",
    "one run more is asked for": "fits(p, N + 1)",
    "one run more than before is asked for": "fits(p, larger(N, runs_of(p).size() + 1))",
    "old and new runs together are asked for": "fits(p, N + runs_of(p).size())",
}

EDITS = [
    # ---- new
    ("call_new", "if (world.floor > room) return refused(11);\n            room -= world.floor;",
     "room -= world.floor;", "floors together are not asked about", "new", [11]),
    ("call_new", "if (world.floor > room) return refused(11);\n            room -= world.floor;\n        }",
     "room += world.floor;\n        }\n        if (room - s.capacity > s.capacity) return refused(11);", "the sum of floors wraps", "new", [11]),
    (
        "call_new",
        "if (world.floor > room) return refused(11);\n"
        "            room -= world.floor;\n"
        "        }",
        "room += world.floor & 0xffffffff;\n"
        "        }\n"
        "        if (room - s.capacity > s.capacity) return refused(11);",
        "floors have 32 bits where they are summed",
        "new",
        [11],
    ),
    (
        "call_new",
        "if (world.floor > world.ceiling) return refused(11);",
        "if (static_cast<int64_t>(world.floor) > static_cast<int64_t>(world.ceiling)) return refused(11);",
        "limits are compared as signed numbers",
        "new",
        [11],
    ),
    ("call_new", "if (world.floor > world.ceiling) return refused(11);",
     "if (world.floor > (world.ceiling & 0xffffffff)) return refused(11);", "a ceiling has 32 bits", "new", [11]),
    ("call_new", "if (world.floor > world.ceiling) return refused(11);",
     "if (world.floor > world.ceiling || world.ceiling > s.capacity) return refused(11);", "a ceiling above C is refused", "new", [11]),
    ("call_new", "worlds.push_back({floor, ceiling, Runs()});",
     "worlds.push_back({floor, ceiling & 0xffff, Runs()});", "a ceiling has 16 bits", "new"),
    ("call_new", "worlds.push_back({floor, ceiling, Runs()});",
     "worlds.push_back({floor, ceiling & 0xffffffff, Runs()});", "a ceiling has 32 bits wherever it is read", "new"),
    ("call_new", "worlds.push_back({floor, ceiling, Runs()});",
     "worlds.push_back({floor, ceiling, i < s.worlds.size() ? s.worlds[i].runs : Runs()});", "worlds keep what they held", "new"),
    ("call_new", "if (count == 0 || count > kWorlds) return refused(11);",
     "s.worlds.clear();\n        if (count == 0 || count > kWorlds) return refused(11);", "a refused making has closed the worlds", "new", [11]),
    ("call_new", "if (count == 0 || count > kWorlds) return refused(11);",
     "s.sound = false;\n        if (count == 0 || count > kWorlds) return refused(11);", "a refused making leaves no sound pool", "new", [11]),
    (
        "call_new",
        "if (count == 0 || count > kWorlds) return refused(11);",
        "if (unsound(s) && !s.worlds.empty()) return refused(7);\n"
        "        if (count == 0 || count > kWorlds) return refused(11);",
        "words that are no sound pool are refused",
        "new",
        [7],
    ),
    ("call_new", "if (count == 0 || count > kWorlds) return refused(11);",
     "if (count == 0) return refused(11);\n        if (count > kWorlds) worlds.resize(kWorlds);", "worlds above 16 are left out", "new", [11]),
    (
        "call_new",
        "if (no_pool(s)) return refused(1);\n"
        "        if (count == 0 || count > kWorlds) return refused(11);",
        "if (count == 0 || count > kWorlds) return refused(11);\n"
        "        if (no_pool(s)) return refused(1);",
        "11 before 1 for the number of worlds",
        "new",
        [1, 11],
    ),
    ("call_spoil", "store(line).sound = false;", "store(line) = Store();", "a spoiled store has no words", "spoil", [1, 7]),
    ("call_spoil", "store(line).sound = false;", "store(line).worlds.clear();", "a spoiled store is sound and has no world", "spoil", [7, 12]),
    (
        "call_spoil",
        "store(line).sound = false;",
        "Store &s = store(line);\n"
        "        if (s.worlds.size() == 1) s.sound = false;",
        "only a pool of one world can be spoiled",
        "spoil",
        [7],
    ),
    (
        "call_spoil",
        "store(line).sound = false;",
        "Store &s = store(line);\n"
        "        if (s.worlds.size() > 1) s.sound = false;",
        "only a pool of several worlds can be spoiled",
        "spoil",
        [7],
    ),
    (
        "call_spoil",
        "store(line).sound = false;",
        "Store &s = store(line);\n"
        "        for (World &w : s.worlds) w.runs.clear();\n"
        "        s.sound = false;",
        "what is spoiled has lost its positions, which nothing can show",
        "spoil",
        [7],
    ),
    (
        "call_spoil",
        "store(line).sound = false;",
        "Store &s = store(line);\n"
        "        s.sound = !s.sound && !s.worlds.empty();",
        "spoiled twice is sound again",
        "spoil",
        [7],
    ),

    # ---- what all changes share
    ("fits", "if (runs > p.store->worlds[p.world].ceiling) return false;",
     "if (runs > lesser(p.store->worlds[p.world].ceiling, p.store->capacity - 1)) return false;", "a ceiling is below C", ""),
    ("fits", "sum += larger(i == p.world ? runs : world.runs.size(), world.floor);",
     "sum += i == p.world ? larger(runs, world.floor) : world.runs.size() + world.floor;", "runs and floor of the neighbours are summed", ""),
    (
        "set_range",
        "if (!fits(p, after.size())) return refusal(8);",
        "if (!fits(p, after.size()) && after.size() > runs_of(p).size()) return refusal(8);",
        "what adds no run is never refused, which is so anyway",
        None,
        [8],
    ),
    ("set_range", "if (!fits(p, after.size())) return refusal(8);",
     "if (!fits(p, value ? with_range(runs_of(p), range, false).size() + !range.empty : after.size())) return refusal(8);",
     "8 by the runs on the way: those of the range go, and then it comes", None, [8]),
    ("set_range", "if (!fits(p, after.size())) return refusal(8);",
     "if (!fits(p, runs_of(p).size() + (value && !range.empty && parts(runs_of(p), true, range).empty()))) return refusal(8);\n"
     "    if (!fits(p, after.size())) return refusal(8);",
     "8 by the runs on the way: a run that touches its neighbours is put beside them first", None, [8]),
    ("set_range", "Count changed = length(parts(runs_of(p), !value, range));",
     "Count changed = range.empty ? Count{0, 0} : length(Runs(1, {range.first, range.last}));", "it counts the range, changed or not"),
    ("set_range", "return counted(changed);", "return numbered(changed.low);", "the carry of a count is lost"),
    (
        "set",
        "return set_range(p, range, value);",
        "if (range.reversed) return refusal(14);\n"
        "    return set_range(p, range, value);",
        "it is strict",
        None,
        [14],
    ),
    (
        "set",
        "return set_range(p, range, value);",
        "return set_range(p, range, value || range.reversed);",
        "reversed ranges make no difference, which is so anyway",
    ),
    (
        "set",
        "return set_range(p, range, value);",
        "if (range.first == range.last && held(runs_of(p), range.first) == value) return Answer();\n"
        "    return set_range(p, range, value);",
        "one position that has the value already is left, which is right",
    ),
    (
        "set",
        "return set_range(p, range, value);",
        "if (range.empty && p.store->worlds.size() == 1 && !fits(p, runs_of(p).size() + 1)) return refusal(8);\n"
        "    return set_range(p, range, value);",
        "an empty range is refused in a full pool",
        None,
        [8],
    ),
    ("flip", "return flip_range(p, range);", "if (range.reversed) return refusal(14);\n    return flip_range(p, range);", "it is strict", None, [14]),
    (
        "flip",
        "return flip_range(p, range);",
        "return range.empty ? Answer() : flip_range(p, {false, false, range.first, range.last == kTop ? kTop : range.last});",
        "the range is made anew, which changes nothing",
    ),
    ("flip_range", "if (!fits(p, after.size())) return refusal(8);",
     "if (!fits(p, with_range(runs_of(p), range, false).size() + parts(runs_of(p), false, range).size())) return refusal(8);",
     "8 by the runs on the way: those of the range go, and the others come beside their neighbours", None, [8]),
    (
        "flip_range",
        "if (!fits(p, after.size())) return refusal(8);",
        "if (!fits(p, larger(after.size(), with_range(runs_of(p), range, true).size()))) return refusal(8);",
        "8 by the runs on the way: the whole range is set first",
        None,
        [8],
    ),
    ("flip_range", "if (!fits(p, after.size())) return refusal(8);",
     "if (range.first > 0 && !fits(p, joined(runs_of(p), Runs(1, {range.first, kTop}), kXor).size())) return refusal(8);\n"
     "    if (!fits(p, after.size())) return refusal(8);", "8 by the runs on the way: all from the first position on are flipped first", None, [8]),
    ("set_strict", "if (range.reversed) return refusal(14);", "if (range.empty) return refusal(14);", "an empty range is refused", None, [14]),
    ("flip_strict", "if (range.reversed) return refusal(14);", "if (range.empty) return refusal(14);", "an empty range is refused", None, [14]),
    ("tally_strict", "if (range.reversed) return refusal(14);", "if (range.empty) return refusal(14);", "an empty range is refused", None, [14]),
    ("set_strict", "if (unopened(p)) return refusal(12);\n    if (range.reversed) return refusal(14);",
     "if (range.reversed) return refusal(14);\n    if (unopened(p)) return refusal(12);", "14 before 12", None, [12, 14]),
    ("flip_strict", "if (unopened(p)) return refusal(12);\n    if (range.reversed) return refusal(14);",
     "if (range.reversed) return refusal(14);\n    if (unopened(p)) return refusal(12);", "14 before 12", None, [12, 14]),
    ("tally_strict", "if (unopened(p)) return refusal(12);\n    if (range.reversed) return refusal(14);",
     "if (range.reversed) return refusal(14);\n    if (unopened(p)) return refusal(12);", "14 before 12", None, [12, 14]),
    (
        "call_set_strict",
        "if (unsound(*p.store)) return refused(7);",
        "if (range.reversed && !p.store->worlds.empty()) return refused(14);\n"
        "        if (unsound(*p.store)) return refused(7);",
        "14 before 7",
        None,
        [7, 14],
    ),
    (
        "call_flip_strict",
        "if (unsound(*p.store)) return refused(7);",
        "if (range.reversed && !p.store->worlds.empty()) return refused(14);\n"
        "        if (unsound(*p.store)) return refused(7);",
        "14 before 7",
        None,
        [7, 14],
    ),
    (
        "call_tally_strict",
        "if (unsound(*p.store)) return refused(7);",
        "if (range.reversed && !p.store->worlds.empty()) return refused(14);\n"
        "        if (unsound(*p.store)) return refused(7);",
        "14 before 7",
        None,
        [7, 14],
    ),
    ("range_of", "range.reversed = range.first > range.last && range.first - range.last > 1;", "range.reversed = range.first > range.last;",
     "excluded 5 to excluded 6 is taken for reversed", "set_strict flip_strict tally_strict", [14]),
    (
        "range_of",
        "range.reversed = range.first > range.last && range.first - range.last > 1;",
        "range.reversed = lower.kind != 3 && upper.kind != 3 && lower.value > upper.value;",
        "reversed goes by the values of the bounds alone",
        "set_strict flip_strict tally_strict",
        [14],
    ),
    ("range_of", "range.reversed = below || range.last != kTop;", "range.reversed = true;", "excluded 2^64 - 1 to no bound is taken for reversed",
     "set_strict flip_strict tally_strict", [14]),
    (
        "range_of",
        "range.reversed = range.first > 0;",
        "range.reversed = true;",
        "no bound to excluded 0 is taken for reversed",
        "set_strict flip_strict tally_strict",
        [14],
    ),
    (
        "range_of",
        "range.reversed = below || range.last != kTop;",
        "range.reversed = false;",
        "excluded 2^64 - 1 to included 3 is not taken for reversed",
        "set_strict flip_strict tally_strict",
        [14],
    ),
    (
        "range_of",
        "range.empty = above || below || range.first > range.last;",
        "range.empty = above || below || static_cast<int64_t>(range.first) > static_cast<int64_t>(range.last);",
        "bounds are compared as signed numbers",
        "",
    ),
    (
        "range_of",
        "if (!named(lower.kind) || !named(upper.kind)) return {true, false, 0, 0};",
        "if (!named(lower.kind)) lower.kind = 2;\n"
        "    if (!named(upper.kind)) return {true, false, 0, 0};",
        "reserved kinds of lower bounds exclude",
        "record",
    ),
    (
        "range_of",
        "if (!named(lower.kind) || !named(upper.kind)) return {true, false, 0, 0};",
        "if (!named(upper.kind)) upper.kind = 1;\n"
        "    if (!named(lower.kind)) return {true, false, 0, 0};",
        "reserved kinds of upper bounds include",
        "record",
    ),
    (
        "range_of",
        "if (!named(lower.kind) || !named(upper.kind)) return {true, false, 0, 0};",
        "if (!named(upper.kind)) return {true, false, 0, 0};",
        "reserved kinds of lower bounds are no bound",
        "record",
    ),
    (
        "range_of",
        "if (!named(lower.kind) || !named(upper.kind)) return {true, false, 0, 0};",
        "if (!named(lower.kind)) return {true, false, 0, 0};",
        "reserved kinds of upper bounds are no bound",
        "record",
    ),
    (
        "range_of",
        "if (!named(lower.kind) || !named(upper.kind)) return {true, false, 0, 0};",
        "if (lower.kind > 3 || upper.kind > 3) return {true, false, 0, 0};",
        "a kind of 0 is no bound",
        "record",
    ),
    (
        "range_of",
        "if (!named(lower.kind) || !named(upper.kind)) return {true, false, 0, 0};",
        "if (!named(lower.kind) || !named(upper.kind)) return {true, true, 0, 0};",
        "a range with a bound of a reserved kind is reversed",
        "record",
        [14],
    ),
    (
        "range_of",
        "if (!named(lower.kind) || !named(upper.kind)) return {true, false, 0, 0};",
        "if (!named(lower.kind & 3) || !named(upper.kind)) return {true, false, 0, 0};",
        "of a kind of a lower bound two bits are looked at",
        "record",
    ),
    (
        "range_of",
        "if (!named(lower.kind) || !named(upper.kind)) return {true, false, 0, 0};",
        "if (!named(lower.kind) || !named(static_cast<uint32_t>(upper.kind))) return {true, false, 0, 0};",
        "a kind of an upper bound has 32 bits",
        "record",
    ),
    (
        "with_range",
        "if (value) add(out, {range.first, range.last});",
        "if (value) out.push_back({range.first, range.last});",
        "runs that touch below are not joined",
        "set set_strict",
    ),
    (
        "with_range",
        "if (range.first > 0) out = parts(runs, true, 0, range.first - 1);",
        "if (range.first > 0) out = parts(runs, true, 0, range.first - 1);\n"
        "    if (range.first == 0 && value && runs.size() && runs.back().end == kTop) out.clear();",
        "the two ends are looked at, which changes nothing",
        "",
    ),

    # ---- shift and shifted
    ("shift", "moved(runs_of(p), distance, left)", "moved(runs_of(p), distance % 64, left)", "the distance is taken modulo 64"),
    ("shift", "moved(runs_of(p), distance, left)", "moved(runs_of(p), distance & 0xffffffff, left)", "the distance has 32 bits"),
    ("shift", "moved(runs_of(p), distance, left)", "moved(runs_of(p), distance & (kTop >> 1), left)", "the distance has 63 bits"),
    ("shift", "moved(runs_of(p), distance, left)", "moved(runs_of(p), distance > kTop / 2 ? 0 - distance : distance, left != (distance > kTop / 2))",
     "the distance is a signed number"),
    ("shift", "moved(runs_of(p), distance, left)", "moved(runs_of(p), distance < 64 ? distance : kTop, left)", "64 and more drop all"),
    (
        "shift",
        "runs_of(p) = moved(runs_of(p), distance, left);",
        "runs_of(p) = joined(moved(runs_of(p), distance, left), distance ? moved(runs_of(p), 0 - distance, !left) : Runs(), kOr);",
        "what leaves comes back at the other end",
    ),
    (
        "shift",
        "runs_of(p) = moved(runs_of(p), distance, left);",
        "Runs after = moved(runs_of(p), distance, left);\n"
        "    if (!fits(p, runs_of(p).size() + 1)) return refusal(8);\n"
        "    runs_of(p) = after;",
        "refused in a full pool",
        None,
        [8],
    ),
    ("call_shifted", "moved(runs_of(q), distance, left)", "moved(runs_of(q), distance % 64, left)", "the distance is taken modulo 64"),
    ("call_shifted", "moved(runs_of(q), distance, left)", "moved(runs_of(q), distance & 0xffffffff, left)", "the distance has 32 bits"),
    ("call_shifted", "moved(runs_of(q), distance, left)", "moved(runs_of(q), distance & (kTop >> 1), left)", "the distance has 63 bits"),
    ("call_shifted", "moved(runs_of(q), distance, left)", "moved(runs_of(q), distance < 64 ? distance : kTop, left)", "64 and more drop all"),
    ("call_shifted", "moved(runs_of(q), distance, left)", "moved(runs_of(p), distance, left)", "it moves what the world held"),
    (
        "call_shifted",
        "if (!fits(p, after.size())) return refused(8);",
        "if (!fits(p, runs_of(q).size())) return refused(8);",
        "8 by the runs before some are dropped",
        None,
        [8],
    ),
    (
        "call_shifted",
        "if (!fits(p, after.size())) return refused(8);\n"
        "        runs_of(p) = after;",
        "if (!fits(p, after.size())) return refused(8);\n"
        "        runs_of(q) = after;\n"
        "        runs_of(p) = after;",
        "the world that is read is moved too",
    ),
    (
        "call_shifted",
        "Runs after = moved",
        "runs_of(p).clear();\n"
        "        Runs after = moved",
        "the world is emptied before the other is read: a world that is its own other, and a refused call",
    ),
    (
        "moved",
        "if (run.start > kTop - distance) continue;",
        "if (run.end > kTop - distance) continue;",
        "a run that leaves in part is dropped as a whole, up",
        None,
    ),
    (
        "moved",
        "if (run.end < distance) continue;",
        "if (run.start < distance) continue;",
        "a run that leaves in part is dropped as a whole, down",
        None,
    ),
    (
        "moved",
        "if (run.start > kTop - distance) continue;",
        "if (run.start > kTop - distance) {\n"
        "                add(out, {kTop, kTop});\n"
        "                continue;\n"
        "            }",
        "what would leave stays at the top",
        None,
    ),
    (
        "moved",
        "if (run.end < distance) continue;",
        "if (run.end < distance) {\n"
        "                add(out, {0, 0});\n"
        "                continue;\n"
        "            }",
        "what would leave stays at 0",
        None,
    ),

    # ---- joins
    (
        "call_combine",
        "Runs after = joined",
        "runs_of(p).clear();\n"
        "        Runs after = joined",
        "the world is emptied before the others are read: a world that is its own other, and a refused call",
    ),
    ("call_combine", "joined(runs_of(q), runs_of(r), op)", "joined(runs_of(r), runs_of(q), op)", "the two others are swapped, which is right"),
    (
        "call_combine",
        "joined(runs_of(q), runs_of(r), op)",
        "joined(runs_of(q), op == kXor ? joined(runs_of(q), inverted(runs_of(r)), kAnd) : runs_of(r), op)",
        "xor is and",
    ),
    (
        "call_combine",
        "joined(runs_of(q), runs_of(r), op)",
        "op == kXor ? joined(runs_of(q), inverted(runs_of(r)), kAnd) : joined(runs_of(q), runs_of(r), op)",
        "xor is a difference",
    ),
    ("call_combine", "joined(runs_of(q), runs_of(r), op)", "joined(runs_of(p), runs_of(r), op)", "the world stands for the first other"),
    (
        "call_combine",
        "if (!fits(p, after.size())) return refused(8);",
        "if (!fits(p, larger(after.size(), runs_of(q).size()))) return refused(8);",
        "8 by the runs on the way: the first other is copied first",
        None,
        [8],
    ),
    (
        "call_combine",
        "if (!fits(p, after.size())) return refused(8);",
        "if (!fits(p, larger(after.size(), larger(runs_of(q).size(), runs_of(r).size())))) return refused(8);",
        "8 by the larger of the two others",
        None,
        [8],
    ),
    (
        "call_combine",
        "if (no_pool(*p.store) || no_pool(*q.store) || no_pool(*r.store)) return refused(1);\n"
        "        if (unsound(*p.store)",
        "if (no_pool(*p.store)) return refused(1);\n"
        "        if (unsound(*p.store)) return refused(7);\n"
        "        if (no_pool(*q.store) || no_pool(*r.store)) return refused(1);\n"
        "        if (unsound(*p.store)",
        "7 of the world before 1 of the others",
        None,
        [1, 7],
    ),
    (
        "call_combine",
        "if (no_pool(*p.store) || no_pool(*q.store) || no_pool(*r.store)) return refused(1);\n"
        "        if (unsound(*p.store)",
        "if (no_pool(*p.store) || no_pool(*q.store)) return refused(1);\n"
        "        if (unsound(*q.store)) return refused(7);\n"
        "        if (no_pool(*r.store)) return refused(1);\n"
        "        if (unsound(*p.store)",
        "7 of the first other before 1 of the second",
        None,
        [1, 7],
    ),
    (
        "call_combine",
        "if (unsound(*p.store) || unsound(*q.store) || unsound(*r.store)) return refused(7);",
        "if (unsound(*p.store) || unsound(*q.store)) return refused(7);\n"
        "        if (unopened(q)) return refused(12);\n"
        "        if (unsound(*r.store)) return refused(7);",
        "12 of the first other before 7 of the second",
        None,
        [7, 12],
    ),
    (
        "call_combine",
        "if (unsound(*p.store) || unsound(*q.store) || unsound(*r.store)) return refused(7);",
        "if (unsound(*p.store)) return refused(7);\n"
        "        if (unopened(p)) return refused(12);\n"
        "        if (unsound(*q.store) || unsound(*r.store)) return refused(7);",
        "12 of the world before 7 of the others",
        None,
        [7, 12],
    ),
    (
        "call_combine",
        "runs_of(p) = after;",
        "runs_of(p) = after;\n"
        "        if (&runs_of(q) != &runs_of(p)) runs_of(q).clear();",
        "the first other is emptied",
    ),
    (
        "call_not",
        "Runs after = inverted(runs_of(q));",
        "runs_of(p).clear();\n"
        "        Runs after = inverted(runs_of(q));",
        "the world is emptied before the other is read: a world that is its own other, and a refused call",
    ),
    ("call_not", "inverted(runs_of(q))", "inverted(runs_of(p))", "it inverts what the world held"),
    ("call_not", "inverted(runs_of(q))", "parts(runs_of(q), false, 0, kTop - 1)", "the last position is left out"),
    ("call_not", "inverted(runs_of(q))", "parts(runs_of(q), false, 1, kTop)", "the first position is left out"),
    ("call_not", "inverted(runs_of(q))", "(runs_of(q).empty() ? Runs() : inverted(runs_of(q)))", "of nothing it makes nothing"),
    (
        "call_not",
        "if (!fits(p, after.size())) return refused(8);",
        "if (!fits(p, larger(after.size(), runs_of(q).size()))) return refused(8);",
        "8 by the runs on the way: the other is copied first",
        None,
        [8],
    ),
    (
        "call_not",
        "if (!fits(p, after.size())) return refused(8);",
        "if (!fits(p, runs_of(q).size())) return refused(8);",
        "8 by the runs of the other",
        None,
        [8],
    ),
    (
        "call_not",
        "if (no_pool(*p.store) || no_pool(*q.store)) return refused(1);",
        "if (no_pool(*p.store)) return refused(1);\n"
        "        if (unsound(*p.store)) return refused(7);\n"
        "        if (no_pool(*q.store)) return refused(1);",
        "7 of the world before 1 of the other",
        None,
        [1, 7],
    ),
    (
        "call_not",
        "if (unsound(*p.store) || unsound(*q.store)) return refused(7);",
        "if (unsound(*p.store)) return refused(7);\n"
        "        if (unopened(p)) return refused(12);\n"
        "        if (unsound(*q.store)) return refused(7);",
        "12 of the world before 7 of the other",
        None,
        [7, 12],
    ),
    (
        "call_not",
        "if (unsound(*p.store) || unsound(*q.store)) return refused(7);",
        "if (unsound(*q.store)) return refused(7);\n"
        "        if (unopened(q)) return refused(12);\n"
        "        if (unsound(*p.store)) return refused(7);",
        "12 of the other before 7 of the world",
        None,
        [7, 12],
    ),
    (
        "call_shifted",
        "if (no_pool(*p.store) || no_pool(*q.store)) return refused(1);",
        "if (no_pool(*p.store)) return refused(1);\n"
        "        if (unsound(*p.store)) return refused(7);\n"
        "        if (no_pool(*q.store)) return refused(1);",
        "7 of the world before 1 of the other",
        None,
        [1, 7],
    ),
    (
        "call_shifted",
        "if (unsound(*p.store) || unsound(*q.store)) return refused(7);",
        "if (unsound(*p.store)) return refused(7);\n"
        "        if (unopened(p)) return refused(12);\n"
        "        if (unsound(*q.store)) return refused(7);",
        "12 of the world before 7 of the other",
        None,
        [7, 12],
    ),
    (
        "call_shifted",
        "if (unsound(*p.store) || unsound(*q.store)) return refused(7);",
        "if (unsound(*q.store)) return refused(7);\n"
        "        if (unopened(q)) return refused(12);\n"
        "        if (unsound(*p.store)) return refused(7);",
        "12 of the other before 7 of the world",
        None,
        [7, 12],
    ),
    (
        "call_eq",
        "if (no_pool(*p.store) || no_pool(*q.store)) return refused(1);",
        "if (no_pool(*p.store)) return refused(1);\n"
        "        if (unsound(*p.store)) return refused(7);\n"
        "        if (no_pool(*q.store)) return refused(1);",
        "7 of the first before 1 of the second",
        None,
        [1, 7],
    ),
    (
        "call_eq",
        "if (unsound(*p.store) || unsound(*q.store)) return refused(7);",
        "if (unsound(*p.store)) return refused(7);\n"
        "        if (unopened(p)) return refused(12);\n"
        "        if (unsound(*q.store)) return refused(7);",
        "12 of the first before 7 of the second",
        None,
        [7, 12],
    ),
    (
        "call_eq",
        "if (unsound(*p.store) || unsound(*q.store)) return refused(7);",
        "if (unsound(*q.store)) return refused(7);\n"
        "        if (unopened(q)) return refused(12);\n"
        "        if (unsound(*p.store)) return refused(7);",
        "12 of the second before 7 of the first",
        None,
        [7, 12],
    ),
    (
        "call_eq",
        "same(runs_of(p), runs_of(q))",
        "(same(runs_of(p), runs_of(q)) && p.store->capacity == q.store->capacity)",
        "capacities have to be equal too",
    ),
    (
        "call_eq",
        "same(runs_of(p), runs_of(q))",
        "(same(runs_of(p), runs_of(q)) && p.store->worlds[p.world].ceiling == q.store->worlds[q.world].ceiling)",
        "ceilings have to be equal too",
    ),
    (
        "call_eq",
        "same(runs_of(p), runs_of(q))",
        "(same(runs_of(p), runs_of(q)) && p.store->worlds[p.world].floor == q.store->worlds[q.world].floor)",
        "floors have to be equal too",
    ),
    (
        "call_eq",
        "same(runs_of(p), runs_of(q))",
        "(same(runs_of(p), runs_of(q)) && p.store->worlds.size() == q.store->worlds.size())",
        "as many worlds have to be opened",
    ),
    ("call_eq", "same(runs_of(p), runs_of(q))", "(runs_of(p).size() == runs_of(q).size())", "as many runs are enough"),
    ("call_eq", "same(runs_of(p), runs_of(q))", "(length(runs_of(p)).low == length(runs_of(q)).low)", "as many positions, modulo 2^64, are enough"),
    (
        "call_eq",
        "same(runs_of(p), runs_of(q))",
        "(runs_of(p).size() == runs_of(q).size() && length(runs_of(p)).low == length(runs_of(q)).low)",
        "as many runs and positions are enough",
    ),
    ("call_eq", "same(runs_of(p), runs_of(q))", "same(runs_of(p), joined(runs_of(p), runs_of(q), kOr))", "to hold all of the second is enough"),
    ("call_eq", "same(runs_of(p), runs_of(q))", "same(runs_of(q), joined(runs_of(p), runs_of(q), kOr))", "to be held by the second is enough"),

    # ---- reports
    ("get", "held(runs_of(p), x)", "held(runs_of(p), x & 0xffffffff)", "a position has 32 bits"),
    ("get", "held(runs_of(p), x)", "held(runs_of(p), x & (kTop >> 1))", "a position has 63 bits"),
    ("get", "held(runs_of(p), x)", "(held(runs_of(p), x) && x != kTop)", "the last position is free"),
    ("get", "held(runs_of(p), x)", "(held(runs_of(p), x) && runs_of(p).front().start != x)", "the first held position is free"),
    ("get", "if (unopened(p)) return refusal(12);", "if (unopened(p)) return numbered(0);", "of no world it says free", None, [12]),
    (
        "get",
        "if (unopened(p)) return refusal(12);",
        "if (p.world >= 16) return refusal(12);\n"
        "    if (unopened(p)) return numbered(0);",
        "only worlds from 16 on are refused",
        None,
        [12],
    ),
    (
        "run_at",
        "if (run.start <= x && x <= run.end) {",
        "if (held(runs_of(p), x) && run.start <= x && x <= run.end) {",
        "of a free position it tells 0 .. 0",
    ),
    ("run_at", "answer.end = run.end;", "answer.end = x;", "the run is cut at the position"),
    ("run_at", "answer.number = run.start;", "answer.number = x;", "the run begins at the position"),
    (
        "run_at",
        "parts(runs_of(p), held(runs_of(p), x), 0, kTop)",
        "parts(runs_of(p), held(runs_of(p), x), 0, kTop - 1)",
        "the last position is left out",
    ),
    (
        "run_at",
        "if (run.start <= x && x <= run.end) {",
        "if (static_cast<int64_t>(run.start) <= static_cast<int64_t>(x) && static_cast<int64_t>(x) <= static_cast<int64_t>(run.end)) {",
        "positions are compared as signed numbers",
    ),
    (
        "find",
        "return position(found[0].start);",
        "Answer a = run_at(p, found[0].start);\n"
        "    return position(a.number);",
        "the run's first position is told, also below the range",
    ),
    ("find", "return position(found[0].start);", "return position(found.back().end);", "the greatest position is told"),
    (
        "find",
        "return position(found[0].start);",
        "if (found[0].start == kTop) return Answer();\n"
        "    return position(found[0].start);",
        "the last position is never found",
    ),
    ("find", "if (found.empty()) return Answer();", "if (found.empty() || found[0].start == 0) return Answer();", "position 0 is taken for none"),
    (
        "find",
        "if (found.empty()) return Answer();",
        "if (found.empty()) return value ? Answer() : position(range.last);",
        "where none is free it tells the last",
    ),
    ("tally_range", "answer.end = found.size();", "answer.end = runs_of(p).size();", "all runs of the world are counted", None),
    (
        "tally_range",
        "answer.end = found.size();",
        "answer.end = found.size() - (!found.empty() && found[0].start > 0 && held(runs_of(p), found[0].start - 1) == value);",
        "a run that began below the range is not counted",
        None,
    ),
    (
        "tally_range",
        "answer.end = found.size();",
        "answer.end = found.size() - (!found.empty() && found.back().end < kTop && held(runs_of(p), found.back().end + 1) == value);",
        "a run that ends above the range is not counted",
        None,
    ),
    ("tally_range", "answer.end = found.size();", "answer.end = parts(runs_of(p), true, range).size();", "held runs are counted for free ones", None),
    ("tally_range", "Answer answer = counted(length(found));", "Answer answer = numbered(length(found).low);", "the carry is lost", None),
    (
        "tally",
        "return tally_range(p, range, value);",
        "if (range.reversed) return refusal(14);\n"
        "    return tally_range(p, range, value);",
        "it is strict",
        None,
        [14],
    ),
    (
        "select",
        "if (k <= run.end - run.start) return position(run.start + k);",
        "if (k < run.end - run.start + 1) return position(run.start + k);",
        "a run of all positions has length 0",
    ),
    ("select", "for (const Run &run", "k &= 0xffffffff;\n    for (const Run &run", "k has 32 bits"),
    ("select", "for (const Run &run", "k &= kTop >> 1;\n    for (const Run &run", "k has 63 bits"),
    (
        "select",
        "for (const Run &run",
        "if (k >= length(parts(runs_of(p), value, range)).low) return Answer();\n"
        "    for (const Run &run",
        "2^64 positions count as none",
    ),
    ("select", "return position(run.start + k);", "return position(run.end - k);", "it counts from the end of a run"),
    ("select", "parts(runs_of(p), value, range)", "parts(runs_of(p), value, 0, range.empty ? 0 : range.last)", "it counts from 0 on"),
    (
        "gap",
        "if (n - 1 <= run.end - run.start) return position(run.start);",
        "if (n <= run.end - run.start + 1) return position(run.start);",
        "a gap of all positions has length 0",
    ),
    ("gap", "if (n == 0) return refusal(9);", "if (n == 0) return find(p, range, false);", "a gap of none is found", None, [9]),
    ("gap", "if (n == 0) return refusal(9);", "if (n == 0) return Answer();", "a gap of none is not found", None, [9]),
    ("gap", "if (n == 0) return refusal(9);", "if (n == 0 && !range.empty) return refusal(9);", "9 only where the range is not empty", None, [9]),
    ("gap", "if (n == 0) return refusal(9);", "if (n == 0 && !runs_of(p).empty()) return refusal(9);", "9 only where positions are held", None, [9]),
    (
        "gap",
        "if (unopened(p)) return refusal(12);\n"
        "    if (n == 0) return refusal(9);",
        "if (n == 0) return refusal(9);\n"
        "    if (unopened(p)) return refusal(12);",
        "9 before 12",
        None,
        [9, 12],
    ),
    ("gap", "return position(run.start);", "return position(run.end - (n - 1));", "the last place in a gap is told"),
    (
        "gap",
        "    return Answer();\n"
        "}\n",
        "    for (const Run &run : parts(runs_of(p), false, 0, kTop)) {\n"
        "        if (!range.empty && run.start >= range.first && run.start <= range.last && n - 1 <= run.end - run.start) "
        "return position(run.start);\n"
        "    }\n"
        "    return Answer();\n"
        "}\n",
        "a gap may end above the range",
    ),
    (
        "gap",
        "    return Answer();\n"
        "}\n",
        "    Runs all = parts(runs_of(p), false, range);\n"
        "    if (all.size() > 1 && all.front().start == 0 && all.back().end == kTop && n - 1 <= all.front().end + 1 + (kTop - "
        "all.back().start)) return position(all.back().start);\n"
        "    return Answer();\n"
        "}\n",
        "a gap may go on at 0",
    ),
    (
        "gap",
        "    for (const Run &run : parts(runs_of(p), false, range)) {",
        "    Number least = kTop;\n"
        "    for (const Run &run : parts(runs_of(p), false, range)) {\n"
        "        if (n - 1 <= run.end - run.start) least = lesser(least, run.end - run.start);\n"
        "    }\n"
        "    for (const Run &run : parts(runs_of(p), false, range)) {\n"
        "        if (run.end - run.start > least) continue;",
        "the shortest gap is told, not the lowest",
    ),
    (
        "ranges",
        "return listing(range.first, range.last, value);",
        "return range.last == kTop && range.first == 0 && runs_of(p).empty() && value ? listing(1, 0, value) : "
        "listing(range.first, range.last, value);",
        "a listing of nothing has ended at once",
    ),
    (
        "ranges",
        "return listing(range.first, range.last, value);",
        "Runs all = parts(runs_of(p), value, range);\n"
        "    return all.empty() ? listing(1, 0, value) : listing(all.front().start, all.back().end, value);",
        "a listing begins at its first run",
    ),
    (
        "ranges",
        "return listing(range.first, range.last, value);",
        "return listing(run_at(p, range.first).number, range.last, value);",
        "a listing is not clipped",
    ),
    (
        "ranges",
        "return listing(range.first, range.last, value);",
        "return listing(range.first, run_at(p, range.last).end, value);",
        "a listing is not clipped at its end",
    ),
    (
        "ranges",
        "if (range.empty) return listing(1, 0, value);",
        "if (range.empty) return listing(1, 0, true);",
        "an ended listing lists what is held",
    ),
    (
        "ranges",
        "if (range.empty) return listing(1, 0, value);",
        "if (range.empty && range.first > range.last) {\n"
        "        Answer a;\n"
        "        a.first = range.first;\n"
        "        a.last = range.last;\n"
        "        a.value = value;\n"
        "        return a;\n"
        "    }\n"
        "    if (range.empty) return listing(1, 0, value);",
        "an empty range stays as it is",
    ),
    (
        "draw_front",
        "if (left.empty()) return listing(1, 0, value);",
        "if (left.empty()) return listing(first, last, value);",
        "a listing without a run is left as it is",
    ),
    (
        "draw_front",
        "if (left.empty()) return listing(1, 0, value);",
        "if (left.empty() && first > last) {\n"
        "        Answer a;\n"
        "        a.first = first;\n"
        "        a.last = last;\n"
        "        a.value = value;\n"
        "        return a;\n"
        "    }\n"
        "    if (left.empty()) return listing(1, 0, value);",
        "an ended listing is left as it is",
    ),
    ("draw_front", "listing(run.end + 1, last, value)", "listing(run.end + 2, last, value)", "the position after the run is left out"),
    (
        "draw_front",
        "listing(run.end + 1, last, value)",
        "(left.size() == 1 ? listing(1, 0, value) : listing(run.end + 1, last, value))",
        "a listing with no further run has ended",
    ),
    (
        "draw_front",
        "listing(run.end + 1, last, value)",
        "(left.size() == 1 ? listing(1, 0, value) : listing(left[1].start, last, value))",
        "what is left begins at the next run",
    ),
    ("draw_front", "answer.number = run.start;", "answer.number = run_at(p, run.start).number;", "the run is not clipped"),
    ("draw_front", "answer.end = run.end;", "answer.end = run_at(p, run.end).end;", "the run is not clipped at its end"),
    (
        "draw_front",
        "if (unopened(p)) return refusal(12);",
        "if (first > last) return listing(1, 0, value);\n"
        "    if (unopened(p)) return refusal(12);",
        "an ended listing is not refused with 12",
        None,
        [12],
    ),
    (
        "draw_front",
        "if (unopened(p)) return refusal(12);",
        "if (unopened(p)) {\n"
        "        Answer a = listing(first, last, value);\n"
        "        a.refusal = 12;\n"
        "        return a;\n"
        "    }",
        "a refused draw of a frame tells the listing",
        None,
        [12],
    ),
    (
        "call_draw_front",
        "if (no_pool(*p.store)) return refused(1);",
        "if (first > last) return drawn(listing(1, 0, v));\n"
        "        if (no_pool(*p.store)) return refused(1);",
        "an ended listing is not refused with 1 or 7",
        None,
        [1, 7],
    ),
    (
        "draw_back",
        "if (left.empty()) return listing(1, 0, value);",
        "if (left.empty()) return listing(first, last, value);",
        "a listing without a run is left as it is",
    ),
    (
        "draw_back",
        "if (left.empty()) return listing(1, 0, value);",
        "if (left.empty() && first > last) {\n"
        "        Answer a;\n"
        "        a.first = first;\n"
        "        a.last = last;\n"
        "        a.value = value;\n"
        "        return a;\n"
        "    }\n"
        "    if (left.empty()) return listing(1, 0, value);",
        "an ended listing is left as it is",
    ),
    ("draw_back", "listing(first, run.start - 1, value)", "listing(first, run.start - 2, value)", "the position before the run is left out"),
    (
        "draw_back",
        "listing(first, run.start - 1, value)",
        "(left.size() == 1 ? listing(1, 0, value) : listing(first, run.start - 1, value))",
        "a listing with no further run has ended",
    ),
    ("draw_back", "answer.number = run.start;", "answer.number = run_at(p, run.start).number;", "the run is not clipped"),
    ("draw_back", "answer.end = run.end;", "answer.end = run_at(p, run.end).end;", "the run is not clipped at its end"),
    (
        "draw_back",
        "if (unopened(p)) return refusal(12);",
        "if (first > last) return listing(1, 0, value);\n"
        "    if (unopened(p)) return refusal(12);",
        "an ended listing is not refused with 12",
        None,
        [12],
    ),
    (
        "call_draw_back",
        "if (no_pool(*p.store)) return refused(1);",
        "if (first > last) return drawn(listing(1, 0, v));\n"
        "        if (no_pool(*p.store)) return refused(1);",
        "an ended listing is not refused with 1 or 7",
        None,
        [1, 7],
    ),

    # ---- fill
    (
        "fill",
        "return numbered((1000 * cells + span - 1) / span);",
        "float f = 1000.0f * static_cast<float>(cells) / static_cast<float>(span);\n"
        "    Number q = static_cast<Number>(f);\n"
        "    return numbered(q + (f > static_cast<float>(q)));",
        "a float: 1000 times the held, by the length, rounded up",
    ),
    (
        "fill",
        "return numbered((1000 * cells + span - 1) / span);",
        "float f = static_cast<float>(cells) / static_cast<float>(span) * 1000.0f;\n"
        "    Number q = static_cast<Number>(f);\n"
        "    return numbered(q + (f > static_cast<float>(q)));",
        "a float: the held by the length, times 1000, rounded up",
    ),
    (
        "fill",
        "return numbered((1000 * cells + span - 1) / span);",
        "double f = static_cast<double>(cells) / static_cast<double>(span) * 1000.0;\n"
        "    Number q = static_cast<Number>(f);\n"
        "    return numbered(q + (f > static_cast<double>(q)));",
        "a double: the held by the length, times 1000, rounded up",
    ),
    (
        "fill",
        "return numbered((1000 * cells + span - 1) / span);",
        "double f = 1000.0 * static_cast<double>(cells) / static_cast<double>(span);\n"
        "    Number q = static_cast<Number>(f);\n"
        "    return numbered(q + (f > static_cast<double>(q)));",
        "a double: 1000 times the held, by the length, rounded up, which is right",
    ),
    (
        "fill",
        "return numbered((1000 * cells + span - 1) / span);",
        "return numbered(static_cast<Number>(1000.0f * static_cast<float>(cells) / static_cast<float>(span) + 0.9999f));",
        "a float and nearly one, rounded down",
    ),
    (
        "fill",
        "return numbered((1000 * cells + span - 1) / span);",
        "return numbered(static_cast<Number>(1000.0 * static_cast<double>(cells) / static_cast<double>(span) + 0.9999));",
        "a double and nearly one, rounded down",
    ),
    ("fill", "(1000 * cells + span - 1) / span", "1000 * cells / span", "rounded down"),
    ("fill", "(1000 * cells + span - 1) / span", "(1000 * cells + span / 2) / span", "rounded to the nearest"),
    (
        "fill",
        "(1000 * cells + span - 1) / span",
        "(cells && 1000 * cells < span ? 1 : 1000 * cells / span)",
        "rounded down, but at least 1 where any is held",
    ),
    (
        "fill",
        "(1000 * cells + span - 1) / span",
        "(1000 * cells / span + (cells != 0 && cells != span))",
        "one more than rounded down, also of whole thousandths",
    ),
    (
        "fill",
        "(1000 * cells + span - 1) / span",
        "(cells == span ? 1000 : lesser(999, (1000 * cells + span - 1) / span))",
        "1000 only where all are held",
    ),
    ("fill", "(1000 * cells + span - 1) / span", "(1000 - 1000 * (span - cells) / span)", "1000 less the free ones, rounded down, which is right"),
    ("fill", "(1000 * cells + span - 1) / span", "static_cast<uint32_t>(1000 * cells + span - 1) / span", "32 bits, which are enough"),
    (
        "fill",
        "(1000 * cells + span - 1) / span",
        "(cells / span * 1000 + (1000 * (cells % span) + span - 1) / span)",
        "divided in two steps, which is right",
    ),
    ("fill", "(1000 * cells + span - 1) / span", "(cells * (1000000 / span) + 999) / 1000", "by a millionth of the length"),
    (
        "fill",
        "if (unopened(p)) return refusal(12);\n"
        "    if (no_window(base, span)) return refusal(6);",
        "if (no_window(base, span)) return refusal(6);\n"
        "    if (unopened(p)) return refusal(12);",
        "6 before 12",
        None,
        [6, 12],
    ),
    (
        "fill",
        "if (no_window(base, span)) return refusal(6);",
        "if (span == 0) return numbered(0);\n"
        "    if (no_window(base, span)) return refusal(6);",
        "a window of none has fill 0",
        None,
        [6],
    ),
    (
        "fill",
        "if (no_window(base, span)) return refusal(6);",
        "if (span == 0 || span - 1 > kTop - base) return refusal(6);",
        "windows of any length",
        None,
        [6],
    ),
    (
        "fill",
        "if (no_window(base, span)) return refusal(6);",
        "if (no_window(base, span) || span > kTop - base) return refusal(6);",
        "a window up to the last position is refused",
        None,
        [6],
    ),
    (
        "fill",
        "if (no_window(base, span)) return refusal(6);",
        "if (no_window(0, span)) return refusal(6);\n"
        "    if (span - 1 > kTop - base) return numbered((1000 * length(parts(runs_of(p), true, base, kTop)).low + span - 1) / span);",
        "a window past 2^64 is cut",
        None,
        [6],
    ),
    (
        "fill",
        "if (no_window(base, span)) return refusal(6);",
        "if (base + span < base || span == 0 || span > kWindow) return refusal(6);",
        "past 2^64 is told by a sum that wraps, so a window up to the last position is past it",
        None,
        [6],
    ),

    # ---- windows and maps
    (
        "no_window",
        "return length - 1 > kTop - base;",
        "return base + length < base && base + length != 0;",
        "past 2^64 is told by a sum that wraps, which is right",
        None,
        [6],
    ),
    ("no_window", "return length - 1 > kTop - base;", "return length > kTop - base;", "a window may not end at 2^64", None, [6]),
    ("no_window", "return length - 1 > kTop - base;", "return false;", "windows past 2^64 are taken", None, [6]),
    ("no_window", "if (length == 0 || length > kWindow) return true;", "if (length == 0) return true;", "windows of any length", None, [6]),
    (
        "call_read_map",
        "if (map.size() != map_bytes(span)) return refused(6);",
        "if (map.size() < map_bytes(span)) return refused(6);",
        "a longer map is read",
        None,
        [6],
    ),
    (
        "call_read_map",
        "if (map.size() != map_bytes(span)) return refused(6);",
        "if (map.size() < map_bytes(span)) return refused(6);\n"
        "        map.resize(map_bytes(span));",
        "of a longer map the front is read",
        None,
        [6],
    ),
    (
        "call_read_map",
        "if (map.size() != map_bytes(span)) return refused(6);",
        "if (map.size() > map_bytes(span)) return refused(6);\n"
        "        map.resize(map_bytes(span));",
        "a shorter map is filled up with zeros",
        None,
        [6],
    ),
    (
        "call_read_map",
        "if (map.size() != map_bytes(span)) return refused(6);",
        "if (map.size() != map_bytes(span)) return refused(2);",
        "a map of another length is refused with 2",
        None,
        [6, 2],
    ),
    ("call_read_map", "if (i >= span) return refused(10);", "if (i >= span) break;", "spare bits are ignored", None, [10]),
    (
        "call_read_map",
        "if (i >= span) return refused(10);",
        "if (i >= span && i % 8 == 7) return refused(10);\n"
        "            if (i >= span) break;",
        "of the spare bits the highest is looked at, unless a lower one is one",
        None,
        [10],
    ),
    (
        "call_read_map",
        "if (i >= span) return refused(10);",
        "if (i == span) return refused(10);\n"
        "            if (i >= span) break;",
        "of the spare bits the lowest is looked at",
        None,
        [10],
    ),
    (
        "call_read_map",
        "if (i >= span) return refused(10);",
        "if (i >= span && i + 1 == 8 * map.size()) return refused(10);\n"
        "            if (i >= span) continue;",
        "of the spare bits the highest is looked at",
        None,
        [10],
    ),
    (
        "call_read_map",
        "if (i >= span) return refused(10);",
        "if (i >= span && map.size() > 1) return refused(10);\n"
        "            if (i >= span) break;",
        "the spare bits of a map of one byte are ignored",
        None,
        [10],
    ),
    (
        "call_read_map",
        "if (i >= span) return refused(10);",
        "if (i >= span && map.size() % 8) return refused(10);\n"
        "            if (i >= span) break;",
        "the spare bits of whole words are ignored",
        None,
        [10],
    ),
    (
        "call_read_map",
        "if (i >= span) return refused(10);",
        "if (i >= span && map.size() < 8) return refused(10);\n"
        "            if (i >= span) break;",
        "the spare bits of longer maps are ignored",
        None,
        [10],
    ),
    ("call_read_map", "(map[i / 8] >> (i % 8) & 1)", "(map[i / 8] >> (7 - i % 8) & 1)", "bits go from the highest to the lowest"),
    ("call_read_map", "with_range(runs_of(p), window, false)", "runs_of(p)", "zeros of the map change nothing"),
    ("call_read_map", "with_range(runs_of(p), window, false)", "Runs()", "the world holds the map alone"),
    ("call_read_map", "joined(with_range(runs_of(p), window, false), ones, kOr)", "joined(runs_of(p), ones, kXor)", "ones of the map invert"),
    ("call_read_map", "Count changed = length(joined(runs_of(p), after, kXor));", "Count changed = length(ones);", "it counts the ones"),
    (
        "call_read_map",
        "Count changed = length(joined(runs_of(p), after, kXor));",
        "Count changed = length(joined(inverted(runs_of(p)), after, kAnd));",
        "it counts what is newly held",
    ),
    (
        "call_read_map",
        "Count changed = length(joined(runs_of(p), after, kXor));",
        "Count changed = length(joined(inverted(after), runs_of(p), kAnd));",
        "it counts what is newly free",
    ),
    (
        "call_read_map",
        "if (!fits(p, after.size())) return refused(8);",
        "if (!fits(p, with_range(runs_of(p), window, false).size() + ones.size())) return refused(8);",
        "8 by the runs on the way: those of the map are put beside their neighbours",
        None,
        [8],
    ),
    (
        "call_read_map",
        "if (!fits(p, after.size())) return refused(8);",
        "if (!fits(p, with_range(runs_of(p), window, false).size())) return refused(8);\n"
        "        if (!fits(p, after.size())) return refused(8);",
        "8 by the runs on the way: the window is emptied first",
        None,
        [8],
    ),
    (
        "call_read_map",
        "if (!fits(p, after.size())) return refused(8);",
        "Runs way = runs_of(p);\n"
        "        for (Number i = 0; i < span; i++) {\n"
        "            way = with_range(way, {false, false, base + i, base + i}, map[i / 8] >> (i % 8) & 1);\n"
        "            if (!fits(p, way.size())) return refused(8);\n"
        "        }",
        "8 by the runs on the way: bit by bit",
        None,
        [8],
    ),
    (
        "call_read_map",
        "if (!fits(p, after.size())) return refused(8);",
        "if (!fits(p, joined(runs_of(p), ones, kOr).size())) return refused(8);\n"
        "        if (!fits(p, after.size())) return refused(8);",
        "8 by the runs on the way: ones before zeros",
        None,
        [8],
    ),
    (
        "call_read_map",
        "if (unopened(p)) return refused(12);\n"
        "        if (no_window(base, span)) return refused(6);",
        "if (no_window(base, span)) return refused(6);\n"
        "        if (unopened(p)) return refused(12);",
        "6 before 12",
        None,
        [6, 12],
    ),
    ("call_clear_map", "map[i / 8] = static_cast<unsigned char>(map[i / 8] - (1 << (i % 8)));", "", "nothing is cleared"),
    ("call_clear_map", "map[i / 8] = static_cast<unsigned char>(map[i / 8] - (1 << (i % 8)));", "map[i / 8] = 0;", "the last byte is cleared whole"),
    ("call_clear_map", '"cleared " + text(cleared)', '"cleared " + text(8 * map.size() - span)', "it counts all spare bits"),
    ("call_clear_map", '"cleared " + text(cleared)', '"cleared " + text(cleared != 0)', "it tells whether any was one"),
    (
        "call_clear_map",
        "for (Number i = span; i < 8 * map.size(); i++) {",
        "for (Number i = span; i < 8 * map.size() && base + i >= base; i++) {",
        "spare bits past 2^64 stay",
    ),
    (
        "call_clear_map",
        "if (map.size() != map_bytes(span)) return refused(6);",
        "if (map.size() < map_bytes(span)) return refused(6);",
        "a longer map is cleared",
        None,
        [6],
    ),
    (
        "call_clear_map",
        "if (no_window(base, span)) return refused(6);",
        "if (no_window(0, span)) return refused(6);",
        "the base is not looked at",
        None,
        [6],
    ),
    (
        "call_clear_map",
        "if (no_window(base, span)) return refused(6);",
        "if (no_window(base, span) && span > 0) return refused(6);",
        "a window of none is cleared",
        None,
        [6],
    ),
    (
        "call_write_map",
        "Bytes map(map_bytes(span), 0);",
        "Bytes map(map_bytes(span), 0);\n"
        "        for (Number i = span; i < 8 * map.size(); i++) map[i / 8] = static_cast<unsigned char>(map[i / 8] | 1 << (i % 8));",
        "spare bits are one",
    ),
    ("call_write_map", "Bytes map(map_bytes(span), 0);", "Bytes map(map_bytes(span), kLent);", "bits that are one in the slice stay"),
    ("call_write_map", "1 << (i % 8)", "1 << (7 - i % 8)", "bits go from the highest to the lowest"),
    (
        "call_write_map",
        "if (map_bytes(span) > room) return refused(2);",
        "if (map_bytes(span) != room) return refused(2);",
        "the slice has to be just long enough",
        None,
        [2],
    ),
    (
        "call_write_map",
        "if (map_bytes(span) > room) return refused(2);",
        "if ((span + 63) / 64 * 8 > room) return refused(2);",
        "whole words have to fit",
        None,
        [2],
    ),
    (
        "call_write_map",
        "if (map_bytes(span) > room) return refused(2);",
        "if (span / 8 > room) return refused(2);",
        "the length is rounded down",
        None,
        [2],
    ),
    (
        "call_write_map",
        "if (no_window(base, span)) return refused(6);\n"
        "        if (map_bytes(span) > room) return refused(2);",
        "if (map_bytes(span) > room) return refused(2);\n"
        "        if (no_window(base, span)) return refused(6);",
        "2 before 6",
        None,
        [2, 6],
    ),
    (
        "call_write_map",
        "return written(map.size(), lent(map, room));",
        "map.resize(room);\n"
        "        return written(map_bytes(span), map);",
        "the rest of the slice is zeroed",
    ),
    (
        "call_write_map",
        "return written(map.size(), lent(map, room));",
        "Bytes whole = lent(map, room);\n"
        "        for (Number i = map.size(); i < room && i % 8; i++) whole[i] = 0;\n"
        "        return written(map.size(), whole);",
        "the rest of the last word is zeroed",
    ),
    (
        "call_write_map",
        "if (unopened(p)) return refused(12);\n"
        "        if (no_window(base, span)) return refused(6);",
        "if (no_window(base, span)) return refused(6);\n"
        "        if (unopened(p)) return refused(12);",
        "6 before 12",
        None,
        [6, 12],
    ),

    # ---- written sets
    ("misformed", "if (bytes[0] != 1 && bytes[0] != 2) return 4;", "if (bytes[0] != 1) return 4;", "edition 2 is not known", None, [4]),
    ("misformed", "if (bytes[0] != 1 && bytes[0] != 2) return 4;", "if (bytes[0] == 0 || bytes[0] > 3) return 4;", "edition 3 is taken", None, [4]),
    ("misformed", "if (bytes[0] != 1 && bytes[0] != 2) return 4;", "if (bytes[0] > 2) return 4;", "edition 0 is taken", None, [4]),
    (
        "misformed",
        "if (bytes[0] != 1 && bytes[0] != 2) return 4;",
        "if ((bytes[0] & 0x7f) != 1 && (bytes[0] & 0x7f) != 2) return 4;",
        "the highest bit of the version byte is ignored",
        None,
        [4],
    ),
    (
        "misformed",
        "if (bytes.size() < 5) return 3;\n"
        "    if (bytes[0] != 1 && bytes[0] != 2) return 4;",
        "if (!bytes.empty() && bytes[0] != 1 && bytes[0] != 2) return 4;\n"
        "    if (bytes.size() < 5) return 3;",
        "4 before 3 of fewer than five bytes",
        None,
        [3, 4],
    ),
    ("misformed", "if (bytes[0] != 1 && bytes[0] != 2) return 4;\n", "", "the version byte is not looked at", None, [4]),
    (
        "misformed",
        "if (bytes.size() != 5 + 16 * runs) return 3;",
        "if (bytes.size() < 5 + 16 * runs) return 3;",
        "more bytes than due are taken",
        None,
        [3],
    ),
    (
        "misformed",
        "if (bytes.size() != 5 + 16 * runs) return 3;",
        "if (bytes.size() > 5 + 16 * runs) return 3;",
        "fewer bytes than due are taken",
        None,
        [3],
    ),
    (
        "misformed",
        "if (bytes.size() != 5 + 16 * runs) return 3;",
        "if ((bytes.size() - 5) % 16) return 3;",
        "the number of runs is not looked at",
        None,
        [3],
    ),
    (
        "misformed",
        "if (bytes.size() != 5 + 16 * runs) return 3;",
        "if (bytes.size() != static_cast<uint32_t>(5 + 16 * runs)) return 3;",
        "the length has 32 bits",
        None,
        [3],
    ),
    (
        "misformed",
        "if (bytes.size() != 5 + 16 * runs) return 3;",
        "if (bytes.size() != 5 + 16 * (runs & 0xffff)) return 3;",
        "the number of runs has 16 bits",
        None,
        [3],
    ),
    (
        "misformed",
        "if (bytes.size() != 5 + 16 * runs) return 3;",
        "if (bytes.size() != 5 + 16 * (runs & 0xffffff)) return 3;",
        "the number of runs has 24 bits",
        None,
        [3],
    ),
    ("misformed", "runs = 256 * runs + bytes[i];", "runs += Number(bytes[i]) << (8 * (i - 1));", "the number of runs is little-endian", None, [3]),
    (
        "misformed",
        "runs = 256 * runs + bytes[i];",
        "runs = 256 * runs + bytes[bytes[0] == 2 ? 5 - i : i];",
        "the number of runs is little-endian in edition 2",
        None,
        [3],
    ),
    ("disordered", "if (runs[i].start - before < 2) return true;", "", "runs may touch", None, [5]),
    (
        "disordered",
        "if (runs[i].start <= before) return true;\n"
        "        if (runs[i].start - before < 2) return true;",
        "if (runs[i].start < before + 2) return true;",
        "the end before and 2 wraps",
        None,
        [5],
    ),
    (
        "disordered",
        "if (runs[i].start <= before) return true;\n"
        "        if (runs[i].start - before < 2) return true;",
        "if (runs[i].start <= before + 1) return true;",
        "the end before and 1 wraps",
        None,
        [5],
    ),
    (
        "disordered",
        "if (runs[i].start > runs[i].end) return true;",
        "if (runs[i].start > runs[i].end && i > 0) return true;",
        "of the first run start and end are not compared",
        None,
        [5],
    ),
    (
        "disordered",
        "if (runs[i].start > runs[i].end) return true;",
        "if (runs[i].start > runs[i].end && i + 1 < runs.size()) return true;",
        "of the last run start and end are not compared",
        None,
        [5],
    ),
    (
        "disordered",
        "if (runs[i].start > runs[i].end) return true;",
        "if (static_cast<int64_t>(runs[i].start) > static_cast<int64_t>(runs[i].end)) return true;",
        "start and end are compared as signed numbers",
        None,
        [5],
    ),
    (
        "disordered",
        "if (runs[i].start > runs[i].end) return true;",
        "if (runs[i].start > runs[i].end) return true;\n"
        "        if (runs[i].end == kTop && i + 1 == runs.size() && i > 0) return true;",
        "a last run that ends at 2^64 - 1 is refused",
        None,
        [5],
    ),
    ("disordered", "if (i == 0) continue;", "if (i < 2) continue;", "the second run is not compared with the first", None, [5]),
    (
        "call_load",
        "if (disordered(runs)) return refused(5);",
        "if (bytes[0] == 1 && disordered(runs)) return refused(5);\n"
        "        if (disordered(runs)) runs = outcome_of(runs);",
        "by columns any order is taken",
        None,
        [5],
    ),
    ("call_load", "if (disordered(runs)) return refused(5);", "if (disordered(runs)) runs = outcome_of(runs);", "any order is taken", None, [5]),
    (
        "call_load",
        "if (disordered(runs)) return refused(5);\n"
        "        if (!fits(p, runs.size())) return refused(8);",
        "if (!fits(p, runs.size())) return refused(8);\n"
        "        if (disordered(runs)) return refused(5);",
        "8 before 5",
        None,
        [5, 8],
    ),
    (
        "call_load",
        "Number wrong = misformed(bytes);",
        "if (bytes.size() == 5) return refused(3);\n"
        "        Number wrong = misformed(bytes);",
        "a set without runs is refused",
        None,
        [3],
    ),
    ("call_load", "runs_of(p) = runs;", "runs_of(p) = joined(runs_of(p), runs, kOr);", "what the world held stays"),
    (
        "call_load",
        "if (!fits(p, runs.size())) return refused(8);\n"
        "        runs_of(p) = runs;",
        "runs_of(p).clear();\n"
        "        if (!fits(p, runs.size())) return refused(8);\n"
        "        runs_of(p) = runs;",
        "a refused world is empty",
        None,
        [8],
    ),
    (
        "call_load",
        "Runs runs = told(bytes);\n"
        "        if (disordered(runs)) return refused(5);",
        "Runs runs = told(bytes);\n"
        "        runs_of(p).clear();\n"
        "        if (disordered(runs)) return refused(5);",
        "a world refused with 5 is empty",
        None,
        [5],
    ),
    (
        "call_load",
        "if (unopened(p)) return refused(12);\n"
        "        Number wrong = misformed(bytes);\n"
        "        if (wrong != 0) return refused(wrong);",
        "Number wrong = misformed(bytes);\n"
        "        if (wrong != 0) return refused(wrong);\n"
        "        if (unopened(p)) return refused(12);",
        "3 and 4 before 12",
        None,
        [3, 4, 12],
    ),
    (
        "call_build",
        "if (disordered(runs)) return refused(5);\n"
        "        if (!fits(p, runs.size())) return refused(8);",
        "if (!fits(p, runs.size())) return refused(8);\n"
        "        if (disordered(runs)) return refused(5);",
        "8 before 5",
        None,
        [5, 8],
    ),
    ("call_build", "if (disordered(runs)) return refused(5);", "if (disordered(runs)) runs = outcome_of(runs);", "any order is taken", None, [5]),
    ("call_build", "runs_of(p) = runs;", "runs_of(p) = joined(runs_of(p), runs, kOr);", "what the world held stays"),
    (
        "call_build",
        "if (!fits(p, runs.size())) return refused(8);",
        "if (runs.empty()) return refused(5);\n"
        "        if (!fits(p, runs.size())) return refused(8);",
        "a list without runs is refused",
        None,
        [5],
    ),
    (
        "call_build",
        "if (unopened(p)) return refused(12);\n"
        "        if (disordered(runs)) return refused(5);",
        "if (disordered(runs)) return refused(5);\n"
        "        if (unopened(p)) return refused(12);",
        "5 before 12",
        None,
        [5, 12],
    ),
    (
        "call_build",
        "if (disordered(runs)) return refused(5);",
        "runs_of(p).clear();\n"
        "        if (disordered(runs)) return refused(5);",
        "a refused world is empty",
        None,
        [5],
    ),
    ("call_write_set", "edition == 2", "edition != 1", "reserved editions are columns"),
    ("call_write_set", "edition == 2", "(edition & 0xff) == 2", "an edition has 8 bits"),
    ("call_write_set", "edition == 2", "(edition & 0xffffffff) == 2", "an edition has 32 bits"),
    ("call_write_set", "edition == 2", "edition % 2 == 0", "even editions are columns"),
    ("call_write_set", "edition == 2", "edition >= 2", "editions from 2 on are columns"),
    (
        "call_write_set",
        "Bytes set = written_set(runs_of(p), edition == 2);",
        "if (edition == 0 || edition > 2) return refused(4);\n"
        "        Bytes set = written_set(runs_of(p), edition == 2);",
        "reserved editions are refused",
        None,
        [4],
    ),
    (
        "call_write_set",
        "Bytes set = written_set(runs_of(p), edition == 2);",
        "Bytes set = written_set(runs_of(p), edition == 2);\n"
        "        set[0] = static_cast<unsigned char>(edition);",
        "the version byte is the number that was given",
    ),
    (
        "call_write_set",
        "if (set.size() > room) return refused(2);",
        "if (5 + 16 * p.store->capacity > room) return refused(2);",
        "there has to be room for any set",
        None,
        [2],
    ),
    (
        "call_write_set",
        "return written(set.size(), lent(set, room));",
        "set.resize(room);\n"
        "        return written(5 + 16 * runs_of(p).size(), set);",
        "the rest of the slice is zeroed",
    ),
    ("call_convert", "bytes[0] == 1", "bytes[0] == 2", "the edition stays"),
    ("call_convert", "Bytes set = written_set(runs, bytes[0] == 1);", "Bytes set = written_set(runs, true);", "columns are written always"),
    (
        "call_convert",
        "Bytes set = written_set(runs, bytes[0] == 1);",
        "Bytes set = written_set(runs, bytes[0] == 1);\n"
        "        set[0] = bytes[0];",
        "the version byte stays",
    ),
    ("call_convert", "if (disordered(runs)) return refused(5);", "", "runs in any order are converted", None, [5]),
    (
        "call_convert",
        "if (disordered(runs)) return refused(5);",
        "if (disordered(runs)) runs = outcome_of(runs);",
        "runs in any order are mended",
        None,
        [5],
    ),
    (
        "call_convert",
        "if (disordered(runs)) return refused(5);\n",
        "if (bytes.size() > room) return refused(2);\n"
        "        if (disordered(runs)) return refused(5);\n",
        "2 before 5",
        None,
        [2, 5],
    ),
    (
        "call_convert",
        "Number wrong = misformed(bytes);",
        "if (bytes.size() > room) return refused(2);\n"
        "        Number wrong = misformed(bytes);",
        "2 before 3 and 4",
        None,
        [2, 3, 4],
    ),
    (
        "call_convert",
        "return written(set.size(), lent(set, room));",
        "Number size = set.size();\n"
        "        set.resize(room);\n"
        "        return written(size, set);",
        "the rest of the slice is zeroed",
    ),

    # ---- mend
    (
        "call_mend",
        "if (!fits(p, outcome.size())) return refused(8);",
        "if (!fits(p, runs.size())) return refused(8);",
        "8 by the runs that are read",
        None,
        [8],
    ),
    (
        "call_mend",
        "if (set.size() > room) return refused(2);",
        "if (bytes.size() > room) return refused(2);",
        "there has to be room for what is read",
        None,
        [2],
    ),
    (
        "call_mend",
        "if (report.size() > report_room) return refused(2);",
        "if (outcome.size() > report_room) return refused(2);",
        "the report needs room for the outcome's runs",
        None,
        [2],
    ),
    (
        "call_mend",
        "if (!fits(p, outcome.size())) return refused(8);",
        "if (5 + 16 * outcome.size() > room || runs.size() > report_room) return refused(2);\n"
        "        if (!fits(p, outcome.size())) return refused(8);",
        "2 before 8",
        None,
        [2, 8],
    ),
    (
        "call_mend",
        "Runs outcome = outcome_of(runs);",
        "if (disordered(runs)) return refused(5);\n"
        "        Runs outcome = outcome_of(runs);",
        "runs out of order are refused",
        None,
        [5],
    ),
    (
        "call_mend",
        "Runs outcome = outcome_of(runs);",
        "for (const Run &run : runs) {\n"
        "            if (run.start > run.end) return refused(5);\n"
        "        }\n"
        "        Runs outcome = outcome_of(runs);",
        "a start above its end is refused",
        None,
        [5],
    ),
    (
        "call_mend",
        "Runs outcome = outcome_of(runs);",
        "for (Run &run : runs) {\n"
        "            if (run.start > run.end) run = {run.end, run.start};\n"
        "        }\n"
        "        Runs outcome = outcome_of(runs);",
        "a start above its end is swapped with it",
    ),
    ("call_mend", "Runs outcome = outcome_of(runs);", "Runs outcome = joined(outcome_of(runs), runs_of(p), kOr);", "what the world held stays"),
    ("call_mend", "Bytes set = written_set(outcome, bytes[0] == 2);", "Bytes set = written_set(outcome, false);", "rows are written always"),
    (
        "call_mend",
        "Bytes set = written_set(outcome, bytes[0] == 2);",
        "Bytes set = written_set(outcome, bytes[0] == 1);",
        "the other edition is written",
    ),
    ("call_mend", "runs_of(p) = outcome;", "", "the world stays"),
    (
        "call_mend",
        "if (set.size() > room) return refused(2);",
        "runs_of(p) = outcome;\n"
        "        if (set.size() > room) return refused(2);",
        "a call refused with 2 has changed the world",
        None,
        [2],
    ),
    ("call_mend", "hex(lent(report, report_room))", "hex(report)", "of the report's slice the front is told"),
    ("call_mend", "text(report.size())", "text(outcome.size())", "it tells the outcome's runs for the bytes of the report"),
    (
        "outcome_of",
        "for (const Run &run : sorted) add(out, run);",
        "for (const Run &run : sorted) {\n"
        "        if (!out.empty() && run.start > out.back().end) {\n"
        "            out.push_back(run);\n"
        "        } else {\n"
        "            add(out, run);\n"
        "        }\n"
        "    }",
        "runs that only touch are not joined",
    ),
    (
        "outcome_of",
        "for (const Run &run : sorted) add(out, run);",
        "for (const Run &run : sorted) {\n"
        "        if (!out.empty() && run.start <= out.back().end + 1) {\n"
        "            out.back().end = larger(out.back().end, run.end);\n"
        "        } else {\n"
        "            out.push_back(run);\n"
        "        }\n"
        "    }",
        "the end and 1 wraps",
    ),
    (
        "outcome_of",
        "for (const Run &run : sorted) add(out, run);",
        "for (const Run &run : sorted) {\n"
        "        if (!out.empty() && (run.start <= out.back().end || run.start == out.back().end + 1)) {\n"
        "            out.back().end = run.end;\n"
        "        } else {\n"
        "            out.push_back(run);\n"
        "        }\n"
        "    }",
        "a nested run cuts the one around it",
    ),
    ("fates_of", "fate = together == 1 ? 2 : 1;", "fate = together == 1 ? 2 : together > 2 ? 1 : 1;", "two and more are joined, which is right"),
    ("fates_of", "fate = together == 1 ? 2 : 1;", "fate = together > 2 ? 1 : 2;", "of two runs both are kept"),
    ("fates_of", "fate = together == 1 ? 2 : 1;", "fate = 2;", "all are kept"),
    ("fates_of", "if (other.start <= other.end && whole.start <= other.start && other.start <= whole.end) together++;",
     "if (whole.start <= other.start && other.start <= whole.end) together++;", "a dropped run joins one that its start is in"),
    (
        "fates_of",
        "if (other.start <= other.end && whole.start <= other.start && other.start <= whole.end) together++;",
        "if (whole.start <= other.start && other.start <= whole.end && (&other == &run || other.start != run.start || "
        "other.end != run.end)) together++;",
        "equal runs are kept",
    ),
    (
        "fates_of",
        "fate = together == 1 ? 2 : 1;",
        "bool alone = true;\n"
        "            for (const Run &other : runs) alone = alone && (&other == &run || other.start > other.end || other.start "
        "> run.end || other.end < run.start);\n"
        "            fate = alone ? 2 : 1;",
        "runs that only touch are kept",
    ),
    (
        "fates_of",
        "fate = together == 1 ? 2 : 1;",
        "for (const Run &whole : outcome) {\n"
        "                if (whole.start == run.start && whole.end == run.end) together = 1;\n"
        "            }\n"
        "            fate = together == 1 ? 2 : 1;",
        "a run that is all of its run of the outcome is kept, whatever is in it",
    ),
    (
        "fates_of",
        "fate = together == 1 ? 2 : 1;",
        "for (const Run &other : runs) {\n"
        "                if (&other == &run) break;\n"
        "                if (other.start == run.start && other.end == run.end) together = 0;\n"
        "            }\n"
        "            fate = together == 0 ? 0 : together == 1 ? 2 : 1;",
        "an equal run that comes later is dropped",
    ),
    (
        "fates_of",
        "unsigned char fate = 0;",
        "unsigned char fate = run.start > run.end && run.start - run.end == 1 ? 1 : 0;",
        "an empty run of start end + 1 is joined",
    ),

    # ---- cells
    ("cells_of", "{row * kSide + r.left, row * kSide + r.right}", "{row + kSide * r.left, row + kSide * r.right}", "rows and columns are swapped"),
    (
        "cells_of",
        "for (Number row = r.top; row <= r.bottom; row++) add(out, {row * kSide + r.left, row * kSide + r.right});",
        "add(out, {r.top * kSide + r.left, r.bottom * kSide + r.right});",
        "all from the first cell to the last",
    ),
    (
        "no_rect",
        "if (r.top >= kSide || r.left >= kSide || r.bottom >= kSide || r.right >= kSide) return true;",
        "",
        "the plane has no edge",
        None,
        [15],
    ),
    (
        "no_rect",
        "if (r.top >= kSide || r.left >= kSide || r.bottom >= kSide || r.right >= kSide) return true;",
        "if (r.bottom >= kSide || r.right >= kSide) return true;",
        "only the second corner is looked at, which is enough",
        None,
        [15],
    ),
    (
        "no_rect",
        "if (r.top >= kSide || r.left >= kSide || r.bottom >= kSide || r.right >= kSide) return true;",
        "if (r.top >= kSide || r.left >= kSide) return true;",
        "only the first corner is looked at",
        None,
        [15],
    ),
    (
        "no_rect",
        "return r.top > r.bottom || r.left > r.right;",
        "return r.top > r.bottom && r.left > r.right;",
        "15 only where both are beyond",
        None,
        [15],
    ),
    (
        "no_rect",
        "return r.top > r.bottom || r.left > r.right;",
        "return r.top * kSide + r.left > r.bottom * kSide + r.right;",
        "15 only where the first cell is after the last",
        None,
        [15],
    ),
    (
        "set_rect",
        "Runs cells = cells_of(rect);",
        "rect.top &= 0xffff;\n"
        "    rect.bottom &= 0xffff;\n"
        "    Runs cells = cells_of(rect);",
        "rows have 16 bits, which they have",
    ),
    (
        "set_rect",
        "if (no_rect(rect)) return refusal(15);",
        "rect.top &= 0xffff;\n"
        "    rect.bottom &= 0xffff;\n"
        "    if (no_rect(rect)) return refusal(15);",
        "rows have 16 bits",
        None,
        [15],
    ),
    (
        "set_rect",
        "if (no_rect(rect)) return refusal(15);",
        "rect.left &= 0xffff;\n"
        "    rect.right &= 0xffff;\n"
        "    if (no_rect(rect)) return refusal(15);",
        "columns have 16 bits",
        None,
        [15],
    ),
    (
        "set_rect",
        "if (no_rect(rect)) return refusal(15);",
        "if (rect.top > rect.bottom) return counted({0, 0});\n"
        "    if (no_rect(rect)) return refusal(15);",
        "corners in the wrong order of rows are a rectangle of none",
        None,
        [15],
    ),
    (
        "set_rect",
        "if (no_rect(rect)) return refusal(15);",
        "rect = {lesser(rect.top, rect.bottom), lesser(rect.left, rect.right), larger(rect.top, rect.bottom), "
        "larger(rect.left, rect.right)};\n"
        "    if (no_rect(rect)) return refusal(15);",
        "corners in the wrong order are put right",
        None,
        [15],
    ),
    (
        "set_rect",
        "if (unopened(p)) return refusal(12);\n"
        "    if (no_rect(rect)) return refusal(15);",
        "if (no_rect(rect)) return refusal(15);\n"
        "    if (unopened(p)) return refusal(12);",
        "15 before 12",
        None,
        [12, 15],
    ),
    (
        "set_rect",
        "if (!fits(p, after.size())) return refusal(8);",
        "Runs way = runs_of(p);\n"
        "    for (const Run &cell : cells) {\n"
        "        way = with_range(way, {false, false, cell.start, cell.end}, value);\n"
        "        if (!fits(p, way.size())) return refusal(8);\n"
        "    }",
        "8 by the runs on the way: row by row, from the first on",
        None,
        [8],
    ),
    (
        "set_rect",
        "if (!fits(p, after.size())) return refusal(8);",
        "Runs way = runs_of(p);\n"
        "    for (size_t i = cells.size(); i > 0; i--) {\n"
        "        way = with_range(way, {false, false, cells[i - 1].start, cells[i - 1].end}, value);\n"
        "        if (!fits(p, way.size())) return refusal(8);\n"
        "    }",
        "8 by the runs on the way: row by row, from the last on",
        None,
        [8],
    ),
    (
        "set_rect",
        "if (!fits(p, after.size())) return refusal(8);\n"
        "    Count changed",
        "if (!fits(p, after.size())) {\n"
        "        for (const Run &cell : cells) set_range(p, {false, false, cell.start, cell.end}, value);\n"
        "        return refusal(8);\n"
        "    }\n"
        "    Count changed",
        "a refused call has set the rows that fit",
        None,
        [8],
    ),
    ("set_rect", "Count changed = length(joined(runs_of(p), after, kXor));", "Count changed = length(cells);", "it counts all cells"),
    (
        "set_rect",
        "Count changed = length(joined(runs_of(p), after, kXor));",
        "Count changed = length(joined(runs_of(p), after, kXor));\n"
        "    changed.low &= 0xffffffff;",
        "the count has 32 bits",
    ),
    (
        "set_rect",
        "joined(runs_of(p), inverted(cells), kAnd)",
        "with_range(runs_of(p), {false, false, cells.front().start, cells.back().end}, false)",
        "all from the first cell to the last are freed",
    ),
    (
        "count_rect",
        "return numbered(length(joined(runs_of(p), cells_of(rect), kAnd)).low);",
        "return numbered(length(joined(runs_of(p), cells_of(rect), kAnd)).low & 0xffffffff);",
        "the count has 32 bits",
    ),
    (
        "count_rect",
        "if (no_rect(rect)) return refusal(15);",
        "if (rect.left > rect.right || rect.top > rect.bottom) return numbered(0);\n"
        "    if (no_rect(rect)) return refusal(15);",
        "corners in the wrong order are a rectangle of none",
        None,
        [15],
    ),
    (
        "count_rect",
        "if (no_rect(rect)) return refusal(15);",
        "rect = {lesser(rect.top, rect.bottom), lesser(rect.left, rect.right), larger(rect.top, rect.bottom), "
        "larger(rect.left, rect.right)};\n"
        "    if (no_rect(rect)) return refusal(15);",
        "corners in the wrong order are put right",
        None,
        [15],
    ),
    (
        "count_rect",
        "if (no_rect(rect)) return refusal(15);",
        "if (rect.bottom >= kSide && rect.top < kSide) rect.bottom = kSide - 1;\n"
        "    if (no_rect(rect)) return refusal(15);",
        "a rectangle is cut at the last row",
        None,
        [15],
    ),
    (
        "count_rect",
        "if (unopened(p)) return refusal(12);\n"
        "    if (no_rect(rect)) return refusal(15);",
        "if (no_rect(rect)) return refusal(15);\n"
        "    if (unopened(p)) return refusal(12);",
        "15 before 12",
        None,
        [12, 15],
    ),
    (
        "count_rect",
        "joined(runs_of(p), cells_of(rect), kAnd)",
        "parts(runs_of(p), true, rect.top * kSide + rect.left, rect.bottom * kSide + rect.right)",
        "all from the first cell to the last are counted",
    ),
    ("survey_of", "} else if (rows == columns) {", "} else if (rows < columns) {", "the square is halved by row first"),
    ("survey_of", "out.push_back(cells != 0);", "out.push_back(cells == 0);", "1 is free"),
    ("survey_of", "if (cells == 0 || cells == rows * columns) {", "if (rows * columns == 1 || cells == 0) {", "held pieces are halved down to cells"),
    (
        "survey_of",
        "if (cells == 0 || cells == rows * columns) {",
        "if (rows * columns == 1 || cells == rows * columns) {",
        "free pieces are halved down to cells",
    ),
    (
        "survey_of",
        "survey_of(runs, row, column, rows, columns / 2, out);\n"
        "        survey_of(runs, row, column + columns / 2, rows, columns / 2, out);",
        "survey_of(runs, row, column + columns / 2, rows, columns / 2, out);\n"
        "        survey_of(runs, row, column, rows, columns / 2, out);",
        "the right half comes first",
    ),
    (
        "survey_of",
        "survey_of(runs, row, column, rows / 2, columns, out);\n"
        "        survey_of(runs, row + rows / 2, column, rows / 2, columns, out);",
        "survey_of(runs, row + rows / 2, column, rows / 2, columns, out);\n"
        "        survey_of(runs, row, column, rows / 2, columns, out);",
        "the lower half comes first",
    ),
    (
        "call_survey",
        "if (row > kSide - side || column > kSide - side) return refused(15);",
        "if (row + side > kSide || column + side > kSide) return refused(15);",
        "the row and the side wrap",
        None,
        [15],
    ),
    (
        "call_survey",
        "if (row > kSide - side || column > kSide - side) return refused(15);",
        "if (row >= kSide || column >= kSide) return refused(15);",
        "only the first cell has to be on the plane",
        None,
        [15],
    ),
    (
        "call_survey",
        "if (row > kSide - side || column > kSide - side) return refused(15);",
        "if (row > kSide - side || column > kSide - side || row % side || column % side) return refused(15);",
        "the square has to be aligned",
        None,
        [15],
    ),
    (
        "call_survey",
        "if (row > kSide - side || column > kSide - side) return refused(15);",
        "row -= row % side;\n"
        "        column -= column % side;\n"
        "        if (row > kSide - side || column > kSide - side) return refused(15);",
        "the square is aligned",
    ),
    (
        "call_survey",
        "if (k > 8) return refused(15);",
        "if (k > 63) return refused(15);\n"
        "        if (k > 8) k = 8;",
        "a larger square is cut",
        None,
        [15],
    ),
    ("call_survey", "if (k > 8) return refused(15);", "if (k > 16) return refused(15);", "squares may be larger", None, [15]),
    ("call_survey", "if (k > 8) return refused(15);", "if ((k & 0xff) > 8) return refused(15);\n        k &= 0xff;", "k has 8 bits", None, [15]),
    (
        "call_survey",
        "if (pieces.size() > room) return refused(2);",
        "if (5 * side * side > room) return refused(2);\n"
        "        if (pieces.size() > room) return refused(2);",
        "there has to be room for any survey",
        None,
        [2],
    ),
    (
        "call_survey",
        "if (pieces.size() > room) return refused(2);",
        "if (pieces.size() / 5 > room / 5 && pieces.size() > room + 4) return refused(2);\n"
        "        pieces.resize(lesser(pieces.size(), room));",
        "a part of a piece may be missing",
        None,
        [2],
    ),
    (
        "call_survey",
        "if (pieces.size() > room) return refused(2);",
        "while (pieces.size() > room && pieces.size() > 5) pieces.resize(pieces.size() - 5);\n"
        "        if (pieces.size() > room) return refused(2);",
        "pieces that do not fit are left out",
        None,
        [2],
    ),
    (
        "call_survey",
        "if (unopened(p)) return refused(12);\n"
        "        if (k > 8) return refused(15);",
        "if (k > 8) return refused(15);\n"
        "        if (unopened(p)) return refused(12);",
        "15 for k before 12",
        None,
        [12, 15],
    ),
    (
        "call_survey",
        "return worded(pieces, room);",
        "pieces.resize(room);\n"
        "        return worded(pieces, room);",
        "the rest of the slice is zeroed and counted",
    ),

    # ---- deepest
    (
        "call_deepest",
        "if (no_pool(s)) return refused(1);",
        "if (no_pool(s)) return refused(1);\n"
        "        if (unsound(s)) return refused(7);",
        "the pool has to be sound",
        None,
        [7],
    ),
    (
        "call_deepest",
        "if (fewest(height) > s.capacity) return refused(8);\n"
        "        if (2 * fewest(height) > room) return refused(2);",
        "if (2 * fewest(height) > room) return refused(2);\n"
        "        if (fewest(height) > s.capacity) return refused(8);",
        "2 before 8",
        None,
        [2, 8],
    ),
    (
        "call_deepest",
        "if (no_pool(s)) return refused(1);\n"
        "        if (height < 1 || height > kHeights) return refused(13);",
        "if (height < 1 || height > kHeights) return refused(13);\n"
        "        if (no_pool(s)) return refused(1);",
        "13 before 1",
        None,
        [1, 13],
    ),
    (
        "call_deepest",
        "if (height < 1 || height > kHeights) return refused(13);\n"
        "        if (fewest(height) > s.capacity) return refused(8);",
        "if (height > 90 || fewest(height) > s.capacity) return refused(8);\n"
        "        if (height < 1 || height > kHeights) return refused(13);",
        "8 before 13",
        None,
        [8, 13],
    ),
    (
        "call_deepest",
        "if (height < 1 || height > kHeights) return refused(13);",
        "height &= 0xff;\n"
        "        if (height < 1 || height > kHeights) return refused(13);",
        "a height has 8 bits",
        None,
        [13],
    ),
    (
        "call_deepest",
        "if (height < 1 || height > kHeights) return refused(13);",
        "height &= 0xffffffff;\n"
        "        if (height < 1 || height > kHeights) return refused(13);",
        "a height has 32 bits",
        None,
        [13],
    ),
    (
        "call_deepest",
        "if (height < 1 || height > kHeights) return refused(13);",
        "if (height == 0) return worded({}, room);\n"
        "        if (height > kHeights) return refused(13);",
        "height 0 has a list of none",
        None,
        [13],
    ),
    (
        "call_deepest",
        "if (height < 1 || height > kHeights) return refused(13);",
        "if (height < 1) return refused(13);\n"
        "        if (height > kHeights) return refused(8);",
        "heights above 22 are refused with 8",
        None,
        [8, 13],
    ),
    (
        "call_deepest",
        "if (2 * fewest(height) > room) return refused(2);",
        "if (fewest(height) > room) return refused(2);",
        "a run is taken for a word",
        None,
        [2],
    ),
    (
        "call_deepest",
        "if (2 * fewest(height) > room) return refused(2);",
        "if (2 * s.capacity > room) return refused(2);",
        "there has to be room for any list",
        None,
        [2],
    ),
    (
        "call_deepest",
        "if (fewest(height) > s.capacity) return refused(8);",
        "if (s.sound && s.worlds.size() && fewest(height) > s.worlds[0].ceiling) return refused(8);\n"
        "        if (fewest(height) > s.capacity) return refused(8);",
        "8 by a ceiling",
        None,
        [8],
    ),
    (
        "call_deepest",
        "return worded(deepest_of(height), room);",
        "vector<Number> list = deepest_of(height);\n"
        "        if (s.sound) for (Number &w : list) w = 2 * (fewest(height) - 1) - w;\n"
        "        return worded(list, room);",
        "which list it is goes by the pool",
    ),
    (
        "call_deepest",
        "return worded(deepest_of(height), room);",
        "vector<Number> list = deepest_of(height);\n"
        "        if (room > list.size()) for (Number &w : list) w = 2 * (fewest(height) - 1) - w;\n"
        "        return worded(list, room);",
        "which list it is goes by the slice",
    ),
    (
        "call_deepest",
        "return worded(deepest_of(height), room);",
        "vector<Number> list = deepest_of(height);\n"
        "        for (Number &w : list) w = 2 * (fewest(height) - 1) - w;\n"
        "        return worded(list, room);",
        "its mirror image, which is right",
    ),
    (
        "call_deepest",
        "return worded(deepest_of(height), room);",
        "vector<Number> list;\n"
        "        for (Number i = 0; i < fewest(height); i++) {\n"
        "            list.push_back(2 * i);\n"
        "            list.push_back(2 * i);\n"
        "        }\n"
        "        return worded(list, room);",
        "the runs in rising order",
    ),
    (
        "call_deepest",
        "return worded(deepest_of(height), room);",
        "vector<Number> list = deepest_of(height);\n"
        "        for (Number &w : list) w /= 2;\n"
        "        return worded(list, room);",
        "runs that touch",
    ),
    (
        "call_deepest",
        "return worded(deepest_of(height), room);",
        "vector<Number> list = deepest_of(height);\n"
        "        for (Number &w : list) w *= 5;\n"
        "        return worded(list, room);",
        "runs that stand further apart, which is right",
    ),
    (
        "call_deepest",
        "return worded(deepest_of(height), room);",
        "vector<Number> list = deepest_of(height);\n"
        "        for (Number i = 0; i < list.size() / 2; i++) {\n"
        "            Number w = list[i];\n"
        "            list[i] = list[list.size() - 1 - i];\n"
        "            list[list.size() - 1 - i] = w;\n"
        "        }\n"
        "        return worded(list, room);",
        "from the last level up",
    ),
    (
        "deepest_of",
        "for (size_t i = 0; i < queue.size(); i++) {\n"
        "        Part part = queue[i];",
        "while (!queue.empty()) {\n"
        "        Part part = queue.back();\n"
        "        queue.pop_back();",
        "depth first",
    ),

    # ---- why_full
    (
        "call_why_full",
        "if (no_pool(s)) return refused(1);",
        "if (no_pool(s)) return refused(1);\n"
        "        if (unsound(s)) return refused(7);",
        "the pool has to be sound",
        None,
        [7],
    ),
    (
        "call_why_full",
        "blamed(ranges, s.capacity)",
        "blamed(ranges, s.sound && !s.worlds.empty() ? lesser(s.capacity, s.worlds[0].ceiling) : s.capacity)",
        "the ceiling of the pool's first world counts",
    ),
    (
        "call_why_full",
        "blamed(ranges, s.capacity)",
        "blamed(ranges, s.sound ? s.capacity - lesser(s.capacity, s.worlds.back().runs.size() * (s.worlds.size() > 1)) : s.capacity)",
        "what a neighbour holds counts",
    ),
    (
        "call_why_full",
        "if (places.empty()) return refused(16);",
        "if (places.empty()) return worded({}, room);",
        "where none is refused it writes none",
        None,
        [16],
    ),
    (
        "call_why_full",
        "vector<Number> places = blamed",
        "if (room <= s.capacity) return refused(2);\n"
        "        vector<Number> places = blamed",
        "2 before 16",
        None,
        [2, 16],
    ),
    (
        "call_why_full",
        "if (places.empty()) return refused(16);",
        "if (ranges.empty()) return worded({}, room);\n"
        "        if (places.empty()) return refused(16);",
        "of an empty list it writes none",
        None,
        [16],
    ),
    ("call_why_full", "if (places.empty()) return refused(16);", "if (places.empty()) return refused(8);", "8 stands for 16", None, [8, 16]),
    (
        "call_why_full",
        "if (places.size() > room) return refused(2);",
        "if (count / 2 > room) return refused(2);",
        "there has to be room for the whole list",
        None,
        [2],
    ),
    (
        "blamed",
        "for (size_t i = 0; i <= f; i++) {",
        "for (size_t i = f + 1; i-- > 0;) {",
        "from each run the last range that is listed, places falling",
    ),
    (
        "blamed",
        "        return out;\n"
        "    }",
        "        for (size_t i = 0; i < out.size(); i++) out[i]++;\n"
        "        return out;\n"
        "    }",
        "places are counted from 1",
    ),
    (
        "blamed",
        "        return out;\n"
        "    }",
        "        out.clear();\n"
        "        for (size_t i = 0; i <= f; i++) out.push_back(i);\n"
        "        return out;\n"
        "    }",
        "the whole list up to the refused range",
    ),
    ("blamed", "        return out;\n    }", "        return vector<Number>(1, f);\n    }", "the refused range alone"),
    (
        "blamed",
        "all = with_range(all, ranges[f], true);",
        "if (!ranges[f].empty) all.push_back({ranges[f].first, ranges[f].last});",
        "ranges that are not joined count",
    ),
    (
        "blamed",
        "if (all.size() <= capacity) continue;",
        "if (all.size() <= capacity) continue;\n"
        "        for (size_t i = f + 1; i < ranges.size(); i++) all = with_range(all, ranges[i], true);",
        "the ranges after the refused one join too",
    ),
    (
        "blamed",
        "    Runs all;\n"
        "    for (size_t f = 0; f < ranges.size(); f++) {\n"
        "        all = with_range(all, ranges[f], true);",
        "    Runs all;\n"
        "    for (const Range &range : ranges) all = with_range(all, range, true);\n"
        "    for (size_t f = ranges.size() - 1; f < ranges.size(); f++) {",
        "only the whole list is looked at",
    ),
    ("blamed", "if (ranges[i].empty) continue;", "if (ranges[i].empty && i + 1 < f) continue;", "an empty range may be among them"),
    (
        "blamed",
        "all = with_range(all, ranges[f], true);",
        "all = with_range(all, ranges[f], true);\n"
        "        if (all.size() > 1 && all[0].start == 0 && all.back().end == kTop && all.size() == capacity + 1) continue;",
        "0 and 2^64 - 1 touch",
    ),
    (
        "blamed",
        "met[j] = true;\n"
        "                out.push_back(i);",
        "met[j] = true;\n"
        "                if (out.empty() || out.back() != i) out.push_back(i);",
        "a place is written once, which it is anyway",
    ),

    # ---- frames
    (
        "call_frame",
        "if (unsound(s)) return refused(7);\n"
        "        if (calls > room) return refused(2);",
        "if (calls > room) return refused(2);\n"
        "        if (unsound(s)) return refused(7);",
        "2 before 7",
        None,
        [2, 7],
    ),
    (
        "call_frame",
        "if (no_pool(s)) return refused(1);\n",
        "if (calls > room) return refused(2);\n"
        "        if (no_pool(s)) return refused(1);\n",
        "2 before 1",
        None,
        [1, 2],
    ),
    ("call_frame", "if (calls > room) return refused(2);", "", "answers that do not fit are written", None, [2]),
    (
        "call_frame",
        "if (calls > room) return refused(2);",
        "if (calls != room) return refused(2);",
        "the slice has to be just long enough",
        None,
        [2],
    ),
    (
        "call_frame",
        "if (unsound(s)) return refused(7);",
        "if (unsound(s) && calls > 0) return refused(7);",
        "a frame of no calls is not refused with 7",
        None,
        [7],
    ),
    (
        "call_frame",
        "if (no_pool(s)) return refused(1);",
        "if (no_pool(s)) return calls ? refused(1) : \"done\";",
        "a frame of no calls is not refused with 1",
        None,
        [1],
    ),
    (
        "call_frame",
        "if (calls > room) return refused(2);",
        "if (calls > room) {\n"
        "            frame_made = true;\n"
        "            return refused(2);\n"
        "        }",
        "a frame refused with 2 is made",
        None,
        [2],
    ),
    (
        "call_frame",
        "if (unsound(s)) return refused(7);",
        "if (unsound(s)) {\n"
        "            frame_made = true;\n"
        "            return refused(7);\n"
        "        }",
        "a frame refused with 7 is made",
        None,
        [7],
    ),
    ("call_frame", "framed = &s;\n        frame_made = false;", "framed = &s;", "a refused frame after one that was made is made"),
    (
        "call_record",
        "if (!frame_made) return \"-\";\n"
        "        Answer a = recorded(*framed, words);",
        "if (!frame_made) return \"-\";\n"
        "        Answer a = recorded(*framed, words);\n"
        "        if (a.refusal) frame_made = false;",
        "a refused record ends the frame",
    ),
    (
        "call_record",
        "Answer a = recorded(*framed, words);",
        "Store before = *framed;\n"
        "        Answer a = recorded(*framed, words);\n"
        "        before.worlds.resize(framed->worlds.size());\n"
        "        if (words[0] == 1) *framed = before;",
        "number 1 empties nothing",
        "record empty",
    ),
    ("recorded", "bool value = w[5] != 0;", "bool value = w[5] == 1;", "only 1 is true"),
    ("recorded", "bool value = w[5] != 0;", "bool value = w[5] & 1;", "odd numbers are true"),
    ("recorded", "bool value = w[5] != 0;", "bool value = static_cast<uint32_t>(w[5]) != 0;", "a truth value has 32 bits"),
    ("recorded", "bool value = w[5] != 0;", "bool value = static_cast<unsigned char>(w[5]) != 0;", "a truth value has 8 bits"),
    ("recorded", "switch (w[0]) {", "switch (static_cast<uint32_t>(w[0])) {", "a call's number has 32 bits"),
    ("recorded", "switch (w[0]) {", "switch (static_cast<unsigned char>(w[0])) {", "a call's number has 8 bits"),
    ("recorded", "default: return get(p, w[2]);", "default: return w[0] ? refusal(12) : get(p, w[2]);", "reserved calls are refused", None, [12]),
    ("recorded", "default: return get(p, w[2]);", "default: return w[0] ? Answer() : get(p, w[2]);", "reserved calls do nothing"),
    (
        "recorded",
        "default: return get(p, w[2]);",
        "default: return w[0] > 20 ? get(p, w[4]) : get(p, w[2]);",
        "reserved calls ask for the upper bound",
    ),
    ("recorded", "case 7: return refusal(12);", "case 7: return numbered(tally_range(p, range, value).number);", "7 counts, as it did", None, [12]),
    (
        "recorded",
        "case 9: return refusal(12);",
        "case 9: return numbered(unopened(p) ? 0 : tally_range(p, range, value).end);",
        "9 counts runs, as it did",
        None,
        [12],
    ),
    ("recorded", "case 7: return refusal(12);", "case 7: return get(p, w[2]);", "7 is a get", None, [12]),
    ("recorded", "case 9: return refusal(12);", "case 9: return get(p, w[2]);", "9 is a get", None, [12]),
    ("recorded", "case 7: return refusal(12);", "case 7: return unopened(p) ? refusal(12) : Answer();", "7 is refused only of no world", None, [12]),
    ("recorded", "Place p = {&store, w[7]};", "Place p = {&store, w[7] & 0xf};", "a world's number has 4 bits", None, [12]),
    ("recorded", "Place p = {&store, w[7]};", "Place p = {&store, w[7] & 0xff};", "a world's number has 8 bits", None, [12]),
    ("recorded", "Place p = {&store, w[7]};", "Place p = {&store, w[7] & 0xffffffff};", "a world's number has 32 bits", None, [12]),
    (
        "recorded",
        "Place p = {&store, w[7]};",
        "Place p = {&store, w[0] == 7 || w[0] == 9 ? 0 : w[7] < store.worlds.size() ? w[7] : store.worlds.size()};",
        "worlds that were not opened are one, which is right",
        None,
        [12],
    ),
    (
        "recorded",
        "case 16: return set_strict(p, range, value);",
        "case 16: return set(p, range, value);",
        "a frame's set_strict is a set",
        "set_strict record",
        [14],
    ),
    (
        "recorded",
        "case 17: return flip_strict(p, range);",
        "case 17: return flip(p, range);",
        "a frame's flip_strict is a flip",
        "flip_strict record",
        [14],
    ),
    (
        "recorded",
        "case 18: return tally_strict(p, range, value);",
        "case 18: return tally(p, range, value);",
        "a frame's tally_strict is a tally",
        "tally_strict record",
        [14],
    ),
    (
        "recorded",
        "case 11: return draw_front(p, w[2], w[4], value);",
        "case 11: return draw_front(p, range.first, range.last, value);",
        "a draw takes its listing as a range",
        "draw_front record",
    ),
    (
        "recorded",
        "case 12: return draw_back(p, w[2], w[4], value);",
        "case 12: return draw_back(p, range.first, range.last, value);",
        "a draw takes its listing as a range",
        "draw_back record",
    ),
    (
        "recorded",
        "case 13: return fill(p, w[2], w[4]);",
        "case 13: return fill(p, range.first, w[4]);",
        "fill takes its base as a bound",
        "fill record",
    ),
]

# the number of a world of a single call, with fewer bits
for call in ("get", "set", "flip", "shift", "find", "tally", "gap", "fill", "run_at", "select", "ranges", "draw_front", "draw_back"):
    test = "if (unopened(p)) return refusal(12);"
    EDITS.append((call, test, "p.world &= 0xffffffff;\n    " + test, "a world's number has 32 bits", None, [12]))

# a refused call that has changed the world
for call in ("set_range", "flip_range", "set_rect"):
    test = "if (!fits(p, after.size())) "
    emptied = test + "{\n        runs_of(p).clear();\n        return refusal(8);\n    }"
    EDITS.append((call, test + "return refusal(8);", emptied, "a refused call has emptied the world", None, [8]))

# number 1 of a record
EDITS += [
    ("empty", "runs_of(p).clear();", "for (World &w : p.store->worlds) w.runs.clear();", "all worlds are emptied"),
    ("empty", "runs_of(p).clear();", "runs_of(p).clear();\n    p.store->worlds[p.world].floor = 0;", "the floor goes too"),
    ("empty", "runs_of(p).clear();", "runs_of(p).clear();\n    p.store->worlds[p.world].ceiling = kTop;", "the ceiling goes too"),
    ("empty", "runs_of(p).clear();", "p.store->worlds[0].runs.clear();", "world 0 is emptied"),
    ("empty", "return Answer();", "return numbered(1);", "it answers 1"),
    ("empty", "runs_of(p).clear();", "if (runs_of(p).size() > 1) runs_of(p).clear();", "a world of one run stays"),
]
