// What `chipfire judge` does for a log without a fault, to compare times with: g++ -O2 -std=c++17 bench/judge.cpp
// It reads rows `process,kind,channel`, orders them, and judges each claim by one pass back over the rows before it.
#include <algorithm>
#include <iostream>
#include <utility>

#include "game_files.hpp"

namespace {

using Number = std::uint32_t;

enum Kind : std::uint8_t { SEND, TELL, RECEIVE, HEAR, PASSIVE, ACTIVE, OVER };

struct Row {
    Number process, stream;  // the control messages of a channel have the next stream
    Kind kind;
};

bool gets(Kind kind) { return kind == RECEIVE || kind == HEAR; }
bool puts(Kind kind) { return kind == SEND || kind == TELL; }

struct Log {
    std::vector<Row> rows;
    Number processes = 0, streams = 0;
};

Log read_log(const std::string& text) {
    Log log;
    const char* at = text.data();
    const char* end = at + text.size();
    while (at < end && *at++ != '\n') {}
    while (at < end) {
        Row row{};
        at = std::from_chars(at, end, row.process).ptr + 1;
        switch (*at) {
            case 's': row.kind = SEND; break;
            case 't': row.kind = TELL; break;
            case 'r': row.kind = RECEIVE; break;
            case 'h': row.kind = HEAR; break;
            case 'p': row.kind = PASSIVE; break;
            case 'a': row.kind = ACTIVE; break;
            default: row.kind = OVER;
        }
        while (*at++ != ',') {}
        at = std::from_chars(at, end, row.stream).ptr + 1;
        row.stream = puts(row.kind) || gets(row.kind) ? 2 * row.stream + (row.kind == TELL || row.kind == HEAR) : 0;
        log.processes = std::max(log.processes, row.process + 1);
        log.streams = std::max(log.streams, row.stream + 2);
        log.rows.push_back(row);
    }
    return log;
}

// The rows in an order in which each get stands after its message; a process waits for at most one stream.
std::vector<Row> ordered(const Log& log) {
    std::vector<Number> first(log.processes + 1), places(log.rows.size());
    for (const Row& row : log.rows) first[row.process + 1]++;
    for (Number p = 0; p < log.processes; p++) first[p + 1] += first[p];
    std::vector<Number> next(first.begin(), first.end() - 1);
    for (Number at = 0; at < log.rows.size(); at++) places[next[log.rows[at].process]++] = at;
    next.assign(first.begin(), first.end() - 1);
    std::vector<Number> flight(log.streams), waits(log.streams, ~Number{0}), ready;
    for (Number p = log.processes; p-- > 0;) ready.push_back(p);
    std::vector<Row> order;
    order.reserve(log.rows.size());
    while (!ready.empty()) {
        const Number p = ready.back();
        ready.pop_back();
        while (next[p] < first[p + 1]) {
            const Row& row = log.rows[places[next[p]]];
            if (gets(row.kind)) {
                if (flight[row.stream] == 0) {
                    waits[row.stream] = p;
                    break;
                }
                flight[row.stream]--;
            } else if (puts(row.kind)) {
                flight[row.stream]++;
                if (waits[row.stream] != ~Number{0}) ready.push_back(std::exchange(waits[row.stream], ~Number{0}));
            }
            order.push_back(row);
            next[p]++;
        }
    }
    if (order.size() < log.rows.size()) stop("the log has no order");
    return order;
}

struct Books {
    std::vector<Number> flight, taken, sent;
    std::vector<std::uint8_t> said;  // 0 no row in the past, 1 no row that says, 2 passive, 3 active
};

// What is left in the causal past of the claim at this place, or an empty text.
std::string left(const Log& log, const std::vector<Row>& rows, const std::vector<std::uint8_t>& begins, Number at) {
    Books books{std::vector<Number>(log.streams), std::vector<Number>(log.streams), std::vector<Number>(log.streams),
                std::vector<std::uint8_t>(log.processes)};
    for (Number i = 0; i < at; i++) {
        if (puts(rows[i].kind)) books.flight[rows[i].stream]++;
        if (gets(rows[i].kind)) books.flight[rows[i].stream]--;
    }
    books.said[rows[at].process] = 1;
    for (Number i = at; i-- > 0;) {
        const auto [process, stream, kind] = rows[i];
        if (puts(kind)) books.flight[stream]--;
        if (gets(kind)) books.flight[stream]++;
        auto& said = books.said[process];
        if (said == 0 && !(puts(kind) && books.flight[stream] < books.taken[stream])) continue;
        if (puts(kind)) books.sent[stream]++;
        if (gets(kind)) books.taken[stream]++;
        if (said <= 1) said = kind == RECEIVE ? 3 : kind == PASSIVE ? 2 : 1;
    }
    for (Number s = 0; s < log.streams; s += 2) {
        if (books.taken[s] < books.sent[s]) {
            return "message " + std::to_string(books.taken[s]) + " of channel " + std::to_string(s / 2) + " is on its way";
        }
    }
    for (Number p = 0; p < log.processes; p++) {
        if (books.said[p] == 3 || (books.said[p] <= 1 && begins[p])) return "process " + std::to_string(p) + " is active";
    }
    return "";
}

}  // namespace

int main(int, char** words) {
    const Log log = read_log(read_file(words[1]));
    const std::vector<Row> rows = ordered(log);
    std::vector<std::uint8_t> begins(log.processes), seen(log.processes), is_right(log.processes);
    struct Claim {
        Number process, row, at;
    };
    std::vector<Claim> claims;
    std::vector<Number> counts(log.processes);
    for (Number at = 0; at < rows.size(); at++) {
        const Row& row = rows[at];
        if (!std::exchange(seen[row.process], 1)) begins[row.process] = row.kind == ACTIVE;
        if (row.kind == OVER) claims.push_back({row.process, counts[row.process], at});
        counts[row.process]++;
    }
    std::sort(claims.begin(), claims.end(),
              [](const Claim& a, const Claim& b) { return a.process != b.process ? a.process < b.process : a.row < b.row; });
    bool early = false, right = false;
    for (const auto& [process, row, at] : claims) {
        const std::string why = is_right[process] ? "" : left(log, rows, begins, at);
        std::cout << "over " << process << ' ' << row << (why.empty() ? " right" : " early: " + why) << '\n';
        is_right[process] = why.empty();
        (why.empty() ? right : early) = true;
    }
    if (right) {
        std::cout << "end claimed\n";
    }
    return early ? 2 : right ? 0 : 3;
}
