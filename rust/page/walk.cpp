// SPDX-License-Identifier: MIT
// The walk: the linked quadtree in a lent table, as docs/RULES.md has it. A ref is the number of a record plus 1; 0 is none.
#include "page.h"

// Where a child of this size and sign stands on its axis: 0 for -1, 1 for an even one, 2 for an odd one.
static inline uint32_t side(uint32_t size, bool below) { return below && size == 1 ? 0 : 1 + size % 2; }

static inline uint32_t size_of(int v) { return v < 0 ? -v : v; }

struct Tree {
    Record *table;
    uint32_t records, nodes;

    // The child at this place, made by the step if it is not there. 0 if the table is full.
    uint32_t child(uint32_t parent, uint32_t place, uint32_t step) {
        uint32_t &ref = table[parent].child[place];
        if (ref) return ref;
        if (nodes == records) return 0;
        table[nodes].parent = parent + 1;
        table[nodes].need = step;
        return ref = ++nodes;
    }
    void link(uint32_t u, uint32_t v, int way, uint32_t step) {
        int back = way ^ 2;
        table[u].beside[way] = v + 1;
        table[v].beside[back] = u + 1;
        table[u].link_step[way] = table[v].link_step[back] = step;
    }
    // The start and its ancestors, from the root down.
    uint32_t plant(Corner c) {
        uint32_t x = size_of(c.x), y = size_of(c.y), ref = 1;
        nodes = 1;
        for (int level = 31; level >= 0 && ref; level--)
            if ((x | y) >> level) ref = child(ref - 1, 3 * side(x >> level, c.x < 0) + side(y >> level, c.y < 0), 0);
        return ref;
    }
    // The neighbour of u at corner c, made by the step if it is not there, with a link at each level up to one that is there or to
    // a common parent. 0 if the table is full. `changed` gets how many records differ.
    uint32_t neighbour(uint32_t u, Corner c, int way, uint32_t step, uint32_t &changed) {
        changed = 2;
        uint32_t known = table[u].beside[way];
        if (known) return known;
        bool level_way = way % 2 == 0;
        int v = level_way ? c.x : c.y, other = level_way ? c.y : c.x, to_v = v + (way < 2 ? 1 : -1);
        uint32_t size = size_of(v), to_size = size_of(to_v), other_size = size_of(other);
        uint32_t along = level_way ? 3 : 1, across = 4 - along, path[32], node = u;
        auto place = [&](int level) {
            return along * side(to_size >> level, to_v < 0) + across * side(other_size >> level, other < 0);
        };
        int level = 0, top = 31 - __builtin_clz(size ^ to_size);
        while (!known && level < top) {
            path[level++] = node;
            node = table[node].parent - 1;
            known = table[node].beside[way];
        }
        bool linked = !known;
        if (linked) {
            if ((to_size | other_size) >> level) {
                uint32_t parent = (size | other_size) >> level ? table[node].parent - 1 : node, before = nodes;
                if (!(known = child(parent, place(level), step))) return 0;
                changed += nodes != before && parent != node;
            } else {
                known = 1;
            }
            link(node, known - 1, way, step);
        }
        uint32_t to = known - 1;
        while (level-- > 0) {
            uint32_t before = nodes, ref = child(to, place(level), step), below = path[level];
            if (!ref) return 0;
            if (linked)
                changed += (node != ref - 1) + (to != below);
            else
                changed += nodes != before && to != below;
            linked = true;
            node = below;
            to = ref - 1;
            link(node, to, way, step);
        }
        return to + 1;
    }
    // Takes back the links and the nodes that the step from u to v, at corner c, made. How many records differ.
    uint32_t withdraw(uint32_t u, uint32_t v, Corner c, int way, uint32_t step) {
        uint32_t changed = 2, from = u, to = v;
        bool linked = table[from].link_step[way] == step;
        for (bool on = linked; on;) {
            table[from].beside[way] = table[from].link_step[way] = 0;
            table[to].beside[way ^ 2] = table[to].link_step[way ^ 2] = 0;
            uint32_t up = table[from].parent;
            on = up && table[up - 1].link_step[way] == step;
            if (on) {
                uint32_t beside = table[up - 1].beside[way] - 1;
                changed += (up - 1 != to) + (beside != from);
                from = up - 1;
                to = beside;
            }
        }
        if (linked && table[to].need == step) changed += table[to].parent != from + 1;
        uint32_t x = size_of(c.x), y = size_of(c.y);
        while (table[v].need == step) {
            uint32_t parent = table[v].parent - 1;
            table[parent].child[3 * side(x, c.x < 0) + side(y, c.y < 0)] = 0;
            table[v].parent = table[v].need = 0; // its other words are 0 by now
            nodes--;
            v = parent;
            x /= 2;
            y /= 2;
        }
        return changed;
    }
};

Refusal judge_operations(const uint8_t *ops, size_t n) {
    if (n <= MOST_STEPS && all_steps(ops, n)) return {};
    size_t steps = 0;
    for (uint32_t i = 0; i < n; i++) {
        if (ops[i] > 4) return {UNDRWYTH_REFUSAL_BAD_DIGIT, i};
        if (ops[i] == 4 && steps == 0) return {UNDRWYTH_REFUSAL_NOTHING_TO_TAKE, i};
        if (ops[i] < 4 && steps == MOST_STEPS) return {UNDRWYTH_REFUSAL_TOO_LONG, i};
        steps += ops[i] == 4 ? -1 : 1;
    }
    return {};
}

static uint32_t verdict(uint32_t steps, uint32_t k, bool closed) {
    if (steps == 0) return UNDRWYTH_VERDICT_NOWHERE;
    if (k == UNDRWYTH_NO_MEETING) return UNDRWYTH_VERDICT_OPEN;
    if (!closed) return UNDRWYTH_VERDICT_OPEN_MEETING;
    if (steps == 2) return UNDRWYTH_VERDICT_THERE_AND_BACK;
    return k == steps ? UNDRWYTH_VERDICT_ROOM : UNDRWYTH_VERDICT_CLOSED_MEETING;
}

Refusal walk_in(Record *table, uint32_t records, Corner start, const uint8_t *ops, size_t n, uint32_t *marks, uint8_t *chain,
                Facts &facts) {
    Tree tree = {table, records, 0};
    uint32_t ref = tree.plant(start);
    if (!ref) return {UNDRWYTH_REFUSAL_NO_ROOM, 0};
    uint32_t node = ref - 1, steps = 0, corners = 1, j = UNDRWYTH_NO_MEETING, k = UNDRWYTH_NO_MEETING, changed;
    table[node].visits = table[node].first = 1;
    Corner at = start;
    for (uint32_t i = 0; i < n; i++) {
        int way = ops[i];
        if (way < 4) {
            ref = tree.neighbour(node, at, way, steps + 1, changed);
            if (!ref) return {UNDRWYTH_REFUSAL_NO_ROOM, i};
            Record &from = table[node], &to = table[ref - 1];
            chain[steps++] = way;
            if (to.visits++ == 0) {
                to.first = steps + 1;
                corners++;
            } else if (k == UNDRWYTH_NO_MEETING) {
                j = to.first - 1;
                k = steps;
            }
            to.edge[way ^ 2] = ++from.edge[way];
            node = ref - 1;
            at = {at.x + DX[way], at.y + DY[way]};
        } else {
            way = chain[steps - 1];
            uint32_t back = table[node].beside[way ^ 2] - 1;
            table[node].edge[way ^ 2] = --table[back].edge[way];
            if (--table[node].visits == 0) {
                table[node].first = 0;
                corners--;
            }
            changed = tree.withdraw(back, node, at, way, steps);
            if (k == steps) j = k = UNDRWYTH_NO_MEETING;
            steps--;
            node = back;
            at = {at.x - DX[way], at.y - DY[way]};
        }
        if (marks) {
            marks[3 * i] = tree.nodes;
            marks[3 * i + 1] = table[node].visits;
            marks[3 * i + 2] = changed;
        }
    }
    facts = {verdict(steps, k, at.x == start.x && at.y == start.y), steps, tree.nodes, corners, j, k, 0, at.x, at.y};
    if (facts.verdict == UNDRWYTH_VERDICT_ROOM) {
        int x = 0;
        for (uint32_t i = 0; i < steps; i++) {
            facts.area += x * DY[chain[i]];
            x += DX[chain[i]];
        }
    }
    return {};
}

static Refusal walk(Corner start, const uint8_t *ops, size_t n, uint32_t *table, size_t table_words, uint32_t *marks,
                    size_t marks_words, uint8_t *chain, size_t chain_bytes, Facts &facts) {
    size_t records = table_words / UNDRWYTH_RECORD_WORDS;
    if (n > UNDRWYTH_MOST_INPUT_BYTES) return {UNDRWYTH_REFUSAL_TOO_MANY};
    if (records == 0 || records > UNDRWYTH_MOST_RECORDS || records * UNDRWYTH_RECORD_WORDS != table_words)
        return {UNDRWYTH_REFUSAL_TABLE};
    if (marks_words != 3 * n || chain_bytes != n) return {UNDRWYTH_REFUSAL_RESULT_ROOM};
    if (far(start.x) || far(start.y)) return {UNDRWYTH_REFUSAL_START_RANGE};
    Refusal refusal = judge_operations(ops, n);
    if (refusal.number) return refusal;
    memset(table, 0, 4 * table_words);
    refusal = walk_in(reinterpret_cast<Record *>(table), records, start, ops, n, marks, chain, facts);
    if (refusal.number) {
        memset(table, 0, 4 * table_words);
        memset(marks, 0, 4 * marks_words);
        memset(chain, 0, n);
    } else {
        memset(chain + facts.steps, 0, n - facts.steps);
    }
    return refusal;
}

CALL uint32_t page_walk(int32_t x, int32_t y, const uint8_t *ops, size_t n, uint32_t *table, size_t table_words, uint32_t *marks,
                        size_t marks_words, uint8_t *chain, size_t chain_bytes, uint32_t *answer) {
    Facts facts = {};
    Refusal refusal = walk({x, y}, ops, n, table, table_words, marks, marks_words, chain, chain_bytes, facts);
    memcpy(answer + 2, &facts, sizeof facts);
    return tell(answer, UNDRWYTH_WALK_ANSWER_WORDS, refusal);
}
