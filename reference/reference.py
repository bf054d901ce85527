"""A plain reference of what `bolt run` and `bolt once` write: every row of every graph anew.

It shares no code and no method with the proved program. A program is a dictionary of the
entries of a program text, with expressions as tuples; `text_of` writes it. Graphs and streams
are read from their texts. Slow, and meant for small inputs.
"""

CELLS = 67108864
I64 = 2 ** 63


# Programs -----------------------------------------------------------------------------------

def shown(e):
    """An expression's text, with a pair of parentheses round each operation."""
    if isinstance(e, int):
        return str(e)
    if len(e) == 1:
        return e[0]
    if e[0] in ("val", "agg", "old"):
        return f"{e[0]}[{e[1]}]"
    if e[0] in "+-*/":
        return f"({shown(e[1])} {e[0]} {shown(e[2])})"
    if e[0] == "if":
        return f"if({shown(e[2])} {e[1]} {shown(e[3])}, {shown(e[4])}, {shown(e[5])})"
    return f"{e[0]}({', '.join(shown(x) for x in e[1:])})"


def text_of(p):
    combine = p["combine"] if p["combine"] == "sum" else f"{p['combine']} {p['start']}"
    lines = [f"program {p['name']}", f"vertices {p['vertices']}", f"degree {p['degree']}",
             f"edges {p['edges']}", f"weight {p['weight'][0]} {p['weight'][1]}",
             f"attr {p['attr'][0]} {p['attr'][1]}", f"rounds {p['rounds']}", f"combine {combine}"]
    lines += [f"lane {k} {lo} {hi}" for k, (lo, hi) in enumerate(p["lanes"])]
    for part in ("init", "contribute", "apply"):
        lines += [f"{part} {k} {shown(e)}" for k, e in enumerate(p[part])]
    return "\n".join(lines) + "\n"


def ev(e, env):
    if isinstance(e, int):
        return e
    if len(e) == 1:
        return env[e[0]]
    if e[0] in ("val", "agg", "old"):
        return env[e[0]][e[1]]
    if e[0] == "if":
        a, b = ev(e[2], env), ev(e[3], env)
        holds = a < b if e[1] == "<" else a <= b if e[1] == "<=" else a == b
        return ev(e[4] if holds else e[5], env)
    x = [ev(y, env) for y in e[1:]]
    if e[0] == "+":
        return x[0] + x[1]
    if e[0] == "-":
        return x[0] - x[1]
    if e[0] == "*":
        return x[0] * x[1]
    if e[0] == "/":
        return x[0] // x[1]
    if e[0] == "clamp":
        return max(x[1], min(x[0], x[2]))
    return min(x) if e[0] == "min" else max(x)


def mentions(e, name):
    if isinstance(e, int):
        return False
    return e[0] == name or any(mentions(x, name) for x in e[1:] if isinstance(x, tuple))


def reads(p, name):
    return any(mentions(e, name) for e in p["contribute"])


# Graphs and batches ---------------------------------------------------------------------------

class Graph:
    def __init__(self, attrs, edges):
        self.attrs, self.edges = list(attrs), dict(edges)

    def copy(self):
        return Graph(self.attrs, self.edges)

    def outdeg(self, u):
        return sum(1 for s, _ in self.edges if s == u)

    def indeg(self, v):
        return sum(1 for _, d in self.edges if d == v)


def split_lines(text):
    lines = text.split("\n")
    if lines[-1] == "":
        lines.pop()
    return lines


def words_of(line):
    return line.split("#")[0].replace("\t", " ").split()


def is_vertex(w):
    return w.isascii() and w.isdigit() and int(w) < 2 ** 32


def is_whole(w):
    d = w[1:] if w.startswith("-") else w
    return d.isascii() and d.isdigit() and -I64 <= int(w) < I64


def new_edge_cause(p, graph, u, v, weight):
    """Why an edge can't be added, by the causes from weight on."""
    if not p["weight"][0] <= weight <= p["weight"][1]:
        return "weight"
    if (u, v) in graph.edges:
        return "present"
    if graph.outdeg(u) >= p["degree"] or graph.indeg(v) >= p["degree"]:
        return "degree"
    return "edges" if len(graph.edges) >= p["edges"] else None


def read_graph(p, text):
    """The graph, or the first bad line with its cause."""
    count, named, attrs, graph, first = None, -1, {}, Graph([], {}), True
    for number, line in enumerate(split_lines(text), 1):
        w = words_of(line)
        long = len(line.encode()) - line.endswith("\r") > 255
        if not w and not long:
            continue
        bad = (number, None)
        if long:
            return number, "syntax"
        if w[0] == "vertices":
            if len(w) != 2 or not is_vertex(w[1]) or not first:
                return number, "syntax"
            if int(w[1]) > p["vertices"]:
                return number, "vertex"
            count, first = int(w[1]), False
            continue
        first = False
        limit = p["vertices"] if count is None else count
        if w[0] == "attr":
            if len(w) != 3 or not is_vertex(w[1]) or not is_whole(w[2]):
                return number, "syntax"
            u, a = int(w[1]), int(w[2])
            if u >= limit:
                return number, "vertex"
            if not p["attr"][0] <= a <= p["attr"][1]:
                return number, "attribute"
            if u in attrs:
                return number, "present"
            attrs[u], named = a, max(named, u)
            continue
        if len(w) not in (2, 3) or not all(map(is_vertex, w[:2])) or not all(map(is_whole, w[2:])):
            return number, "syntax"
        u, v, weight = int(w[0]), int(w[1]), int(w[2]) if len(w) == 3 else 1
        if u >= limit or v >= limit:
            return number, "vertex"
        cause = new_edge_cause(p, graph, u, v, weight)
        if cause:
            return number, cause
        graph.edges[(u, v)], named = weight, max(named, u, v)
    n = named + 1 if count is None else count
    graph.attrs = [attrs.get(v, 0) for v in range(n)]
    return graph


def read_batches(text):
    """The batches: first line, edits with their lines, and the bad line if there is one."""
    out, edits, first, bad = [], [], None, None
    for number, line in enumerate(split_lines(text), 1):
        w = words_of(line)
        long = len(line.encode()) - line.endswith("\r") > 255
        if not w and not long:
            continue
        first = first or number
        if w == ["commit"] and not long:
            out.append((first, edits, bad))
            edits, first, bad = [], None, None
            continue
        edit = None
        if not long and w[0] == "+" and len(w) in (3, 4):
            if all(map(is_vertex, w[1:3])) and all(map(is_whole, w[3:])):
                edit = ("+", int(w[1]), int(w[2]), int(w[3]) if len(w) == 4 else 1)
        elif not long and w[0] == "-" and len(w) == 3 and all(map(is_vertex, w[1:])):
            edit = ("-", int(w[1]), int(w[2]))
        elif not long and w[0] == "v" and len(w) == 3 and is_vertex(w[1]) and is_whole(w[2]):
            edit = ("v", int(w[1]), int(w[2]))
        if bad is None:
            if edit is None:
                bad = (number, "syntax")
            else:
                edits.append((number, edit))
    if first:
        out.append((first, [], (first, "unfinished")))
    return out


def edit_cause(p, room, graph, edit):
    n = len(graph.attrs)
    if edit[0] == "v":
        if edit[1] > n or edit[1] == n and n >= room:
            return "vertex"
        return None if p["attr"][0] <= edit[2] <= p["attr"][1] else "attribute"
    if edit[1] >= n or edit[2] >= n:
        return "vertex"
    if edit[0] == "+":
        return new_edge_cause(p, graph, *edit[1:])
    return None if edit[1:] in graph.edges else "absent"


def changed(p, room, graph, batch):
    """The graph after a batch, or the line and the cause of its refusal."""
    graph = graph.copy()
    for number, edit in batch[1]:
        cause = edit_cause(p, room, graph, edit)
        if cause:
            return number, cause
        if edit[0] == "+":
            graph.edges[edit[1:3]] = edit[3]
        elif edit[0] == "-":
            del graph.edges[edit[1:]]
        elif edit[1] == len(graph.attrs):
            graph.attrs.append(edit[2])
        else:
            graph.attrs[edit[1]] = edit[2]
    return batch[2] or graph


# Rows, kept entries and visits ----------------------------------------------------------------

def rows_of(p, graph):
    """For each iteration the aggregates and the values of all vertices."""
    outs, ins = {}, {v: [] for v in range(len(graph.attrs))}
    for (u, v), w in graph.edges.items():
        outs[u] = outs.get(u, 0) + 1
        ins[v].append((u, w))
    lanes = range(len(p["lanes"]))
    rows = [([tuple(0 for _ in lanes)] * len(graph.attrs),
             [tuple(ev(e, {"attr": a, "id": v}) for e in p["init"])
              for v, a in enumerate(graph.attrs)])]
    for _ in range(p["rounds"]):
        before = rows[-1][1]
        aggs, vals = [], []
        for v, a in enumerate(graph.attrs):
            given = [[ev(e, {"val": before[u], "outdeg": outs[u], "weight": w,
                             "attr": graph.attrs[u], "id": u}) for e in p["contribute"]]
                     for u, w in ins[v]]
            if p["combine"] == "sum":
                agg = tuple(sum(g[k] for g in given) for k in lanes)
            else:
                best = min if p["combine"] == "min" else max
                agg = tuple(best([p["start"]] + [g[k] for g in given]) for k in lanes)
            aggs.append(agg)
            vals.append(tuple(ev(e, {"agg": agg, "old": before[v], "attr": a, "id": v})
                              for e in p["apply"]))
        rows.append((aggs, vals))
    return rows


def kept_of(rows, cut, vertical):
    total = 0
    for v in range(len(rows[0][1])):
        entries = [(rows[i][0][v], rows[i][1][v]) for i in range(cut + 1)]
        s = cut
        while vertical and s > 0 and entries[s - 1] == entries[cut]:
            s -= 1
        total += s
    return total


def visits_of(p, g, h, old, new, cut):
    removed = [e for e in g.edges.items() if h.edges.get(e[0]) != e[1]]
    added = [e for e in h.edges.items() if g.edges.get(e[0]) != e[1]]
    n = len(g.attrs)
    by_degree, by_attr = reads(p, "outdeg"), reads(p, "attr")
    outdeg, indeg = {}, {}
    for u, v in h.edges:
        outdeg[u] = outdeg.get(u, 0) + 1
        indeg[v] = indeg.get(v, 0) + 1
    degree_changed = [g.outdeg(v) != outdeg.get(v, 0) for v in range(n)]
    is_sum, total = p["combine"] == "sum", 0

    def ends(sources):
        return {d for s, d in h.edges if s in sources}

    for i in range(1, p["rounds"] + 1):
        if i <= cut:
            items = {v for v in range(n) if old[i - 1][1][v] != new[i - 1][1][v]
                     or by_degree and degree_changed[v]
                     or by_attr and g.attrs[v] != h.attrs[v]}
            targets = {d for (_, d), _ in removed + added} | ends(items)
            total += len(removed) + len(added) if is_sum else 0
        else:
            items = {v for v in range(len(h.attrs)) if new[i - 1][1][v] != new[i - 2][1][v]}
            targets = ends(items)
        total += sum(outdeg.get(v, 0) for v in items)
        total += 0 if is_sum else sum(indeg.get(v, 0) for v in targets)
    return len(added), len(removed), total


# Output ---------------------------------------------------------------------------------------

def line(*words):
    return " ".join(map(str, words)) + "\n"


def totals(p, answer):
    return "".join(line("total", k, sum(x[k] for x in answer)) for k in range(len(p["lanes"])))


def opened(p, graph_text, cut):
    graph = read_graph(p, graph_text)
    if isinstance(graph, tuple):
        return graph, (f"graph refused line {graph[0]} {graph[1]}\n", 4)
    room = min(p["vertices"], 2 * len(graph.attrs) + 1024)
    need = room * len(p["lanes"]) * (cut + 1)
    if need > CELLS:
        return graph, (f"graph refused cells {need} limit {CELLS}\n", 4)
    return graph, None


def once(p, graph_text, show=True):
    graph, refusal = opened(p, graph_text, 1)
    if isinstance(graph, tuple):
        return refusal
    answer = rows_of(p, graph)[-1][1]
    text = line("once vertices", len(graph.attrs), "edges", len(graph.edges), "visits",
                p["rounds"] * len(graph.edges))
    if show:
        text += "".join(line("value", v, *x) for v, x in enumerate(answer))
    return text + totals(p, answer), 0


def run(p, graph_text, stream_text, cut=None, vertical=True, show=True):
    """The text of `run` and its status, where the program is accepted."""
    cut = min(p["rounds"], cut or 10)
    graph, refusal = opened(p, graph_text, cut)
    if refusal:
        return refusal
    room = min(p["vertices"], 2 * len(graph.attrs) + 1024)
    rows = rows_of(p, graph)
    text = line("open vertices", len(graph.attrs), "edges", len(graph.edges), "kept",
                kept_of(rows, cut, vertical), "visits", p["rounds"] * len(graph.edges))
    if show:
        text += "".join(line("value", v, *x) for v, x in enumerate(rows[-1][1]))
    accepted = refused = 0
    for number, batch in enumerate(read_batches(stream_text), 1):
        after = changed(p, room, graph, batch)
        if isinstance(after, tuple):
            refused += 1
            text += line("batch", number, "refused line", *after)
            continue
        accepted += 1
        new = rows_of(p, after)
        added, removed, visits = visits_of(p, graph, after, rows, new, cut)
        text += line("batch", number, "accepted added", added, "removed", removed, "edges",
                     len(after.edges), "kept", kept_of(new, cut, vertical), "visits", visits)
        if show:
            was = rows[-1][1]
            text += "".join(line("set", v, *x) for v, x in enumerate(new[-1][1])
                            if v >= len(was) or was[v] != x)
        graph, rows = after, new
    text += totals(p, rows[-1][1]) + line("end accepted", accepted, "refused", refused)
    return text, 1 if refused else 0
