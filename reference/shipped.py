"""The shipped programs `rank`, `labels2` and `dist` for the plain reference."""


def base(name, **more):
    p = {"name": name, "vertices": 1000000, "degree": 1000000, "edges": 8000000,
         "weight": (-1000000, 1000000), "attr": (-1000000, 1000000), "rounds": 10,
         "combine": "sum"}
    p.update(more)
    return p


def label(k, lanes):
    whole = ("agg", 0)
    for other in range(1, lanes):
        whole = ("+", whole, ("agg", other))
    share = ("clamp", ("/", ("*", ("agg", k), 1000000), ("max", whole, 1)), 0, 1000000)
    return ("if", "=", ("attr",), k + 1, 1000000, ("if", "<", 0, ("attr",), 0, share))


def labels(lanes):
    return base(f"labels{lanes}", weight=(1, 1000), attr=(0, lanes), lanes=[(0, 1000000)] * lanes,
                init=[("if", "=", ("attr",), k + 1, 1000000, 0) for k in range(lanes)],
                contribute=[("*", ("val", k), ("weight",)) for k in range(lanes)],
                apply=[label(k, lanes) for k in range(lanes)])


RANK = base("rank", lanes=[(0, 10 ** 12)], init=[1000000],
            contribute=[("/", ("val", 0), ("outdeg",))],
            apply=[("clamp", ("+", 150000, ("/", ("*", ("agg", 0), 17), 20)), 0, 10 ** 12)])
DIST = base("dist", weight=(0, 1000000), attr=(0, 1), rounds=16, combine="min", start=10 ** 15,
            lanes=[(0, 10 ** 15)], init=[("if", "=", ("attr",), 1, 0, 10 ** 15)],
            contribute=[("min", ("+", ("val", 0), ("weight",)), 10 ** 15)],
            apply=[("min", ("old", 0), ("agg", 0))])
SHIPPED = {"rank": RANK, "labels2": labels(2), "labels4": labels(4), "dist": DIST}
