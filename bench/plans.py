"""The plans that the benchmarks run: each of the three algorithms at 3, 5, 13 and 21 nodes."""

ALGORITHMS = ("ricart", "maekawa", "raymond")
SIZES = (3, 5, 13, 21)


def plan(algorithm, size):
    """Maekawa's arbiters are pairs at 3 nodes, all nodes at 2 and 5, else those of a plane. Raymond's tree is binary."""
    names = ["n%d" % i for i in range(size)]
    made = {"algorithm": algorithm, "nodes": names, "registers": ["count"], "sections": 1000000}
    if algorithm == "maekawa" and size == 3:
        made["quorums"] = {"kind": "listed", "sets": [["n0", "n1"], ["n1", "n2"], ["n2", "n0"]]}
    elif algorithm == "maekawa" and size in (2, 5):
        made["quorums"] = {"kind": "grid", "rows": 1, "cols": size}
    elif algorithm == "maekawa":
        made["quorums"] = {"kind": "plane"}
    elif algorithm == "raymond":
        made["edges"] = [[names[(i - 1) // 2], names[i]] for i in range(1, size)]
        made["holder"] = "n0"
    return made
