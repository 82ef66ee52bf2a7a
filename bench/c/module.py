"""Tries the Python module examples/python/monastr.py: bench/c/try calls it. It ends with 1 where something differs."""
import pathlib, sys, threading

sys.path.insert(0, str(pathlib.Path(__file__).resolve().parents[2] / "examples" / "python"))
import monastr
from monastr import Assignment, Place, Refused

found = []


def same(name, came, wanted):
    if came != wanted: found.append(f"{name}: {came!r}, and {wanted!r} is wanted")


def refusal(call, *args, **more):
    try: return call(*args, **more)
    except Refused as refused: return refused.number, refused.place, refused.detail, refused.status, refused.line


none = frozenset()
decision = monastr.decide("ws1s; var2 P, Q; P sub Q;")
same("verdict", decision.verdict, "contingent")
same("example", decision.example, Assignment(0, {"P": none, "Q": none}))
same("counterexample", decision.counterexample, Assignment(1, {"P": frozenset({0}), "Q": none}))
mixed = monastr.decide("var0 b; var1 x; var2 S; b & x = 3 & S = {1, 4};")
same("values", mixed.example.values, {"b": True, "x": 3, "S": frozenset({1, 4})})
goals = monastr.decide('true; goal "some number" ex1 x: x = 3;', stats=True)
same("goals", [(goal.title, goal.verdict, goal.counterexample) for goal in goals.goals], [("some number", "valid", None)])
same("counts", sorted(goals.counts), ["depth", "files", "nodes", "size", "states"])
only = monastr.decide('goal "none" ~ true;')
same("only a goal", (only.main, only.verdict), (None, "unsatisfiable"))
exported = monastr.decide('var2 P, Q; export("sub.dfa", P sub Q); true;', out="main.dfa")
same("files", list(exported.files), ["sub.dfa", "main.dfa"])
imported = monastr.decide('var2 A, B; import("sub.dfa", P -> A, Q -> B) => A sub B;', {"sub.dfa": exported.files["sub.dfa"]})
same("import", imported.verdict, "valid")
same("include", monastr.decide('include "p.mona"; p;', {"p.mona": "pred p = true;"}).verdict, "valid")
same("same", (monastr.same("var2 P, Q; P = Q;", "var2 P, Q; P sub Q & Q sub P;"), monastr.same("var2 P; true;", "var2 P; empty(P);")), (True, False))
trace = monastr.ltl("p U q;")
same("ltl", (trace.verdict, trace.example, trace.counterexample),
     ("contingent", Assignment(1, {"p": none, "q": frozenset({0})}), Assignment(1, {"p": none, "q": none})))
sums = monastr.presburger("x + y = 3 & x < y;")
same("presburger", (sums.verdict, sums.example), ("contingent", Assignment(2, {"x": 0, "y": 3})))
certified = monastr.certify("var2 P, Q; P sub Q;", "f")
same("certify", list(certified.files), ["f", "f.cert"])
same("check", monastr.check(certified.files["f"], certified.files["f.cert"]), monastr.Checked(2, 0, 1))
same("no certificate", refusal(monastr.check, certified.files["f"], "x")[0], 46)
same("generate", monastr.generate(2).startswith("ws1s;\n"), True)
same("unknown name", refusal(monastr.decide, "var2 A; A sub B;", name="t.mona"),
     (20, Place("t.mona", 14), "B", 2, "20 unknown name at t.mona:14: B"))
same("a name with a colon", refusal(monastr.decide, "true; /* open", name="a:1 at b")[:2], (13, Place("a:1 at b", 6)))
same("a limit", refusal(monastr.decide, "var2 P, Q; P sub Q;", max_nodes=1)[0], 54)
same("no file", refusal(monastr.run, ["decide", "none"]), (30, None, "none", 2, "30 no such file: none"))
same("no command", refusal(monastr.run, ["decide"])[0::3], (None, 1))
same("no text", refusal(monastr.run, ["\ud800"])[0::3], (None, 9))
same("bytes", refusal(monastr.decide, b"\xff")[0], 10)
long = monastr.decide("ex1 x: x = 0;", {f"{i}.mona": "true;" for i in range(2000)})
same("many files", long.verdict, "valid")
large = monastr.run(["gen", "2000"])
same("a long text", len(large.text) > 1 << 14, True)

wanted = [monastr.decide(f"var1 x; x = {n};", name="t").text for n in range(20)]


def decide_all():
    for n, text in enumerate(wanted): same("threads", monastr.decide(f"var1 x; x = {n};", name="t").text, text)


threads = [threading.Thread(target=decide_all) for _ in range(4)]
for thread in threads: thread.start()
for thread in threads: thread.join()

print(f"python: {'all requests as they must be' if not found else ''}", *found, sep="\n  " if found else "")
sys.exit(bool(found))
