#!/usr/bin/env python3
"""Writes problems of rising size, the same at each run.

usage: inputs.py FOLDER [--family NAME].. [--largest SIZE]

FOLDER/NAME-SIZE gets domain.hddl and problem.hddl, and plan.txt where the family is one of plans to verify. The domains
are those of examples/ and of bench/domains/, or are made with the problem."""
import argparse
import os
import random

HERE = os.path.dirname(os.path.abspath(__file__))
FAMILIES = {}


def texts(largest):
    """A family of texts by their files' names, by sizes from 1 to the largest."""

    def add(make):
        FAMILIES[make.__name__.replace("_", "-")] = (largest, make)
        return make

    return add


def domain_of(name):
    """The text of a domain that is kept."""
    for path in (f"{HERE}/domains/{name}.hddl", f"{HERE}/../examples/{name}/domain.hddl"):
        if os.path.isfile(path):
            with open(path, encoding="utf-8") as file:
                return file.read()
    raise FileNotFoundError(name)


def family(domain, largest):
    """A family of problems for a domain that is kept."""

    def add(make):
        def both(size):
            return {"domain.hddl": domain_of(domain), "problem.hddl": make(size)}

        both.__name__ = make.__name__
        return texts(largest)(both)

    return add


def names(kind, count):
    return [f"{kind}-{number}" for number in range(1, count + 1)]


def problem(domain, objects, tasks, facts, goal=(), ordered=True):
    """The text of a problem. Objects are lists by type, the rest are lists of formulas without their brackets."""
    lists = "".join(f"\n    {' '.join(found)} - {kind}" for kind, found in objects.items() if found)
    subtasks = "\n    ".join(f"({task})" for task in tasks)
    initial = "\n    ".join(f"({fact})" for fact in facts)
    wanted = f"\n  (:goal (and {' '.join(f'({fact})' for fact in goal)}))" if goal else ""
    key = ":ordered-subtasks" if ordered else ":subtasks"
    return (
        f"(define (problem generated)\n  (:domain {domain})\n  (:objects{lists})\n"
        f"  (:htn {key} (and\n    {subtasks}))\n  (:init\n    {initial}){wanted})\n"
    )


def roads(chance, places, more):
    """A connected graph, as pairs in both directions."""
    edges = {(places[chance.randrange(max(0, at - 3), at)], places[at]) for at in range(1, len(places))}
    for _ in range(more):
        edges.add(tuple(sorted(chance.sample(places, 2))))
    return sorted(edges | {(there, here) for here, there in edges})


def transport(size, trucks, packages, ordered):
    chance = random.Random(size)
    places, vehicles, parcels = names("place", 3 + size), names("truck", trucks), names("package", packages)
    facts = [f"road {here} {there}" for here, there in roads(chance, places, size)]
    facts += [f"at {it} {chance.choice(places)}" for it in vehicles + parcels]
    tasks = [f"deliver {it} {chance.choice(places)}" for it in parcels]
    objects = {"location": places, "vehicle": vehicles, "package": parcels}
    return problem("transport", objects, tasks, facts, ordered=ordered)


@family("transport", 12)
def transport_in_order(size):
    return transport(size, 1 + size // 3, 1 + size // 2, True)


@family("transport", 8)
def transport_in_any_order(size):
    return transport(size, 1 + size // 3, 1 + size // 2, False)


@family("delivery", 12)
def delivery(size):
    chance = random.Random(size)
    places, trucks = names("place", 3 + size // 2), names("truck", 1 + size // 5)
    packages, rooms = names("package", 1 + size // 2), names("room", 3)
    facts = [f"road {here} {there}" for here, there in roads(chance, places, size // 2)]
    facts += [f"next {less} {more}" for less, more in zip(rooms, rooms[1:])]
    facts += [f"at {it} {chance.choice(places)}" for it in trucks]
    facts += [f"free {it} {chance.choice(rooms[1:])}" for it in trucks]
    facts += [f"lies {it} {chance.choice(places)}" for it in packages]
    tasks = [f"deliver {it} {chance.choice(places)}" for it in packages]
    objects = {"place": places, "truck": trucks, "package": packages, "room": rooms}
    return problem("delivery", objects, tasks, facts)


@family("factories", 8)
def factories(size):
    chance = random.Random(size)
    places, trucks = names("place", 2 + size), names("truck", 1 + size // 4)
    found, goods = names("factory", 1 + size), names("goods", 1 + size)
    facts = [f"road {here} {there}" for here, there in roads(chance, places, size // 2)]
    facts += [f"at {it} {chance.choice(places)}" for it in trucks] + [f"empty {it}" for it in trucks]
    facts += [f"makes {factory} {it}" for factory, it in zip(found, goods)]
    facts += [f"site {factory} {places[at % len(places)]}" for at, factory in enumerate(found)]
    facts += [f"needs-nothing {found[0]}", f"built {found[0]}"]
    facts += [f"needs {factory} {it}" for factory, it in zip(found[1:], goods)]
    facts += [f"built-of {factory} {it}" for factory, it in zip(found[1:], goods)]
    objects = {"place": places, "truck": trucks, "goods": goods, "factory": found}
    return problem("factories", objects, [f"build {it}" for it in found[1:]], facts)


@family("satellite", 10)
def satellite(size):
    chance = random.Random(size)
    count = 1 + size // 3
    satellites, modes = names("satellite", count), names("mode", 3)
    instruments, stars, images = names("instrument", 2 * count), names("star", 2), names("image", 1 + size)
    facts = [f"power-available {it}" for it in satellites]
    facts += [f"pointing {it} {chance.choice(stars + images)}" for it in satellites]
    for place, instrument in enumerate(instruments):
        facts.append(f"on-board {instrument} {satellites[place // 2]}")
        facts.append(f"calibration-target {instrument} {chance.choice(stars)}")
        facts += [f"supports {instrument} {mode}" for mode in chance.sample(modes, 2)]
    facts += [f"supports {instruments[0]} {mode}" for mode in modes if f"supports {instruments[0]} {mode}" not in facts]
    tasks = [f"observe {it} {chance.choice(modes)}" for it in images]
    objects = {"satellite": satellites, "instrument": instruments, "mode": modes}
    objects |= {"calibration-direction": stars, "image-direction": images}
    return problem("satellite", objects, tasks, facts, ordered=False)


@family("rover", 10)
def rover(size):
    chance = random.Random(size)
    places, rovers = names("waypoint", 3 + size), names("rover", 1 + size // 4)
    stores, cameras = names("store", len(rovers)), names("camera", len(rovers))
    objectives, soil = names("objective", 1 + size // 3), chance.sample(places, 1 + size // 3)
    facts = [f"can-cross {here} {there}" for here, there in roads(chance, places, size)]
    facts += [f"at {it} {chance.choice(places)}" for it in rovers] + [f"at-lander lander {places[0]}"]
    facts += [f"store-of {store} {it}" for store, it in zip(stores, rovers)]
    facts += [f"on-board {camera} {it}" for camera, it in zip(cameras, rovers)]
    facts += [f"soil-at {it}" for it in soil] + [f"seen-from {it} {chance.choice(places)}" for it in objectives]
    facts += [f"visible {it} {places[0]}" for it in places[1:3]]
    tasks = [f"get-soil-data {it}" for it in soil] + [f"get-picture-data {it}" for it in objectives]
    objects = {"waypoint": places, "rover": rovers, "store": stores, "camera": cameras}
    objects |= {"objective": objectives, "lander": ["lander"]}
    return problem("rover", objects, tasks, facts)


@family("blocks", 20)
def blocks(size):
    chance = random.Random(size)
    found, facts, free = names("block", 2 + size), ["hand-empty"], []
    for block in chance.sample(found, len(found)):
        below = chance.choice([*free, None])
        facts.append(f"on {block} {below}" if below else f"on-table {block}")
        free = [it for it in free if it != below] + [block]
    facts += [f"clear {it}" for it in free]
    tower = chance.sample(found, min(len(found), 2 + size // 2))
    goal = [f"on {above} {below}" for below, above in zip(tower, tower[1:])]
    tasks = [f"make-clear {it}" for it in tower] + [f"put-{it}" for it in goal]
    return problem("blocks", {"block": found}, tasks, facts, goal)


@family("hanoi", 10)
def hanoi(size):
    disks, pegs = names("disk", size), ["left", "middle", "right"]
    facts = [f"on {disks[-1]} left"] + [f"on {above} {below}" for above, below in zip(disks, disks[1:])]
    facts += [f"clear {disks[0]}", "clear middle", "clear right"]
    for place, disk in enumerate(disks):
        facts += [f"fits {disk} {it}" for it in pegs + disks[place + 1 :]]
    return problem("hanoi", {"peg": pegs, "disk": disks}, [f"move-tower {disks[-1]} left right middle"], facts)


@family("snacks", 8)
def snacks(size):
    chance = random.Random(size)
    children, places = names("child", size), names("table", 2)
    allergic = children[: size // 2]
    breads, contents, sandwiches = names("bread", size), names("content", size), names("sandwich", size)
    facts = ["at tray-1 kitchen"] + [f"not-made {it}" for it in sandwiches]
    facts += [f"bread-left {it}" for it in breads] + [f"content-left {it}" for it in contents]
    facts += [f"allergic {it}" for it in allergic] + [f"waits {it} {chance.choice(places)}" for it in children]
    facts += [f"bread-without-gluten {it}" for it in breads[: len(allergic)]]
    facts += [f"content-without-gluten {it}" for it in contents[: len(allergic)]]
    objects = {"child": children, "bread": breads, "content": contents, "sandwich": sandwiches}
    objects |= {"tray": ["tray-1"], "place": places}
    return problem("snacks", objects, [f"serve {it}" for it in children], facts, ordered=False)


@family("workshop", 8)
def workshop(size):
    chance = random.Random(size)
    parts, boards, colours = names("part", size), names("board", size), names("colour", 2)
    facts = ["saw-free", "sprayer-empty"] + [f"raw {it}" for it in parts]
    for place, part in enumerate(parts):
        facts += [f"fits {part} {it}" for it in sorted({boards[place], chance.choice(boards)})]
    tasks = [f"finish {it} {chance.choice(colours)}" for it in parts]
    return problem("workshop", {"part": parts, "board": boards, "colour": colours}, tasks, facts, ordered=False)


@family("transport", 6)
def many_facts(size):
    """One package in a town, and ten thousand roads a size elsewhere."""
    near, far = names("place", 6), names("far", 100 * size)
    facts = [f"road {here} {there}" for here, there in roads(random.Random(0), near, 2)]
    facts += [f"road {far[at]} {far[(at * 7 + step) % len(far)]}" for at in range(len(far)) for step in range(100)]
    facts += ["at truck place-1", "at package place-4"]
    objects = {"location": near + far, "vehicle": ["truck"], "package": ["package"]}
    return problem("transport", objects, ["deliver package place-6"], facts)


def lines(head, found, tail):
    return "\n".join([head, *found, tail, ""])


@texts(6)
def many_methods(size):
    """Texts that are long, and a plan of no node: 10,000 methods and 50,000 facts a size."""
    methods = [
        f"  (:method m-{at} :parameters (?t - truck ?a ?b ?p - place) :task (go ?t ?p)"
        " :precondition (and (at ?t ?a) (road ?a ?b)))"
        for at in range(10_000 * size)
    ]
    head = "(define (domain d) (:types place truck) (:predicates (road ?a ?b - place) (at ?t - truck ?p - place))"
    facts = [f"  (road place-{at % 1000} place-{at // 1000})" for at in range(50_000 * size)]
    places = " ".join(f"place-{at}" for at in range(1000))
    start = f"(define (problem p) (:domain d) (:objects {places} - place) (:htn :subtasks ()) (:init"
    return {
        "domain.hddl": lines(f"{head}\n  (:task go :parameters (?t - truck ?p - place))", methods, ")"),
        "problem.hddl": lines(start, facts, "))"),
    }


def with_no_task(head, found, tail):
    """A domain of these lines, and a problem without tasks."""
    no_task = "(define (problem p) (:domain d) (:htn :subtasks ()))\n"
    return {"domain.hddl": lines(head, found, tail), "problem.hddl": no_task}


@texts(6)
def type_chain(size):
    """10,000 types a size, each below the one before it, and as many uses of the last where the first may stand."""
    count = 10_000 * size
    types = [f"  type-{at} - type-{at - 1}" for at in range(1, count)]
    uses = ["  (known ?x)"] * count
    middle = f") (:predicates (known ?x - type-0)) (:action look :parameters (?x - type-{count - 1}) :precondition (and"
    return with_no_task("(define (domain types) (:types", [*types, middle, *uses], ")))")


@texts(6)
def type_ladder(size):
    """10,000 types a size, each below the two before it, and a use of the last where each may stand."""
    count = 10_000 * size
    types = [f"  type-{at} - type-{at - 1} type-{at} - type-{at - 2}" for at in range(2, count)]
    places = [f"  (known-{at} ?x - type-{at})" for at in range(count)]
    uses = [f"  (known-{at} ?x)" for at in range(count)]
    middle = f") (:action look :parameters (?x - type-{count - 1}) :precondition (and"
    found = [*types, ") (:predicates", *places, middle, *uses]
    return with_no_task("(define (domain types) (:types type-1 - type-0", found, ")))")


@texts(10)
def sets(size):
    """Two unordered actions a size, each of which makes a fact, and a goal that none makes: each set is searched."""
    count = 2 * size
    facts = " ".join(f"(made-{at})" for at in range(count))
    actions = [f"  (:action make-{at} :effect (made-{at}))" for at in range(count)]
    tasks = " ".join(f"(make-{at})" for at in range(count))
    return {
        "domain.hddl": lines(f"(define (domain sets) (:predicates (never) {facts})", actions, ")"),
        "problem.hddl": f"(define (problem all) (:domain sets) (:goal (never)) (:htn :subtasks (and {tasks})))\n",
    }


def ring(size, literals, constraint=""):
    """A method over four places of a ring of 500 a size."""
    count = 500 * size
    roads_of = [f"  (road place-{at} place-{(at + 7) % count})" for at in range(count)]
    places = " ".join(f"place-{at}" for at in range(count))
    start = f"(define (problem ring) (:domain places) (:htn :subtasks (go)) (:objects {places}) (:init"
    return {
        "domain.hddl": (
            "(define (domain places) (:predicates (road ?from ?to)) (:task go :parameters ())\n"
            f"  (:method along :parameters (?a ?b ?c ?d) :task (go) :precondition (and {literals}) :subtasks ()\n"
            f"    :constraints ({constraint})))\n"
        ),
        "problem.hddl": lines(start, roads_of, "))"),
    }


@texts(6)
def ring_forwards(size):
    """The literals join each parameter to the one before."""
    return ring(size, "(road ?a ?b) (road ?b ?c) (road ?c ?d)")


@texts(6)
def ring_backwards(size):
    """The same, with the later parameter first."""
    return ring(size, "(road ?b ?a) (road ?c ?b) (road ?d ?c)")


@texts(6)
def ring_apart(size):
    """The same, where two that no literal joins have to differ."""
    return ring(size, "(road ?a ?b) (road ?b ?c) (road ?c ?d)", "not (= ?b ?d)")


@texts(5)
def nested_forall(size):
    """40,000 atoms a size below 55 nested `forall` of 32 variables each."""
    heads = [
        f"  (forall ({' '.join(f'?v-{depth}-{at}' for at in range(32))})" for depth in range(55)
    ]
    atoms = ["    (known ?v-54-31)"] * (40_000 * size)
    head = "(define (domain d) (:predicates (known ?x)) (:action look :precondition"
    return with_no_task(head, [*heads, "  (and", *atoms, "  )"], ")" * 55 + "))")


@texts(5)
def objects_below(size):
    """4,000 objects a size, each of the last of as many types that are each below the one before."""
    count = 4_000 * size
    types = [f"  type-{at} - type-{at - 1}" for at in range(1, count)]
    objects = [f"  thing-{at}" for at in range(count)]
    tail = f"  - type-{count - 1}) (:predicates (known ?x - type-0)))"
    return with_no_task("(define (domain d) (:types", [*types, ") (:constants", *objects], tail)


def one_task(size, things, method, atoms=""):
    """A task with a method over so many things a size, which an action does."""
    found = " ".join(f"thing-{at}" for at in range(things * size))
    return {
        "domain.hddl": (
            "(define (domain d) (:predicates (wanted ?x)) (:task go :parameters ()) (:action act)\n"
            f"  (:method way :task (go) {method} :subtasks (act)))\n"
        ),
        "problem.hddl": f"(define (problem p) (:domain d) (:objects {found}) (:htn :subtasks (go)) (:init {atoms}))\n",
    }


@texts(4)
def dead_instances(size):
    """A method of eight parameters of which no instance can ever be carried out, over 64 things a size."""
    return one_task(size, 64, ":parameters (?a ?b ?c ?d ?e ?f ?g ?h) :precondition (wanted ?a)")


@texts(6)
def different_parameters(size):
    """A method of five parameters of which no two may be equal, over 100 things a size."""
    names_of = "abcde"
    unequal = [f"(not (= ?{one} ?{other}))" for one in names_of for other in names_of if one < other]
    return one_task(size, 100, f":parameters (?a ?b ?c ?d ?e) :precondition (and {' '.join(unequal)})")


@texts(6)
def hidden_parameters(size):
    """A method of four parameters that stand nowhere else, over 60 things a size."""
    return one_task(size, 60, ":parameters (?a ?b ?c ?d)")


def row(count, task):
    """So many tasks of one kind, one after another: `up` and `down` in turn, or `both`, which is one of each."""
    domain = (
        "(define (domain row)\n  (:predicates (p) (q) (r))\n  (:task both)\n"
        "  (:method m-both :task (both) :ordered-subtasks (and (up) (down)))\n"
        "  (:action up :precondition (and (not (p))) :effect (and (p) (q)))\n"
        "  (:action down :precondition (and (p)) :effect (and (not (p)) (r))))\n"
    )
    tasks = [task[at % len(task)] for at in range(count)]
    return {"domain.hddl": domain, "problem.hddl": problem("row", {}, tasks, [])}


@texts(9)
def actions_in_a_row(size):
    """1,100 actions a size, one after another."""
    return row(1_100 * size, ["up", "down"])


@texts(9)
def tasks_in_a_row(size):
    """360 compound tasks a size, one after another, each of two actions."""
    return row(360 * size, ["both"])


def nested(size, subtasks):
    """A task of an action and of itself, 360 deep a size."""
    count = 360 * size
    domain = (
        "(define (domain deep)\n  (:types number)\n"
        "  (:predicates (next ?a ?b - number) (end ?a - number) (p) (q))\n  (:task go :parameters (?a - number))\n"
        "  (:method m-stop :parameters (?a - number) :task (go ?a) :precondition (and (end ?a)) :subtasks ())\n"
        "  (:method m-go :parameters (?a ?b - number) :task (go ?a) :precondition (and (next ?a ?b))\n"
        f"    :ordered-subtasks (and {subtasks}))\n"
        "  (:action flip :effect (and (p) (not (q)))))\n"
    )
    facts = [f"next n-{at} n-{at + 1}" for at in range(1, count)] + [f"end n-{count}"]
    return {"domain.hddl": domain, "problem.hddl": problem("deep", {"number": names("n", count)}, ["go n-1"], facts)}


@texts(9)
def nested_first(size):
    """The task itself comes first: the network grows to all of the actions."""
    return nested(size, "(go ?b) (flip)")


@texts(9)
def nested_last(size):
    """The task itself comes last."""
    return nested(size, "(flip) (go ?b)")


@texts(6)
def long_plan(size):
    """A plan to verify: 50,000 nested decompositions a size, each with an action."""
    count = 50_000 * size
    actions = [f"{at} tick" for at in range(count)]
    tasks = [f"{count + at} count -> more {at} {count + at + 1}" for at in range(count)]
    domain = (
        "(define (domain counting) (:task count :parameters ())\n"
        "  (:action tick)\n"
        "  (:method more :task (count) :ordered-subtasks (and (tick) (count)))\n"
        "  (:method stop :task (count) :subtasks ()))\n"
    )
    problem_text = "(define (problem p) (:domain counting) (:htn :subtasks (count)))\n"
    plan = lines("==>", [*actions, f"root {count}", *tasks, f"{2 * count} count -> stop"], "<==")
    return {"domain.hddl": domain, "problem.hddl": problem_text, "plan.txt": plan}


def main():
    words = argparse.ArgumentParser(description=__doc__, formatter_class=argparse.RawDescriptionHelpFormatter)
    words.add_argument("folder")
    words.add_argument("--family", action="append", choices=sorted(FAMILIES))
    words.add_argument("--largest", type=int, default=99)
    given = words.parse_args()
    for name in given.family or FAMILIES:
        largest, make = FAMILIES[name]
        for size in range(1, min(largest, given.largest) + 1):
            folder = f"{given.folder}/{name}-{size}"
            os.makedirs(folder, exist_ok=True)
            for file, text in make(size).items():
                with open(f"{folder}/{file}", "w", encoding="utf-8") as out:
                    out.write(text)


main()
