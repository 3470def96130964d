"""What a further one of something costs, where there are few, more and many of them: a line for each.

Instructions of the whole process, by callgrind. What a further one costs at a size is what each of the second half of
so many takes: the difference of two runs, of which one has half as many. All of a kind are written in as many bytes.
Where nothing grows it is the same at each size; the last column says how many times the cost at the first size one is
at the last.
"""

import os

from instructions import environment, instructions, module

SIZES = (10, 100, 1_000)
FEW = (5, 50, 500)

# How many times the cost at the first size is asked for at most.
MOST = 1.5

# A modulefile may run 100,000 commands, and a turn of a loop has three.
MOST_TURNS = 30_000

# How a further name, path or number is written: by as many bytes as each other.
WIDTH = 5


class Growing:
    """What grows, its sizes, and what makes the words and the environment of a command for a size below a folder."""

    def __init__(self, title, sizes, command):
        self.title, self.sizes, self.command = title, sizes, command


def each(form, size):
    """The form, filled in by each of the numbers below a size."""
    return "".join(form.format(f"{number:0{WIDTH}}") for number in range(size))


def evaluated(title, sizes, text):
    """The load of a module whose text a size makes."""

    def command(folder, size):
        name = f"{title.replace(' ', '_').replace(',', '')}/{size:0{2 * WIDTH}}"
        module(folder, name, text(size))
        return ["load", name], environment(folder)

    return Growing(title, sizes, command)


def names_of_one_load(folder, size):
    names = [f"n{number:0{WIDTH}}/1.0" for number in range(size)]
    for name in names:
        module(folder, name, f"setenv {name[:-4].upper()} on\n")
    return ["load", *names], environment(folder)


def loaded(folder, names):
    """The environment in which modules are loaded."""
    files = [os.path.join(folder, "m", name) for name in names]
    return {**environment(folder), "LOADEDMODULES": ":".join(names), "_LMFILES_": ":".join(files)}


def beside_loaded_ones(folder, size):
    module(folder, "beside/1.0", "setenv BESIDE on\n")
    return ["load", "beside/1.0"], loaded(folder, [f"n{number:0{WIDTH}}/1.0" for number in range(size)])


def purged(folder, size):
    """Each has prepended to one variable."""
    names = [f"p{number:0{WIDTH}}/1.0" for number in range(size)]
    for name in names:
        module(folder, name, f"prepend-path PURGED /opt/{name}\n")
    return ["purge"], {**loaded(folder, names), "PURGED": ":".join(f"/opt/{name}" for name in reversed(names))}


def directories(folder, size):
    """Of these only the last one has the module."""
    places = [f"d{number:0{WIDTH}}" for number in range(size)]
    for place in places:
        os.makedirs(os.path.join(folder, "m", place), exist_ok=True)
    module(folder, "last/only/1.0", "setenv LAST on\n")
    path = ":".join(os.path.join(folder, "m", place) for place in [*places, "last"])
    return ["load", "only/1.0"], {**environment(folder), "MODULEPATH": path}


def turns(body, by_turn=1):
    """A loop whose turns each add so many."""
    return lambda size: f"for {{set i 0}} {{$i < {size // by_turn}}} {{incr i}} {{{body}}}\n"


def switch(size):
    return f"switch a{size - 1:0{WIDTH}} {{\n" + each("a{0} {{set b {0}}}\n", size) + "}\n"


GROWING = [
    evaluated("prepend-path, all of one variable", SIZES, lambda size: each("prepend-path V /opt/v{0}/bin\n", size)),
    evaluated("prepend-path, each of another", SIZES, lambda size: each("prepend-path V{0} /opt/v/bin\n", size)),
    evaluated("setenv, each of another variable", SIZES, lambda size: each("setenv V{0} value\n", size)),
    Growing("names of one load", (2, 20, 200), names_of_one_load),
    Growing("modules of one purge", (2, 20, 200), purged),
    Growing("modules loaded before", (2, 20, 200), beside_loaded_ones),
    Growing("directories of MODULEPATH", (10, 100, 200), directories),
    evaluated("lappend of an element", (100, 1_000, 10_000), turns("lappend all element")),
    evaluated("append of a byte", (1_000, 10_000, MOST_TURNS), turns("append all x")),
    evaluated("append of a byte, ten a command", (1_000, 10_000, 100_000), turns("append all" + 10 * " x", 10)),
    evaluated("arms of one switch, the last taken", FEW, switch),
    evaluated("procedures, each called once", FEW, lambda size: each("proc p{0} {{}} {{return 1}}\np{0}\n", size)),
]


def cost_of_a_further_one(folder, program, growing, size):
    """What each of the second half takes."""
    half = size // 2
    few, all_of_them = (
        instructions(folder, [program, "sh", *words], env)
        for words, env in (growing.command(folder, count) for count in (half, size))
    )
    return (all_of_them - few) / (size - half)


def print_growth(folder, program):
    """Prints the table, a line for each that grows."""
    print(f"\nInstructions of a further one of so many (asked: at the last at most {MOST} times those at the first):\n")
    for growing in GROWING:
        costs = [cost_of_a_further_one(folder, program, growing, size) for size in growing.sizes]
        cells = "".join(f"{cost:12,.0f} at {size:<7,}" for cost, size in zip(costs, growing.sizes))
        times = costs[-1] / costs[0]
        print(f"{growing.title:36}{cells}{times:8.2f}  {'met' if times <= MOST else 'not met'}", flush=True)
