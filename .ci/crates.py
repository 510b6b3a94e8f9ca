"""The crates of crates.txt, and the words by which `rattle` finds their libraries: for the tools of this repository."""
import os
import pathlib

ROOT = pathlib.Path(__file__).resolve().parent.parent
KIT = os.environ.get("RATTLE_KIT", "/opt/rattle")
LOGIC = ["--antt-project", f"{KIT}/rattle/logic/antt-project.json", "--logic-built", f"{KIT}/logic_built"]


def libraries_of_crates():
    """The libraries that each crate names, by its name, in the order of crates.txt."""
    lines = (line.split("#")[0].split(":") for line in (ROOT / "crates.txt").read_text().splitlines())
    return {line[0].strip(): line[1].split() for line in lines if len(line) == 2}


def below(crate, libraries):
    """The crates of this repository below a crate, each after those that it stands on."""
    found = {}

    def add(name):
        for it in libraries[name]:
            if it in libraries and it not in found:
                add(it)
                found[it] = None

    add(crate)
    return [*found]


def root_file(crate):
    """The file that a crate begins with."""
    return "src/main.rt" if (ROOT / "crates" / crate / "src/main.rt").is_file() else "src/lib.rt"


def library(crate, built):
    """Where `rt ci` leaves the library of a crate in a checkout, whose folder `crates` is given."""
    return built / crate / "out" / "rlib" / f"{crate}.rlib"


def words_of_libraries(crate, libraries, built):
    """What names the libraries of a crate: those that are built, and, as source, those that are not, with all below these."""
    lower = below(crate, libraries)
    made = {name: library(name, built) for name in lower}
    missing = [name for name in lower if not (made[name] / "format").exists()]
    named = dict.fromkeys([*libraries[crate], *(other for name in missing for other in libraries[name])])
    words = ["--extern", f"std={KIT}/rlibs/std.rlib"]
    for name in [it for it in lower if it in named or it in missing] + [it for it in named if it not in libraries]:
        if name in missing:
            words += ["--lib", f"{name}:{','.join(['std', *libraries[name]])}={ROOT}/crates/{name}/src/lib.rt"]
        else:
            words += ["--extern", f"{name}={made.get(name, f'{KIT}/rlibs/{name}.rlib')}"]
    for at in [f"{KIT}/rlibs", *(made[name].parent for name in lower if name not in missing)]:
        words += ["-L", f"dependency={at}"]
    return words
