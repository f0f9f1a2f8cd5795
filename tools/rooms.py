"""Folders in which a crate is proved apart from the repository: `rt` keeps others out of each crate that it reads, so side by side each needs a room of its own."""
import os
import re
import shutil

ROOMS = ".build"
PARTS = ("src", "specs", "proofs", "c")


def crates():
    """The crates of the repository, each with those of the repository that it names."""
    found = {}
    with open("crates.txt", encoding="utf-8") as file:
        for line in file:
            name, colon, words = line.partition("#")[0].partition(":")
            if colon:
                found[name.split()[0]] = words.split()
    return {name: [it for it in words if it in found] for name, words in found.items()}


def below(names, wanted):
    """The crates and all that stands below them, lowest first."""
    order = []

    def visit(name):
        if name not in order:
            for it in names[name]:
                visit(it)
            order.append(name)

    for name in wanted:
        visit(name)
    return order


def foreign_proofs():
    """The files that cite a lemma of another crate's proofs/, each with what it cites. The laws of a declared type, which the prover writes, stand there alone."""
    for name in sorted(os.listdir("crates")):
        for at, _, files in (it for part in PARTS for it in os.walk(f"crates/{name}/{part}")):
            for file in files:
                with open(f"{at}/{file}", encoding="utf-8") as text:
                    for crate, path in re.findall(r"Rattle\.(rawk_\w+)\.proofs\.([\w.]+)", text.read()):
                        if crate != name and not path.rstrip(".").endswith("TheLaws"):
                            yield f"{at}/{file}: {crate}.proofs.{path}"


def room_of(name, names):
    """A new room with the crate and those below it, as they were built: its files are links to those of the repository, but for crates.txt."""
    room = f"{ROOMS}/{name}"
    shutil.rmtree(room, ignore_errors=True)
    os.makedirs(f"{room}/crates")
    read = below(names, [name])
    with open("crates.txt", encoding="utf-8") as whole, open(f"{room}/crates.txt", "w", encoding="utf-8") as part:
        part.writelines(line for line in whole if line.partition(":")[0].partition(" ")[0] in read)
    for it in read:
        for folder in (*PARTS, *(["out/rlib"] if it != name else [])):
            if os.path.isdir(f"crates/{it}/{folder}"):
                shutil.copytree(f"crates/{it}/{folder}", f"{room}/crates/{it}/{folder}", copy_function=os.link)
    return room
