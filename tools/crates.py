"""Which crates the repository has, and which of them stand on which: what crates.txt says."""
import pathlib

ROOT = pathlib.Path(__file__).resolve().parent.parent
# What a proof of a crate reads of its folder.
SOURCES = ("src", "specs", "proofs")


def read(root=ROOT):
    """The crates that each crate cites, by name. Libraries of the kit are left out."""
    cited = {}
    for line in (root / "crates.txt").read_text(encoding="utf-8").splitlines():
        name, colon, libraries = line.partition("#")[0].partition(":")
        if colon:
            # behind the name there may be words that tell its kind
            cited[name.split()[0]] = libraries.replace(",", " ").split()
    return {name: [it for it in libraries if it in cited] for name, libraries in cited.items()}


def below(cited, name):
    """The crates that a crate stands on, each after those that it stands on itself."""
    found = []
    for library in cited[name]:
        found += [it for it in [*below(cited, library), library] if it not in found]
    return found


def lowest_first(cited, names):
    """These crates in the order in which `rt all` takes them: by how many crates they stand on."""
    return sorted(names, key=lambda name: len(below(cited, name)))
