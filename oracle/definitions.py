#!/usr/bin/env python3
"""Holds the definitions of crates/geom/specs against the Rust, by computing them. Run from the repository's root.

    oracle/definitions.py [COUNT]      COUNT random meshes of each kind and each sort (6)

The package oracle/reference makes random inputs and says what the Rust makes of them: what `sheet` prints (some of the inputs are damaged), the
triangulation, and both normals; and what document 02, written again there, makes of them: U3 of tags and k, U5 of every parity, U8 of the ledger of cubes.
Each answer becomes an equation about the definitions, `sheet INPUT ≡ ANSWER`, in a copy of `numbers` and `geom`, and antt proves it by computing both sides. One
equation that does not hold is printed, and the exit status is 1.
"""
import glob
import itertools
import os
import re
import shutil
import subprocess
import sys
import tempfile

SPECS = "Rattle.geom.specs"
REFERENCE = "oracle/reference"
# geom and what it stands on
CRATES = "numbers:\ngeom: numbers\n"
FLOATS = "to_bits of_bits of_fields size units odd round add sub sum mul div of_int lt le eq neg".split()
HEADER = """use mathlib.Core.Path.{◌≡◌, refl}
use mathlib.Core.Bool.{true, false}
use mathlib.Core.List.{List, [], ◌∷◌, flat_map, map}
use Prim.Native.Nat.{ℕ}
use lib.Ieee as Ieee
use lib.IntN.{pos, neg_ℤ}
use lib.ListN.{drop, length}
use %s.declared.vertex.Vertex.{Vertex}
""" % SPECS
HELPERS = """
abbrev got : File.Read File.Figure → Mesh.Mesh
got (File.read f bytes) = f.mesh
got (File.stop n) = record { vertices = []; points = []; lists = record { lines = []; areas = []; volumes = []; curves = [] } }

-- the mesh of an input, whose first two bytes are the depth and smooth_time
abbrev mesh_in : List ℕ → Mesh.Mesh
mesh_in input = got (File.figure (λ (k : Book.Kind). Sheet.SHEET_CELLS) (drop 2 input))
"""


def reference(*words, lines=()):
    text = "".join(line + "\n" for line in lines)
    command = [os.path.join(REFERENCE, "target/release/reference"), *map(str, words)]
    return subprocess.run(command, input=text, capture_output=True, text=True, check=True).stdout.split("\n")[:-1]


def numbers(values):
    return " ∷ ".join([str(v) for v in values] + ["[]"])


def definitions():
    """The lines that name each module of definitions, and every definition in them that has to unfold."""
    uses, names = [], ["Ieee." + name for name in FLOATS] + ["flat_map"]
    for crate, home in (("geom", SPECS), ("numbers", "Rattle.numbers.specs")):
        for path in sorted(glob.glob("crates/%s/specs/*.antt" % crate)):
            module = os.path.basename(path)[: -len(".antt")]
            if module in ("Lib", "Binary32"):
                continue
            alias = module if crate == "geom" else "Numbers_" + module
            uses.append("use %s.%s as %s" % (home, module, alias))
            names += [alias + "." + n for n in re.findall(r"^unfoldable pub (\S+) :", open(path).read(), re.M)]
    return uses, names


def normal_cells(answer, width):
    """The cells that a list of normals is written with: +0 in every place for a Flat one."""
    rows = [line.split()[2:] for line in answer.split("\n") if line.startswith("n ")]
    return [cell for row in rows for cell in ([0] * width if row == ["flat"] else [int(word, 16) for word in row])]


def shaded(width, mesh, answer):
    """The cells of a mesh's normals."""
    cells = "flat_map Numbers_Normal.cells%d (Normals.normals%d (%s))" % (width, width, mesh)
    return "map (Ieee.to_bits Ieee.binary32) (%s)" % cells, numbers(normal_cells(bytes.fromhex(answer).decode(), width))


def turned(given, listing, *normals):
    """A mesh with every parity changed, and its normals; none where a list has no parity, or where all normals are Flat."""
    lines = bytes.fromhex(listing).decode().split("\n")
    if {line[0] for line in lines if line.endswith(("e", "o"))} != set("lasc"):
        return None
    mesh = "Turning.flipped_mesh (mesh_in (%s))" % numbers(bytes.fromhex(given))
    told = [shaded(width, mesh, answer) for width, answer in zip((3, 4), normals)]
    if any(set(cells.split(" ∷ ")) == {"0", "[]"} for _, cells in told):
        return None
    return [("Listing.listing 0 (%s)" % mesh, numbers(bytes.fromhex(listing))), *told]


def replaced_faces(given, answer):
    """A ledger of cubes with each square replaced, as it is read: the number of every triple of the mesh's vertices, those without an entry too."""
    rows = [[int(word) for word in line.split()[1:]] for line in bytes.fromhex(answer).decode().split("\n") if line.startswith("f ")]
    entries = {tuple(triple): n for *triple, n in rows}
    triples = list(itertools.product(range(1 + max(map(max, entries))), repeat=3))
    mesh = "mesh_in (%s)" % numbers(bytes.fromhex(given))
    read = "Cutting.read (Cutting.replaced (length (%s).vertices) (Ledger.ledger Book.cubes (%s).lists.volumes))" % (mesh, mesh)
    values = [entries.get(triple, 0) for triple in triples]
    signed = ["pos %d" % n if n >= 0 else "neg_ℤ (pos %d)" % -n for n in values]
    return "map (%s) (%s)" % (read, numbers("(%s)" % numbers(triple) for triple in triples)), numbers(signed)


def strands(given, answer):
    """Tag and k of every vertex of a refined mesh; none where no pass made one."""
    depth, time, _, kind, *count = bytes.fromhex(given)[:8]
    rows = [[int(word) for word in line.split()[2:]] for line in bytes.fromhex(answer).decode().split("\n") if line.startswith("m ")]
    if len(rows) <= int.from_bytes(count, "big"):
        return None
    kind, time = ("cubes", "simplices")[kind], ("false", "true")[time]
    run = "Refinement.run Book.%s %s Sheet.SHEET_LENT %d (mesh_in (%s))" % (kind, time, depth, numbers(bytes.fromhex(given)))
    found = "flat_map (λ (v : Vertex). v.tag ∷ v.k ∷ []) (%s).left.mesh.vertices" % run
    return found, numbers(itertools.chain.from_iterable(rows))


def equations(count):
    for kind, seed in (("cubes", 1), ("simplices", 2)):
        inputs = reference("random", kind, seed, count, 5, 3, 1, 4)
        for given, answer in zip(inputs, reference("answers", "sheet", lines=inputs)):
            yield "Sheet.sheet (%s)" % numbers(bytes.fromhex(given)), numbers(bytes.fromhex(answer))
        many = reference("random", kind, seed + 6, 10 * count, 4, 2, 2, 0)
        told = map(strands, many, reference("answers", "strands", lines=many))
        yield from itertools.islice(filter(None, told), count)
        inputs = reference("random", kind, seed + 2, count, 5, 3, 0, 0)
        meshes = ["mesh_in (%s)" % numbers(bytes.fromhex(given)) for given in inputs]
        if kind == "cubes":
            meshes = ["Triangulation.triangulated (%s)" % mesh for mesh in meshes]
            for mesh, answer in zip(meshes, reference("answers", "triangulate", lines=inputs)):
                yield "Listing.listing 0 (%s)" % mesh, numbers(bytes.fromhex(answer))
            # one in some seven has an entry
            many = reference("random", kind, seed + 4, 10 * count, 5, 3, 0, 0)
            for given, answer in zip(many, reference("answers", "replaced", lines=many)):
                if answer:
                    yield replaced_faces(given, answer)
        for width in (3, 4):
            for mesh, answer in zip(meshes, reference("answers", "normals%d" % width, lines=inputs)):
                yield shaded(width, mesh, answer)
        if kind == "simplices":
            many = reference("random", kind, seed + 8, 10 * count, 5, 3, 0, 0)
            told = map(turned, many, *(reference("answers", sort, lines=many) for sort in ("turned", "turned3", "turned4")))
            yield from itertools.chain.from_iterable(itertools.islice(filter(None, told), (count + 1) // 2))


def main():
    count = int(sys.argv[1]) if len(sys.argv) > 1 else 6
    subprocess.run(["cargo", "build", "--release", "--offline", "--quiet"], cwd=REFERENCE, check=True)
    uses, names = definitions()
    text, cases = HEADER + "\n".join(uses) + "\n" + HELPERS, 0
    for found, answer in equations(count):
        text += "\ncase%d : %s ≡ %s\nunfolding %s\ncase%d = refl\n" % (cases, found, answer, " ".join(names), cases)
        cases += 1
    with tempfile.TemporaryDirectory() as copy:
        open(os.path.join(copy, "crates.txt"), "w").write(CRATES)
        for crate in ("numbers", "geom"):
            shutil.copytree(os.path.join("crates", crate), os.path.join(copy, "crates", crate), ignore=shutil.ignore_patterns("out"))
        geom = os.path.join(copy, "crates/geom")
        open(os.path.join(geom, "proofs/Held.antt"), "w").write(text)
        open(os.path.join(geom, "proofs/Lib.antt"), "a").write("pub mod Held\n")
        run = subprocess.run(["rt", "check"], cwd=geom, capture_output=True, text=True)
    wrong = [line for line in (run.stdout + run.stderr).split("\n") if "error" in line]
    print("definitions: %d equations with the Rust, %d refused" % (cases, len(wrong)))
    print("\n".join(line[:300] for line in wrong), end="")
    sys.exit(1 if run.returncode else 0)


main()
