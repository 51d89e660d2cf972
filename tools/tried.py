"""Runs a program over crates of the repository by `rt try`, in a temporary folder, so that nothing is proved."""
import pathlib
import shutil
import subprocess
import tempfile

TOP = pathlib.Path(__file__).resolve().parent.parent


def below(names):
    """The lines of crates.txt of these libraries and of those below them."""
    lines = {line.split(":")[0].split()[0]: line for line in (TOP / "crates.txt").read_text().splitlines() if ":" in line}
    found, left = {}, list(names)
    while left:
        name = left.pop()
        if name in lines and name not in found:
            found[name] = lines[name]
            left += lines[name].partition(":")[2].split()
    return found


def output_of(sources, libraries, given, seconds=600):
    """What a program prints, of which the files `*.rt.in` of a folder are the sources, over these libraries."""
    with tempfile.TemporaryDirectory() as temporary:
        folder = pathlib.Path(temporary)
        subprocess.run(["git", "init", "-q", "."], cwd=folder, check=True)
        shutil.copy(TOP / "HANDLES", folder)
        lines = below(libraries)
        for name in lines:
            shutil.copytree(TOP / "crates" / name, folder / "crates" / name, ignore=shutil.ignore_patterns("out", "must-fail"))
        program = folder / "crates/tried"
        (program / "src").mkdir(parents=True)
        for part in pathlib.Path(sources).glob("*.rt.in"):
            shutil.copy(part, program / "src" / part.name.removesuffix(".in"))
        (folder / "crates.txt").write_text("\n".join([*lines.values(), "tried: " + " ".join(libraries), ""]))
        words = ["rt", "try", "--steps", "1000", "--seconds", str(seconds)]
        ran = subprocess.run(words, cwd=program, input=given, capture_output=True, text=True)
        return ran.stdout.splitlines(), ran.stderr
