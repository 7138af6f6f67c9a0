#!/usr/bin/env python3
"""What a package of 16 MiB costs to build, beside reading its images and writing them to a file that is then on the disk:
building.py PROGRAM [RUNS].

Both are run in turn, RUNS times (15 by default). What is printed are the medians of processor time and of wall time, their
ratios, and how much more memory a build needs than one of an empty package, in parts of the images' size."""
import os
import pathlib
import statistics
import subprocess
import sys
import tempfile

from commands import measured
from memory import MIB, needs

IMAGES = 4
SIZE = 4 * MIB


def prepared(folder):
    """A text for a package of all images, and one for an empty package."""
    paths = [folder / f"{place}.image" for place in range(IMAGES)]
    for path in paths:
        path.write_bytes(os.urandom(SIZE))
    lines = ["record 0 A -"] + [f"component 10 {place} 1 0 0 v {path}" for place, path in enumerate(paths)]
    (folder / "whole").write_text("\n".join(lines) + "\n")
    (folder / "empty").write_text("")
    return paths


def main():
    program, runs = os.path.abspath(sys.argv[1]), int((sys.argv[2:] or [15])[0])
    with tempfile.TemporaryDirectory() as name:
        folder = pathlib.Path(name)
        paths = prepared(folder)
        images = " ".join(map(str, paths))
        copied = ["sh", "-c", f"cat {images} > {folder}/copy && sync {folder}/copy && mv {folder}/copy {folder}/copied"]
        build = [program, "build", str(folder / "whole"), str(folder / "package")]
        took = {"cat": [], "build": []}
        for _ in range(runs):
            took["cat"].append(measured(copied))
            took["build"].append(measured(build))
        more = needs(build) - needs([program, "build", str(folder / "empty"), str(folder / "package")])
        subprocess.run(build, check=True)
        assert (folder / "package").read_bytes()[-IMAGES * SIZE :] == (folder / "copied").read_bytes()
    medians = {name: [statistics.median(column) for column in ([run.processor for run in all_runs], [run.wall for run in all_runs])] for name, all_runs in took.items()}
    for name, (processor, wall) in medians.items():
        print(f"{name}: {1000 * processor:.1f} ms of a processor, {1000 * wall:.1f} ms of wall time")
    print(f"processor time: {medians['build'][0] / medians['cat'][0]:.2f} times that of cat")
    print(f"wall time: {medians['build'][1] / medians['cat'][1]:.2f} times that of cat")
    print(f"memory: {more / (IMAGES * SIZE):.2f} times the images' size")


main()
