"""Layers that `picture` of compose paints, and the instructions of it, as callgrind of valgrind counts them."""
import random
import re
import subprocess


def of_extent(extent, layer):
    return f"MAP\nEXTENT {extent}\n{layer}\nEND\n"


def layer(kind, style, features):
    """A layer of features of one part each, by degrees."""
    parts = ("FEATURE\nPOINTS\n" + "".join(f"{x:.6f} {y:.6f}\n" for x, y in part) + "END\nEND\n" for part in features)
    return f'LAYER\nNAME "a"\nTYPE {kind}\nCLASS\nSTYLE\n{style}\nEND\nEND\n{"".join(parts)}END'


def layers_of(world):
    """The layers of the countries and of the rivers."""
    first, second = [found.start() for found in re.finditer(r"(?m)^\s*LAYER$", world)][:2]
    return world[first:second].rstrip(), world[second:].rstrip().removesuffix("END").rstrip()


def filled(countries):
    return re.sub(r"(?m)^\s*(OUTLINECOLOR [0-9 ]+|WIDTH \d+)\n", "", countries)


def outlined(countries, width):
    alone = re.sub(r"(?m)^\s*COLOR [0-9 ]+\n(\s*OUTLINECOLOR)", r"\1", countries)
    return re.sub(r"(?m)^(\s*)WIDTH \d+$", rf"\g<1>WIDTH {width}", alone)


def scattered_lines(count):
    """Lines of four vertices, some 3 pixels apart at 2,048 by 1,024."""
    random.seed(5)
    for _ in range(count):
        x, y = random.uniform(-179, 178), random.uniform(-89, 88)
        part = [(x, y)]
        for _ in range(3):
            x, y = x + random.uniform(-0.6, 0.6), y + random.uniform(-0.6, 0.6)
            part.append((x, y))
        yield part


def scattered_points(count):
    """Points of the world, one a feature."""
    random.seed(3)
    for _ in range(count):
        yield [(random.uniform(-179, 179), random.uniform(-89, 89))]


def counted(program, mapfile, count, *words):
    """The instructions of a run, and what it wrote."""
    command = ["valgrind", "--tool=callgrind", "--callgrind-out-file=/dev/null", program, str(count), *map(str, words)]
    run = subprocess.run(command, input=mapfile.encode(), stdout=subprocess.PIPE, stderr=subprocess.PIPE, check=True)
    return int(re.search(rb"Collected : (\d+)", run.stderr)[1]), run.stdout


def painted(program, mapfile, *words):
    """The instructions of one picture by its sides, in web mercator with a third word, and its bytes."""
    one, picture = counted(program, mapfile, 1, *words)
    return (counted(program, mapfile, 6, *words)[0] - one) / 5, picture
