#!/usr/bin/env python3
"""Compares what other programs read of the server's PNG with its PAM of the same request, pixel by pixel.

Usage: decoders.py PROGRAM [PICTURES [SEED]]

The pictures are of random maps of 1 to 300 colours: 1 to 2,048 pixels a side, one row, one column, transparent or not.
Each PNG is read by Python's zlib and by what is installed of pngcheck, netpbm's pngtopam, ImageMagick, GDAL, Pillow and
Chromium, a page of which reads the pixels of a canvas; the others are named as skipped. PICTURES is 2,000 where it isn't
given. The script prints how many files have which form, and ends with 1 where a reader has another picture than the PAM;
it leaves that PNG in the folder where it runs.
"""
import base64
import collections
import pathlib
import random
import re
import shutil
import subprocess
import sys
import tempfile
import zlib

sys.path.insert(0, str(pathlib.Path(__file__).resolve().parents[1] / "lib"))

from pictures import CLASSES, bodies, chunks_of, form_of, layers, of_pam, of_png, seen, with_alpha

try:
    from PIL import Image
except ImportError:
    Image = None

SIDES = [1, 2, 3, 7, 16, 17, 64, 255, 256, 257]
COLOURS = [1, 2, 3, 4, 5, 14, 15, 16, 17, 60, 64, 200, 254, 255, 256, 257, 300]
# The pictures of one map, and those of one page of Chromium's.
OF_A_MAP, OF_A_PAGE = 20, 100
PAGE = """<!DOCTYPE html><meta charset="utf-8"><body>%s<script>
const table = Uint32Array.from({ length: 256 }, (_, n) => { for (let k = 0; k < 8; k++) n = n & 1 ? 0xedb88320 ^ (n >>> 1) : n >>> 1; return n; });
const sum = (bytes) => { let c = 0xffffffff; for (const b of bytes) c = table[(c ^ b) & 255] ^ (c >>> 8); return (c ^ 0xffffffff) >>> 0; };
window.onload = () => { document.body.textContent = [...document.images].map((image) => {
    const canvas = document.createElement("canvas");
    [canvas.width, canvas.height] = [image.naturalWidth, image.naturalHeight];
    const context = canvas.getContext("2d");
    context.drawImage(image, 0, 0);
    return `${canvas.width}x${canvas.height}:${sum(context.getImageData(0, 0, canvas.width, canvas.height).data)}`;
}).join(" "); };
</script>"""


def squares(chosen, count):
    """Squares of as many colours, the large ones first, so that the small ones are seen; of many colours all are small."""
    sizes = [9] if count == 1 else [0.4] if count > 250 else [0.4, 0.4, 1, 2, 9]
    for size in sorted((chosen.choice(sizes) for _ in range(count)), reverse=True):
        west, south = (chosen.uniform(0, 9.6) if count > 250 else chosen.uniform(-1, 10) for _ in range(2))
        yield west, south, size, tuple(chosen.randrange(256) for _ in range(3))


def mapfile(chosen, count):
    """A map of squares, where each class of a layer has the colour of one."""
    blocks, those = [], list(squares(chosen, count))
    for number in range(layers(count)):
        classes, features = [], []
        for at, (west, south, size, colour) in enumerate(those[CLASSES * number:CLASSES * (number + 1)]):
            classes.append("CLASS EXPRESSION '{}' STYLE COLOR {} {} {} END END".format(at, *colour))
            corners = [(west, south), (west + size, south), (west + size, south + size), (west, south + size)]
            points = " ".join(f"{x:.4f} {y:.4f}" for x, y in corners)
            features.append(f"FEATURE ITEMS '{at}' POINTS {points} END END")
        head = f"LAYER NAME l{number} TYPE POLYGON PROCESSING 'ITEMS=k' CLASSITEM k"
        blocks.append("\n".join([head, *classes, *features, "END"]))
    return 'MAP CONFIG "WMS_FORMATS" "image/png"\n' + "\n".join(blocks) + "\nEND\n"


def query(ground, count, form, width, height, transparent):
    names = ",".join(f"l{number}" for number in range(layers(count)))
    return (f"VERSION=1.3.0&REQUEST=GetMap&LAYERS={names}&STYLES=&CRS=CRS:84&BBOX=0,0,10,10&WIDTH={width}&HEIGHT={height}"
            f"&FORMAT={form}&TRANSPARENT={transparent}&BGCOLOR=0x{ground:06x}")


def by_zlib(path):
    return of_png(path.read_bytes())


def by_pillow(path):
    picture = Image.open(path).convert("RGBA")
    return *picture.size, picture.tobytes()


def of_any_pam(output):
    """The same of a PAM of another program: grey or colours, with alpha or not, and of any greatest value up to 255."""
    head, samples = output.split(b"ENDHDR\n", 1)
    said = dict(line.split(None, 1) for line in head.decode().splitlines()[1:] if not line.startswith("#"))
    depth, most = int(said["DEPTH"]), int(said["MAXVAL"])
    if most != 255:
        samples = samples.translate(bytes(min(255, value * 255 // most) for value in range(256)))
    whole = bytearray(b"\xff" * (len(samples) // depth * 4))
    for part in range(3):
        whole[part::4] = samples[part if depth > 2 else 0::depth]
    if depth in (2, 4):
        whole[3::4] = samples[depth - 1::depth]
    return int(said["WIDTH"]), int(said["HEIGHT"]), bytes(whole)


def by_convert(path):
    return of_any_pam(subprocess.run(["convert", str(path), "-depth", "8", "pam:-"], stdout=subprocess.PIPE, check=True).stdout)


def has_imagemagick():
    if not shutil.which("convert"):
        return False
    return b"ImageMagick" in subprocess.run(["convert", "-version"], stdout=subprocess.PIPE, stderr=subprocess.DEVNULL).stdout


def by_pngtopam(path):
    return of_any_pam(subprocess.run(["pngtopam", "-alphapam", str(path)], stdout=subprocess.PIPE, check=True).stdout)


def by_gdal(path):
    raw = path.with_suffix(".raw")
    words = ["gdal_translate", "-q", "-of", "ENVI", "-co", "INTERLEAVE=BIP", "-expand", "rgba", str(path), str(raw)]
    if chunks_of(path.read_bytes())[b"IHDR"][9] != 3:
        words[words.index("-expand"):words.index("rgba") + 1] = []
    subprocess.run(words, stdout=subprocess.DEVNULL, stderr=subprocess.DEVNULL, check=True)
    head = {name: int(value) for name, value in re.findall(r"^(samples|lines|bands) *= *(\d+)", raw.with_suffix(".hdr").read_text(), flags=re.M)}
    pixels = raw.read_bytes()
    return head["samples"], head["lines"], with_alpha(pixels) if head["bands"] == 3 else pixels


def is_checked(path):
    return subprocess.run(["pngcheck", "-v", str(path)], stdout=subprocess.DEVNULL, stderr=subprocess.DEVNULL).returncode == 0


def readers():
    known = [("zlib", True, by_zlib), ("Pillow", Image is not None, by_pillow),
             ("ImageMagick", has_imagemagick(), by_convert), ("netpbm", shutil.which("pngtopam"), by_pngtopam), ("GDAL", shutil.which("gdal_translate"), by_gdal)]
    return [(name, read) for name, there, read in known if there], [name for name, there, _ in known if not there]


class Pages:
    """The pictures that Chromium is still to read, each with the sides and the sum of the pixels that it has to have."""

    def __init__(self, folder):
        self.browser, self.folder, self.pictures = shutil.which("chromium"), folder, []

    def add(self, number, png, wanted):
        if self.browser:
            self.pictures.append((number, png, wanted))

    def read(self):
        """The numbers of the pictures that Chromium reads otherwise."""
        pictures, self.pictures = self.pictures, []
        if not pictures:
            return []
        images = "".join(f'<img src="data:image/png;base64,{base64.b64encode(png).decode()}">' for _, png, _ in pictures)
        page = self.folder / "page.html"
        page.write_text(PAGE % images)
        words = [self.browser, "--headless", "--no-sandbox", "--disable-gpu", f"--user-data-dir={self.folder}/chromium", "--dump-dom", f"file://{page}"]
        shown = subprocess.run(words, stdout=subprocess.PIPE, stderr=subprocess.DEVNULL, check=True).stdout.decode()
        found = re.findall(r"\d+x\d+:\d+", shown)
        if len(found) != len(pictures):
            sys.exit(f"failed: Chromium's page has {len(found)} pictures of {len(pictures)}")
        return [number for (number, _, wanted), one in zip(pictures, found) if one != "{}x{}:{}".format(wanted[0], wanted[1], zlib.crc32(wanted[2]))]


def sides(chosen):
    if chosen.random() < 0.03:
        return chosen.choice([(2048, 3), (3, 2048), (2048, 1), (1, 2048), (2048, 300)])
    return tuple(chosen.choice([*SIDES, chosen.randint(1, 700)]) for _ in range(2))


def drawn(program, folder, chosen, asked):
    """Pictures of one random map: the PAM and the PNG of each request."""
    count = chosen.choice(COLOURS)
    (folder / "a.map").write_text(mapfile(chosen, count))
    script = []
    for _ in range(asked):
        width, height = sides(chosen)
        transparent, ground = chosen.choice(["TRUE", "FALSE"]), chosen.randrange(2**24)
        for form in ("image/x-portable-arbitrarymap", "image/png"):
            script.append("QUERY " + query(ground, count, form, width, height, transparent))
    (folder / "a.script").write_text("\n".join(script) + "\n")
    output = subprocess.run([program, "run", str(folder / "a.map"), str(folder / "a.script")], stdout=subprocess.PIPE, check=True).stdout
    answers = list(bodies(output))
    assert len(answers) == 2 * asked and {mime for mime, _ in answers[1::2]} == {"image/png"}, "an answer is missing"
    return [(pam, png) for (_, pam), (_, png) in zip(answers[::2], answers[1::2])]


class Comparison:
    """The readers that are there, and what they made of the pictures so far."""

    def __init__(self, folder):
        self.readers, self.skipped = readers()
        self.folder, self.pages, self.checks = folder, Pages(folder), shutil.which("pngcheck") is not None
        self.forms, self.wrong, self.count = collections.Counter(), 0, 0
        self.skipped += [name for name, there in (("pngcheck", self.checks), ("Chromium", self.pages.browser)) if not there]

    def take(self, pam, png):
        """Has all but Chromium read a PNG, and keeps it for that one."""
        path, (width, height, pixels) = self.folder / "a.png", of_pam(pam)
        path.write_bytes(png)
        self.forms[form_of(chunks_of(png))] += 1
        others = [name for name, read in self.readers for found in [read(path)] if found[:2] != (width, height) or seen(found[2]) != pixels]
        others += ["pngcheck"] if self.checks and not is_checked(path) else []
        for name in others:
            pathlib.Path(f"{name}-{self.count}.png").write_bytes(png)
            print(f"{name} reads another picture: {name}-{self.count}.png")
        self.wrong += len(others)
        self.pages.add(self.count, png, (width, height, pixels))
        self.count += 1

    def read_pages(self):
        """Has Chromium read what was kept for it."""
        for number in self.pages.read():
            self.wrong += 1
            print(f"Chromium reads another picture: number {number}")

    def summary(self):
        """The forms of the files, and by whom they were read."""
        forms = [f"{form}: {count:,}" for form, count in sorted(self.forms.items())]
        names = [name for name, _ in self.readers] + ["pngcheck"] * self.checks + ["Chromium"] * bool(self.pages.browser)
        last = f"{self.count:,} pictures, read by {', '.join(names)}: {self.wrong} differ"
        return "\n".join([*forms, last + "".join(f"; skipped: {name}" for name in self.skipped)])


def main():
    program = sys.argv[1]
    wanted = int(sys.argv[2]) if len(sys.argv) > 2 else 2_000
    chosen = random.Random(int(sys.argv[3]) if len(sys.argv) > 3 else 1)
    folder = pathlib.Path(tempfile.mkdtemp())
    found = Comparison(folder)
    while found.count < wanted:
        for pam, png in drawn(program, folder, chosen, min(OF_A_MAP, wanted - found.count)):
            found.take(pam, png)
        if len(found.pages.pictures) >= OF_A_PAGE or found.count == wanted:
            found.read_pages()
        print(f"{found.count:,}: {found.wrong} differ", file=sys.stderr, flush=True)
    shutil.rmtree(folder)
    print(found.summary())
    return 1 if found.wrong else 0


if __name__ == "__main__":
    sys.exit(main())
