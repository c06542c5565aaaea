"""Pictures that deploy/formats draws itself: exceptions in a picture, blank ones, and legends. They need Debian's python3-pil."""
import base64
import io
import json
import os
import re

from PIL import Image, ImageDraw, ImageFont

FONT = "/usr/share/fonts/truetype/dejavu/DejaVuSans.ttf"
SIZE, MARGIN = 12, 4
# The pictures that EXCEPTIONS asks for, in 1.1.1 and in 1.3.0.
BLANK = {"application/vnd.ogc.se_blank", "BLANK"}
IN_PICTURE = {"application/vnd.ogc.se_inimage", "INIMAGE"}


def font():
    return ImageFont.truetype(FONT, SIZE) if os.path.exists(FONT) else ImageFont.load_default()


def plain(text):
    """A text that the font without a file has, too."""
    return text if os.path.exists(FONT) else text.encode("latin-1", "replace").decode("latin-1")


def side_of(text):
    return int(text) if re.fullmatch(r"\d{1,4}", text or "") and 1 <= int(text) <= 2048 else 256


def of_fault(values, words, is_clear):
    """The picture that a query with a fault gets: blank, or with the words of the fault."""
    size = side_of(values.get("WIDTH")), side_of(values.get("HEIGHT"))
    ground = re.fullmatch(r"0[xX]([0-9A-Fa-f]{6})", values.get("BGCOLOR", ""))
    colour = tuple(bytes.fromhex(ground[1])) if ground else (255, 255, 255)
    picture = Image.new("RGBA", size, (0, 0, 0, 0)) if is_clear else Image.new("RGB", size, colour)
    if values.get("EXCEPTIONS") in IN_PICTURE:
        ImageDraw.Draw(picture).multiline_text((MARGIN, MARGIN), plain(words), font=font(), fill=(200, 0, 0))
    return picture


def legend(path, name):
    """The legend of a layer by what deploy/legend wrote: nothing where that isn't there, or has no such layer."""
    try:
        with open(path, encoding="utf-8") as file:
            entries = json.load(file)["layers"].get(name)
    except (OSError, ValueError, KeyError, AttributeError):
        return None
    if entries is None:
        return None
    pictures = [Image.open(io.BytesIO(base64.b64decode(entry["picture"].partition(",")[2]))).convert("RGBA") for entry in entries]
    titles, letters = [plain(entry["title"]) for entry in entries], font()
    widths = [picture.width + MARGIN + letters.getbbox(title or " ")[2] for picture, title in zip(pictures, titles)]
    heights = [max(picture.height, SIZE + 4) for picture in pictures]
    whole = Image.new("RGBA", (max(widths, default=1) + 2 * MARGIN, sum(heights) + MARGIN * (len(heights) + 1)), (255, 255, 255, 0))
    draw, top = ImageDraw.Draw(whole), MARGIN
    for picture, title, height in zip(pictures, titles, heights):
        whole.alpha_composite(picture, (MARGIN, top))
        draw.text((2 * MARGIN + picture.width, top + (height - SIZE) // 2 - 2), title, font=letters, fill=(0, 0, 0, 255))
        top += height + MARGIN
    return whole
