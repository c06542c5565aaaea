"""Lines for keywords that have an effect in MapServer and none in the map that was written, and that nothing else reports."""
import re

import keywords
from mapconvert import access

# What is carried out, or has a line of its own where it can't be, by the block.
CARRIED = {
    "MAP": "NAME EXTENT LAYER WEB SYMBOL SYMBOLSET FONTSET PROJECTION SHAPEPATH IMAGECOLOR CONFIG INCLUDE",
    "WEB": "METADATA VALIDATION",
    "SYMBOL": "NAME TYPE IMAGE POINTS FILLED CHARACTER FONT ANCHORPOINT TRANSPARENT ANTIALIAS",
    "LAYER": "NAME TYPE CLASS FEATURE METADATA PROJECTION CLASSITEM LABELITEM DATA TEMPLATE TOLERANCE MINSCALEDENOM MAXSCALEDENOM "
    "PROCESSING BINDVALS CONNECTION CONNECTIONOPTIONS CONNECTIONTYPE PLUGIN ENCODING FILTER FILTERITEM TILEINDEX TILEITEM TILESRS "
    "MAXFEATURES MASK SIZEUNITS STYLEITEM CLASSGROUP TRANSFORM LABELMINSCALEDENOM LABELMAXSCALEDENOM INCLUDE STATUS LABELCACHE "
    "TOLERANCEUNITS REQUIRES LABELREQUIRES MINFEATURESIZE",
    "CLASS": "EXPRESSION MINSCALEDENOM MAXSCALEDENOM STYLE LABEL NAME TITLE TEXT TEMPLATE STATUS",
    "STYLE": "COLOR OUTLINECOLOR WIDTH SIZE SYMBOL COLORRANGE DATARANGE RANGEITEM PATTERN OPACITY GEOMTRANSFORM MINSCALEDENOM "
    "MAXSCALEDENOM ANGLE GAP OUTLINEWIDTH",
    "LABEL": "COLOR OUTLINECOLOR OUTLINEWIDTH POSITION PRIORITY BUFFER MINDISTANCE PARTIALS FORCE TEXT FONT SIZE MINSIZE MAXSIZE TYPE "
    "MINSCALEDENOM MAXSCALEDENOM EXPRESSION",
    "FEATURE": "POINTS ITEMS TEXT WKT",
}
CARRIED = {block: set(words.split()) for block, words in CARRIED.items()}

# What changes neither a picture nor an answer of MapServer's WMS.
UNSEEN = {
    "MAP": "DATAPATTERN DEBUG IMAGEQUALITY IMAGETYPE INTERLACE LEGEND MAXSIZE OUTPUTFORMAT QUERYMAP REFERENCE SCALEBAR SIZE STATUS "
    "TEMPLATEPATTERN TRANSPARENT UNITS",
    "WEB": "BROWSEFORMAT EMPTY ERROR FOOTER HEADER IMAGEPATH IMAGEURL LEGENDFORMAT LOG MAXSCALEDENOM MINSCALEDENOM MAXTEMPLATE "
    "MINTEMPLATE QUERYFORMAT TEMPLATE TEMPPATH",
    "LAYER": "DEBUG DUMP EXTENT FOOTER HEADER UNITS UTFDATA UTFITEM VALIDATION JOIN",
    "CLASS": "DEBUG FALLBACK KEYIMAGE METADATA VALIDATION",
    "STYLE": "ANTIALIAS", "LABEL": "ANTIALIAS ENCODING",
}
UNSEEN = {block: set(words.split()) for block, words in UNSEEN.items()}

# Words of convert's own, where lint's say what an author should write.
WORDS = {
    "LAYER STATUS": "DEFAULT: it is drawn where it is asked for, and nowhere else",
    "LAYER CLUSTER": "each point stands for itself",
    "LAYER SYMBOLSCALEDENOM": "sizes are at each scale those that are written",
    "LAYER MINGEOWIDTH": "it is drawn in views of each width",
    "LAYER MAXGEOWIDTH": "it is drawn in views of each width",
    "LAYER GROUP": "no name stands for the layers of a group: ask for each",
    "CLASS GROUP": "no style of that name can be asked for",
    "LAYER VALIDATION": "the defaults are taken, and clients can't give others",
    "LAYER TOLERANCEUNITS": "TOLERANCE is in pixels",
    "LAYER LABELCACHE": "labels are always placed together",
    "CLASS VALIDATION": "the defaults are taken, and clients can't give others",
}
# Blocks in which a word that no list has is a keyword for certain.
BLOCKS = {"LAYER", "CLASS", "STYLE"}
METADATA = {"wms_title", "ows_title"} | {f"{prefix}_{name}" for prefix in ("wms", "ows", "gml") for name in ("include_items", "exclude_items")}
REQUESTS = {"wms_enable_request", "ows_enable_request"}


def words_of(seen):
    """Why a keyword is without effect."""
    key = f"{seen.block} {seen.word}"
    lint = keywords.REFUSED.get(seen.block, {}).get(seen.word) or keywords.REASONS.get(key) or keywords.REASONS.get(seen.word)
    instead = re.sub(r"^leave it out(: |, or |, and |$)", "", lint or "")
    return f"{seen.word}: {WORDS.get(key) or instead or 'it has no effect here'}"


def has_effect(seen):
    """Whether a value of a keyword that mostly is carried out isn't."""
    value = (seen.value or "").upper()
    return (seen.word, value) in (("STATUS", "DEFAULT"), ("LABELCACHE", "OFF")) or seen.word == "TOLERANCEUNITS" and value != "PIXELS"


def say_metadata(seen, report):
    """Metadata that is neither written nor looked at when it is decided what is answered."""
    word = seen.word.lower()
    if word.startswith(access.SERVICES) and word.endswith(access.ADDRESS_LISTS):
        # whatever else was said of this line
        if not report.has(seen.place, seen.word):
            report.shows(seen.place, f"{seen.word}: everybody is answered: write allow and deny into nginx.conf")
    elif word in keywords.TIMES:
        report.shows(seen.place, f"{seen.word}: features of all times are drawn")
    elif word not in METADATA | REQUESTS:
        report.notes(seen.place, f'METADATA "{seen.word}" has no effect here')


def say(locator, report, gone):
    """Adds a line for each keyword that has none; those of layers that are left out whole have theirs."""
    for seen in locator.seen:
        if seen.layer in gone:
            continue
        if seen.block == "METADATA":
            say_metadata(seen, report)
            continue
        known = {**keywords.COUNTS.get(seen.block, {}), **keywords.UNUSED.get(seen.block, {}), **keywords.REFUSED.get(seen.block, {})}
        if seen.word not in known:
            # MapServer reads it, and no list here has it
            report.left_out(seen.place, f"{seen.word}: it isn't known here") if seen.block in BLOCKS else None
        elif seen.word in CARRIED[seen.block] and not (seen.block == "LAYER" and has_effect(seen)):
            say_setting(seen, report)
        elif seen.word in UNSEEN.get(seen.block, ()):
            report.notes(seen.place, words_of(seen))
        elif not report.has(seen.place, seen.word):
            # several keywords may stand on one line of the file
            tell = report.shows if f"{seen.block} {seen.word}" in keywords.EXPOSED else report.left_out
            tell(seen.place, words_of(seen))


def say_setting(seen, report):
    """PROCESSING and CONFIG, which are settings of MapServer's, but for the items."""
    key = (seen.value or "").partition("=")[0].upper()
    if seen.word in ("PROCESSING", "CONFIG") and key != "ITEMS":
        report.notes(seen.place, f"{seen.word} {seen.value}: it says how MapServer reads the data")
