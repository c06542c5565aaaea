"""MapServer's keywords of each block of a mapfile, and what mapservd makes of them.

`lint` looks words up here, and docs/MAPSERVER.md is written from it by `tools/keywords`. The rules themselves stand in
docs/MAPFILE.md, and the server follows those alone: tests/gate/lint_agrees.py compares what lint and the server say.
"""

import re

# Keywords that count, by their block, with the number of their values; 0 for a block.
COUNTS = {
    "MAP": {"NAME": 1, "EXTENT": 4, "CONFIG": 2, "WEB": 0, "SYMBOL": 0, "LAYER": 0},
    "WEB": {"METADATA": 0},
    "SYMBOL": {"NAME": 1, "TYPE": 1, "IMAGE": 1},
    "LAYER": {
        "NAME": 1, "TYPE": 1, "CLASSITEM": 1, "LABELITEM": 1, "DATA": 1, "TEMPLATE": 1, "TOLERANCE": 1,
        "MINSCALEDENOM": 1, "MAXSCALEDENOM": 1, "PROCESSING": 1, "METADATA": 0, "CLASS": 0, "FEATURE": 0,
    },
    "CLASS": {"EXPRESSION": 1, "MINSCALEDENOM": 1, "MAXSCALEDENOM": 1, "STYLE": 0, "LABEL": 0},
    "STYLE": {"COLOR": 3, "OUTLINECOLOR": 3, "WIDTH": 1, "SIZE": 1, "SYMBOL": 1},
    "LABEL": {
        "COLOR": 3, "OUTLINECOLOR": 3, "POSITION": 1, "PRIORITY": 1, "BUFFER": 1, "MINDISTANCE": 1, "PARTIALS": 1,
        "FORCE": 1, "OUTLINEWIDTH": 1, "FONT": 1,
    },
    "FEATURE": {"TEXT": 1, "ITEMS": 1, "POINTS": 0},
}

# Keywords that are read without effect, likewise.
UNUSED = {
    "MAP": {
        "ANGLE": 1, "DEBUG": 1, "FONTSET": 1, "IMAGETYPE": 1, "RESOLUTION": 1, "SHAPEPATH": 1, "UNITS": 1, "MAXSIZE": 1,
        "STATUS": 1, "SIZE": 2, "IMAGECOLOR": 3, "LEGEND": 0, "OUTPUTFORMAT": 0, "QUERYMAP": 0, "REFERENCE": 0,
        "SCALEBAR": 0, "PROJECTION": 0,
    },
    "WEB": {
        "EMPTY": 1, "ERROR": 1, "FOOTER": 1, "HEADER": 1, "IMAGEPATH": 1, "IMAGEURL": 1, "LOG": 1, "MAXSCALEDENOM": 1,
        "MINSCALEDENOM": 1, "TEMPLATE": 1, "VALIDATION": 0,
    },
    "SYMBOL": {"TRANSPARENT": 1, "ANCHORPOINT": 2},
    "LAYER": {
        "DEBUG": 1, "DUMP": 1, "FOOTER": 1, "GROUP": 1, "HEADER": 1, "LABELMAXSCALEDENOM": 1, "LABELMINSCALEDENOM": 1,
        "STATUS": 1, "UNITS": 1, "LABELCACHE": 1, "TOLERANCEUNITS": 1, "EXTENT": 4, "PROJECTION": 0, "VALIDATION": 0,
    },
    "CLASS": {"GROUP": 1, "NAME": 1, "TITLE": 1, "STATUS": 1, "TEMPLATE": 1},
    "STYLE": {"ANTIALIAS": 1, "MAXSIZE": 1, "MAXWIDTH": 1, "MINSIZE": 1, "MINWIDTH": 1},
    "LABEL": {
        "ANTIALIAS": 1, "ENCODING": 1, "MAXSIZE": 1, "MINFEATURESIZE": 1, "MINSIZE": 1,
        "REPEATDISTANCE": 1, "SIZE": 1, "TYPE": 1, "OFFSET": 2, "STYLE": 0,
    },
    "FEATURE": {},
}

# What several keywords ask for.
CONVERT = "use deploy/convert, or deploy/features"
LEAVE_OUT = "leave it out"
IN_STYLE = "write it into a STYLE of the CLASS"
PIXMAP = "draw the symbol as a pixmap, as deploy/convert does, or leave SYMBOL out for a square"
CIRCLE = f'behind CONFIG "WMS_SMOOTHING" a disc is read, of TYPE ELLIPSE, POINTS 1 1 END and FILLED TRUE; else {PIXMAP}'
PER_CLASS = "write a CLASS for each value that occurs"

# Keywords of MapServer that are refused, by their block, with what to do instead.
REFUSED = {
    "MAP": {
        "DATAPATTERN": LEAVE_OUT, "DEFRESOLUTION": LEAVE_OUT, "IMAGEQUALITY": LEAVE_OUT, "INTERLACE": LEAVE_OUT,
        "SYMBOLSET": "write its SYMBOL blocks into the mapfile", "TEMPLATEPATTERN": LEAVE_OUT,
        "TRANSPARENT": "leave it out: each request says TRANSPARENT",
    },
    "WEB": {
        "BROWSEFORMAT": LEAVE_OUT, "LEGENDFORMAT": LEAVE_OUT, "MAXSCALE": LEAVE_OUT, "MAXTEMPLATE": LEAVE_OUT,
        "MINSCALE": LEAVE_OUT, "MINTEMPLATE": LEAVE_OUT, "QUERYFORMAT": LEAVE_OUT, "TEMPPATH": LEAVE_OUT,
    },
    "SYMBOL": {
        "ANTIALIAS": LEAVE_OUT, "CHARACTER": PIXMAP, "FILLED": CIRCLE, "FONT": PIXMAP, "GAP": LEAVE_OUT,
        "LINECAP": LEAVE_OUT, "LINEJOIN": LEAVE_OUT, "LINEJOINMAXSIZE": LEAVE_OUT,
        "PATTERN": "leave it out: lines are never dashed", "POINTS": CIRCLE,
        "STYLE": "leave it out: lines are never dashed",
    },
    "LAYER": {
        "BINDVALS": CONVERT, "CLASSGROUP": "keep the CLASS blocks of one GROUP", "CLUSTER": "leave it out, or cluster the points before",
        "COMPOSITE": "leave it out: colours are opaque", "CONNECTION": CONVERT, "CONNECTIONOPTIONS": CONVERT,
        "CONNECTIONTYPE": CONVERT, "ENCODING": "write the mapfile and its tables in UTF-8, by deploy/features --encoding",
        "FILTER": "write an EXPRESSION into each CLASS, or choose by deploy/features --where",
        "FILTERITEM": "write an EXPRESSION into each CLASS, or choose by deploy/features --where",
        "GEOMTRANSFORM": "transform the features before, as by ogr2ogr -dialect SQLite",
        "GRID": "write its lines as FEATURE blocks, as demo/world.map does",
        "IDENTIFY": LEAVE_OUT, "JOIN": "join the table before, as by ogr2ogr -sql",
        "LABELANGLEITEM": "leave it out: labels are level", "LABELMAXSCALE": "write MAXSCALEDENOM into the CLASS",
        "LABELMINSCALE": "write MINSCALEDENOM into the CLASS", "LABELREQUIRES": LEAVE_OUT,
        "LABELSIZEITEM": "leave it out: letters are as large as the font has them",
        "MASK": "leave it out, or cut the features before, as by ogr2ogr -clipsrc",
        "MAXFEATURES": "leave it out, or choose by deploy/features --where",
        "MAXGEOWIDTH": "write MAXSCALEDENOM", "MAXSCALE": "write MAXSCALEDENOM",
        "MINFEATURESIZE": "leave it out: small features are drawn, too", "MINGEOWIDTH": "write MINSCALEDENOM",
        "MINSCALE": "write MINSCALEDENOM", "OFFSITE": "leave it out, and the raster layer with it",
        "OPACITY": "leave it out, or write the colour that results", "PLUGIN": CONVERT,
        "POSTLABELCACHE": "leave it out: labels lie above all layers", "REQUIRES": "leave it out: clients say which layers",
        "SCALETOKEN": "write a LAYER for each scale, with MINSCALEDENOM and MAXSCALEDENOM",
        "SIZEUNITS": "write SIZE and WIDTH in pixels", "STYLEITEM": PER_CLASS,
        "SYMBOLSCALE": "write SIZE in pixels, and a CLASS for each scale",
        "SYMBOLSCALEDENOM": "write SIZE in pixels, and a CLASS for each scale",
        "TILEFILTER": CONVERT, "TILEFILTERITEM": CONVERT, "TILEINDEX": CONVERT, "TILEITEM": CONVERT, "TILESRS": CONVERT,
        "TRANSFORM": "leave it out, and write POINTS in degrees",
        "TRANSPARENCY": "leave it out, or write the colour that results",
        "UTFDATA": LEAVE_OUT, "UTFITEM": LEAVE_OUT,
    },
    "CLASS": {
        "BACKGROUNDCOLOR": LEAVE_OUT, "COLOR": IN_STYLE, "DEBUG": LEAVE_OUT,
        "FALLBACK": "leave it out, and write the CLASS last, without EXPRESSION",
        "KEYIMAGE": LEAVE_OUT, "LEADER": "leave it out: a label stands at its anchor",
        "MAXSCALE": "write MAXSCALEDENOM", "MAXSIZE": LEAVE_OUT, "METADATA": LEAVE_OUT, "MINSCALE": "write MINSCALEDENOM",
        "MINFEATURESIZE": "leave it out: small features are drawn, too", "MINSIZE": LEAVE_OUT, "OUTLINECOLOR": IN_STYLE, "SIZE": IN_STYLE, "SYMBOL": IN_STYLE,
        "TEXT": "name an item by LABELITEM in the LAYER", "VALIDATION": LEAVE_OUT,
    },
    "STYLE": {
        "ANGLE": "leave it out, or turn the pixmap of the symbol", "ANGLEITEM": "write a CLASS and a SYMBOL for each angle",
        "BACKGROUNDCOLOR": LEAVE_OUT, "COLORRANGE": "write a CLASS for each range", "DATARANGE": "write a CLASS for each range",
        "GAP": "leave it out: symbols along a line aren't drawn",
        "GEOMTRANSFORM": "transform the features before, as by ogr2ogr -dialect SQLite",
        "INITIALGAP": "leave it out: symbols along a line aren't drawn", "LINECAP": "leave it out: lines end without a cap, in a smoothed map round",
        "LINEJOIN": "leave it out", "LINEJOINMAXSIZE": LEAVE_OUT, "MAXSCALEDENOM": "write it into a CLASS",
        "MINSCALEDENOM": "write it into a CLASS", "OFFSET": "leave it out, or shift the features before",
        "OPACITY": "leave it out, or write the colour that results",
        "OUTLINEWIDTH": "write a wider STYLE in the outline's colour before this one",
        "PATTERN": "leave it out: lines are never dashed", "POLAROFFSET": LEAVE_OUT, "RANGEITEM": "write a CLASS for each range",
        "SIZEITEM": "write a CLASS for each size",
    },
    "LABEL": {
        "ALIGN": LEAVE_OUT, "ANGLE": "leave it out: labels are level", "BACKGROUNDCOLOR": LEAVE_OUT,
        "BACKGROUNDSHADOWCOLOR": LEAVE_OUT, "BACKGROUNDSHADOWSIZE": LEAVE_OUT,
        "EXPRESSION": "write a CLASS with that EXPRESSION", "MAXLENGTH": LEAVE_OUT, "MAXOVERLAPANGLE": LEAVE_OUT,
        "MAXSCALEDENOM": "write it into a CLASS", "MINLENGTH": LEAVE_OUT, "MINSCALEDENOM": "write it into a CLASS",
        "POLAROFFSET": LEAVE_OUT, "SHADOWCOLOR": "leave it out, or write OUTLINECOLOR", "SHADOWSIZE": LEAVE_OUT,
        "TEXT": "name an item by LABELITEM in the LAYER", "WRAP": "leave it out: a label is one line",
    },
    "FEATURE": {"WKT": "write POINTS blocks"},
}
INCLUDE = "write into the mapfile what that file has"

# Keywords by which MapServer hides something at some scales or in some views, and which deploy/convert carries out in part or not.
EXPOSED = {
    "LAYER CLUSTER", "LAYER EXTENT", "LAYER MINGEOWIDTH", "LAYER MAXGEOWIDTH", "LAYER MINFEATURESIZE", "CLASS MINFEATURESIZE",
    "LABEL MINFEATURESIZE", "STYLE MINSCALEDENOM", "STYLE MAXSCALEDENOM",
}
# Metadata by which a layer shows the features of one time where a request names none.
TIMES = ("wms_timedefault", "ows_timedefault")

# Refused keywords that go on to an END.
REFUSED_BLOCKS = {
    "BINDVALS", "CLUSTER", "COMPOSITE", "CONNECTIONOPTIONS", "GRID", "IDENTIFY", "JOIN", "LEADER", "METADATA", "PATTERN",
    "POINTS", "SCALETOKEN", "STYLE", "VALIDATION",
}
# The words that open a block within such a one.
REFUSED_INNER = {"LABEL", "PATTERN", "STYLE", "VALUES"}

# Keywords that count in a smoothed map alone, with what another one does.
SMOOTHED = {"LABEL OUTLINEWIDTH": 'an outline is one pixel wide in a map without CONFIG "WMS_SMOOTHING"'}

# Keywords that count where they name what another one gives.
NAMED = {"LABEL FONT": 'it names the font of a CONFIG "LABELFONT name"; else it has no effect'}

# Why a word has no effect, where that isn't plain.
REASONS = {
    "PROJECTION": "coordinates are degrees, longitude before latitude",
    "FONTSET": 'each CONFIG "LABELFONT name" names the file of a font',
    "LABEL TYPE": "all fonts are bitmap fonts",
    "LABEL SIZE": "letters are as large as the font has them, an n-th of that where the map is smoothed by n",
    "LABEL OFFSET": "POSITION alone says where a label stands",
    "LABEL STYLE": "a label has no box and no symbol",
    "LABEL ENCODING": "texts are UTF-8",
    "LABEL REPEATDISTANCE": "a feature has one label",
    "LABEL MINFEATURESIZE": "small features are labelled, too",
    "SHAPEPATH": "files are looked for in the folder of the mapfile",
    "LAYER STATUS": "a layer is drawn where it is asked for",
    "CLASS STATUS": "a class counts; leave out one that is OFF",
    "IMAGECOLOR": "the background is that of the request",
    "IMAGETYPE": "each request names its FORMAT",
    "OUTPUTFORMAT": 'pictures are PPM and PAM, and PNG by CONFIG "WMS_FORMATS"; deploy/formats makes JPEG and WebP of them',
    "MAP SIZE": "each request names its WIDTH and HEIGHT",
    "MAP MAXSIZE": "a picture has at most 2,048 by 2,048 pixels",
    "MAP ANGLE": "a picture is never turned",
    "UNITS": "coordinates are degrees",
    "RESOLUTION": "a pixel counts as 0.28 mm",
    "LEGEND": "GetLegendGraphic isn't answered; deploy/legend writes a legend for the viewer",
    "CLASS NAME": "deploy/legend has it as the title of the class",
    "CLASS TITLE": "deploy/legend has it as the title of the class",
    "ANTIALIAS": "a map is smoothed as a whole, by CONFIG \"WMS_SMOOTHING\"",
    "SYMBOL TRANSPARENT": "pixels of the colour 255 0 255 are transparent",
    "SYMBOL ANCHORPOINT": "a symbol stands centred on its point",
    "LAYER GROUP": "the layers of the document have no groups",
    "LAYER EXTENT": "the extent is that of the MAP",
    "LABELMAXSCALEDENOM": "write MAXSCALEDENOM into the CLASS",
    "LABELMINSCALEDENOM": "write MINSCALEDENOM into the CLASS",
    "CLASS TEMPLATE": "write TEMPLATE into the LAYER, so that it can be asked for",
    "WEB TEMPLATE": "there is no page; deploy/viewer shows the map",
}

METADATA_KEYS = {
    "WEB": {"wms_title", "ows_title", "wms_onlineresource", "ows_onlineresource"},
    "LAYER": {"wms_title", "ows_title"},
}

# The ends of names of metadata by which MapServer keeps something from its clients.
ITEM_LISTS = ("_include_items", "_exclude_items")
ADDRESS_LISTS = ("_allowed_ip_list", "_denied_ip_list")


def access_of(owner, key):
    """What metadata says of who is answered: that it opens requests, limits addresses of the whole map, or shows one time alone."""
    key = key.lower()
    is_read = key.startswith(("wms_", "ows_"))
    found = {
        "opens": is_read and key.endswith("_enable_request"),
        "limits": is_read and owner == "WEB" and key.endswith(ADDRESS_LISTS),
        "exposes": key in TIMES,
    }
    return {name for name, is_found in found.items() if is_found}


def kept_back(owner, key, text):
    """What a value of metadata keeps from MapServer's clients and not from those here, with what to do; nothing for others."""
    key = key.lower()
    if owner == "LAYER" and key.endswith(ITEM_LISTS) and not (key.endswith(ITEM_LISTS[0]) and text.strip().lower() == "all"):
        return "a layer with TEMPLATE answers all of its ITEMS: write those alone that clients may see, or use deploy/convert"
    words = text.lower().split()
    is_whole = owner == "LAYER" or "*" in words or {"getcapabilities", "getmap", "getfeatureinfo"} <= {*words}
    if key.endswith("_enable_request") and (not is_whole or any(word.startswith("!") for word in words)):
        return f"what is in the mapfile is served to everybody: leave {'the LAYER' if owner == 'LAYER' else 'it'} out, or use deploy/convert"
    if key.endswith(ADDRESS_LISTS):
        return "everybody is answered: write allow and deny into nginx.conf"
    return None


# The values that a keyword takes: a range of counts or numbers, or words.
COUNTED = {
    "STYLE WIDTH": (1, 32), "STYLE SIZE": (1, 256), "LAYER TOLERANCE": (0, 64), "LABEL BUFFER": (0, 64),
    "LABEL PRIORITY": (1, 10), "LABEL MINDISTANCE": (-1, 4096),
}
# The widths of a label's outline, which a smoothed map alone judges.
OUTLINE_WIDTHS = (1, 8)
NUMBERS = {"MINSCALEDENOM": 10**12, "MAXSCALEDENOM": 10**12}
CHOICES = {
    "LAYER TYPE": "POINT LINE POLYGON", "SYMBOL TYPE": "PIXMAP", "LABEL POSITION": "UL UC UR CL CC CR LL LC LR AUTO",
    "LABEL PARTIALS": "TRUE FALSE", "LABEL FORCE": "TRUE FALSE", "LAYER LABELCACHE": "ON",
    "LAYER TOLERANCEUNITS": "PIXELS",
}
# What a SYMBOL of a smoothed map has for discs: keywords that are refused in others, with the number of their values, the values
# that it takes, and what it requires of a disc.
DISC_COUNTS = {"POINTS": 0, "FILLED": 1}
DISC_CHOICES = {"SYMBOL TYPE": "PIXMAP ELLIPSE", "SYMBOL FILLED": "TRUE"}
DISC_REQUIRED = ["NAME", "POINTS", "FILLED"]
# The names that a key of CONFIG takes, with spaces between them.
OFFERED = {"WMS_FORMATS": "image/png image/x-portable-pixmap image/x-portable-arbitrarymap", "WMS_CRS": "EPSG:3857"}
# The values of the key WMS_SMOOTHING.
SMOOTHINGS = "1 2 3 4"
# The keys of the fonts that have names, and how many names a map may have.
FONT_KEY, MOST_FONTS = re.compile("LABELFONT ([A-Za-z0-9_-]+)"), 16
# The other keys of CONFIG that have an effect.
CONFIGS = {"LABELFONT", "WMS_SMOOTHING", *OFFERED}

# What to write for a value of MapServer's that isn't taken, by block and keyword and then the value.
VALUES = {
    "LAYER TYPE": {
        "RASTER": "leave the layer out: rasters aren't drawn", "ANNOTATION": "write POINT, with a LABEL and no STYLE",
        "CIRCLE": "write POLYGON, with the circle's vertices", "QUERY": "leave the layer out",
        "CHART": "leave the layer out: charts aren't drawn", "TILEINDEX": CONVERT,
    },
    "SYMBOL TYPE": {"ELLIPSE": CIRCLE, **dict.fromkeys(("VECTOR", "TRUETYPE", "SVG", "HATCH", "SIMPLE", "CARTOLINE"), PIXMAP)},
    "LABEL POSITION": {"FOLLOW": "write AUTO: labels don't follow lines"},
    "LAYER TOLERANCEUNITS": dict.fromkeys(("METERS", "FEET", "INCHES", "KILOMETERS", "MILES", "DD"), "write TOLERANCE in pixels"),
    "LAYER LABELCACHE": {"OFF": "leave it out: labels are always placed together"},
}

MOST = {"LAYER": 128, "SYMBOL": 64, "CLASS": 64, "STYLE": 16, "LABEL": 1, "FEATURE": 200_000}
REQUIRED = {"LAYER": ["NAME", "TYPE"], "SYMBOL": ["NAME", "TYPE", "IMAGE"], "FEATURE": ["POINTS"]}
