"""WMS 1.1.1 (OGC 01-068r3) before a server of WMS 1.3.0: queries, exceptions and the capabilities document, translated."""
import math
import re
import urllib.parse
import xml.etree.ElementTree
import xml.sax.saxutils

VERSION = "1.1.1"
DOCUMENT, EXCEPTION = "application/vnd.ogc.wms_xml", "application/vnd.ogc.se_xml"
WMS, XLINK = "{http://www.opengis.net/wms}", "{http://www.w3.org/1999/xlink}"

# 1.1.1 has the longitudes of EPSG:4326 first, and so is its name for what 1.3.0 calls CRS:84.
SYSTEMS = {"EPSG:4326": "CRS:84", "EPSG:900913": "EPSG:3857"}
NAMES = {"SRS": "CRS", "X": "I", "Y": "J"}
CODES = {"InvalidCRS": "InvalidSRS"}
WORDS = {"CRS": "SRS", "I": "X", "J": "Y"}
# A pixel counts as 0.28 mm; a ScaleHint is the diagonal of one.
DIAGONAL = 0.00028 * math.sqrt(2)


def is_asked(values):
    """Whether a query is one of 1.1.1, or of 1.1.0, which is answered by 1.1.1."""
    return values.get("VERSION", "").startswith("1.1.")


def translated(pairs, values):
    """The pairs of a query as 1.3.0 has them; each is its text, its name in capitals and its value."""
    kept = []
    for text, name, value in pairs:
        if name == "VERSION":
            value = "1.3.0"
        elif name == "SRS":
            value = SYSTEMS.get(value, value)
        elif name not in NAMES:
            kept.append((text, name, value))
            continue
        name = NAMES.get(name, name)
        kept.append((f"{name}={urllib.parse.quote(value, safe=':,/')}", name, value))
    if values.get("REQUEST") == "GetFeatureInfo" and not values.get("INFO_FORMAT"):
        # the server looks at the first pair of a name alone
        kept = [pair for pair in kept if pair[1] != "INFO_FORMAT"]
        kept.append(("INFO_FORMAT=text/plain", "INFO_FORMAT", "text/plain"))
    return kept


def exception_of(body):
    """The exception of 1.1.1 that one of 1.3.0 is."""
    code, text = fault_of(body, True)
    return f"""<?xml version="1.0" encoding="UTF-8" standalone="no"?>
<!DOCTYPE ServiceExceptionReport SYSTEM "http://schemas.opengis.net/wms/1.1.1/exception_1_1_1.dtd">
<ServiceExceptionReport version="1.1.1">
<ServiceException code="{code}">{text}</ServiceException>
</ServiceExceptionReport>
""".encode()


def fault_of(body, is_older):
    """The code of an exception of the server's, and what it names, in the words of 1.1.1 or of 1.3.0."""
    found = re.search(r'<ServiceException code="(\w+)">([^<]*)<', body.decode("utf-8", "replace"))
    code, text = (found[1], found[2]) if found else ("NoApplicableCode", "the server gives no reason")
    return (CODES.get(code, code), WORDS.get(text, text)) if is_older else (code, text)


# The document


def text_at(element, path, otherwise=""):
    found = element.find("/".join(WMS + name for name in path.split("/")))
    return otherwise if found is None or found.text is None else found.text


def attributes(**given):
    return "".join(f" {name}={xml.sax.saxutils.quoteattr(value)}" for name, value in given.items())


def elements(name, text):
    return f"<{name}>{xml.sax.saxutils.escape(text)}</{name}>"


def box_lines(layer):
    """The boxes of the outer layer. Longitudes stand first, so that of CRS:84 is the one of EPSG:4326."""
    for box in layer.findall(f"{WMS}BoundingBox"):
        sides = {side: box.get(side) for side in ("minx", "miny", "maxx", "maxy")}
        if box.get("CRS") == "CRS:84":
            yield f"<LatLonBoundingBox{attributes(**sides)}/>"
            yield f"<BoundingBox{attributes(SRS='EPSG:4326', **sides)}/>"
        elif box.get("CRS") != "EPSG:4326":
            yield f"<BoundingBox{attributes(SRS=box.get('CRS'), **sides)}/>"


def layer_lines(layer):
    """The lines of a layer in a document of 1.1.1."""
    yield f"<Layer queryable=\"{layer.get('queryable', '0')}\">"
    name = text_at(layer, "Name", None)
    if name is not None:
        yield elements("Name", name)
    yield elements("Title", text_at(layer, "Title", name or ""))
    systems = ["EPSG:4326" if found.text == "CRS:84" else found.text for found in layer.findall(f"{WMS}CRS")]
    yield from (elements("SRS", system) for system in dict.fromkeys(systems))
    yield from box_lines(layer)
    least, most = (text_at(layer, f"{side}ScaleDenominator", None) for side in ("Min", "Max"))
    if least or most:
        hint = {"min": f"{float(least or 0) * DIAGONAL:.6f}", "max": f"{float(most or 1e12) * DIAGONAL:.6f}"}
        yield f"<ScaleHint{attributes(**hint)}/>"
    for inner in layer.findall(f"{WMS}Layer"):
        yield from layer_lines(inner)
    yield "</Layer>"


def operation_lines(name, formats, address):
    """The lines of an operation in a document of 1.1.1."""
    yield f"<{name}>"
    yield from (elements("Format", one) for one in formats)
    yield f'<DCPType><HTTP><Get><OnlineResource xmlns:xlink="http://www.w3.org/1999/xlink" xlink:type="simple"{attributes(**{"xlink:href": address})}/></Get></HTTP></DCPType>'
    yield f"</{name}>"


def document_of(body, exceptions):
    """The document of 1.1.1 with the layers, formats and address of one of 1.3.0."""
    root = xml.etree.ElementTree.fromstring(body)
    address = root.find(f"{WMS}Service/{WMS}OnlineResource").get(f"{XLINK}href")
    requests = root.find(f"{WMS}Capability/{WMS}Request")
    lines = [
        '<?xml version="1.0" encoding="UTF-8" standalone="no"?>',
        '<!DOCTYPE WMT_MS_Capabilities SYSTEM "http://schemas.opengis.net/wms/1.1.1/capabilities_1_1_1.dtd">',
        f"<WMT_MS_Capabilities{attributes(version=VERSION, updateSequence=root.get('updateSequence', '0'))}>",
        "<Service>", "<Name>OGC:WMS</Name>", elements("Title", text_at(root, "Service/Title")),
        f'<OnlineResource xmlns:xlink="http://www.w3.org/1999/xlink" xlink:type="simple"{attributes(**{"xlink:href": address})}/>', "</Service>",
        "<Capability>", "<Request>", *operation_lines("GetCapabilities", [DOCUMENT], address),
    ]
    for name in ("GetMap", "GetFeatureInfo"):
        operation = requests.find(WMS + name)
        if operation is not None:
            lines += operation_lines(name, [one.text for one in operation.findall(f"{WMS}Format")], address)
    lines += ["</Request>", "<Exception>", *(elements("Format", one) for one in exceptions), "</Exception>"]
    lines += [*layer_lines(root.find(f"{WMS}Capability/{WMS}Layer")), "</Capability>", "</WMT_MS_Capabilities>"]
    return ("\n".join(lines) + "\n").encode()
