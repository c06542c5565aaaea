"""What MapServer's clients may see of a map: which requests its metadata closes, and which items of a layer are answered.

`opens` says that what MapServer keeps back by default counts as open: a map without any enable_request, and as text the items
that gml_include_items alone includes.
"""

SERVICES = ("wms_", "ows_")
ITEM_LISTS = ("wms_", "ows_", "gml_")
ADDRESS_LISTS = ("allowed_ip_list", "denied_ip_list")


def words_on(text, request):
    """What an enable_request says of a request: whether it is open, and nothing where it doesn't say."""
    answer = None
    for word in text.split():
        named = word.lstrip("!").lower()
        if named == request.lower():
            return not word.startswith("!")
        if named == "*":
            answer = not word.startswith("!")
    return answer


def first_of(metadata, prefixes, name):
    """The name with the first of the prefixes under which it is given, and its text; nothing where it isn't given."""
    found = ((prefix + name, metadata.get(prefix + name)) for prefix in prefixes)
    return next(((key, text) for key, text in found if text is not None), None)


def is_open(map, layer, request, opens=False):
    """Whether a request for a layer is answered: the layer's words count before the map's, and nothing is where neither says."""
    owners = [owner.metadata for owner in ([layer] if layer else []) + [map.web]]
    for metadata in owners:
        for prefix in SERVICES:
            answer = words_on(metadata.get(prefix + "enable_request") or "", request)
            if answer is not None:
                return answer
    return opens and first_of(map.web.metadata, SERVICES, "enable_request") is None


def says_nothing(map, layers):
    """Whether neither a map nor one of its layers has an enable_request, so that MapServer answers no WMS request."""
    owners = [map.web, *layers]
    return all(first_of(owner.metadata, SERVICES, "enable_request") is None for owner in owners)


def addresses(metadata):
    """The name of a list by which some addresses alone are answered; nothing where there is none."""
    found = (first_of(metadata, SERVICES, name) for name in ADDRESS_LISTS)
    return next((one[0] for one in found if one), None)


def closed(map, layer, opens=False):
    """What closes a layer, in words; nothing where GetMap and GetCapabilities are open to everybody."""
    for request in ("GetMap", "GetCapabilities"):
        if not is_open(map, layer, request, opens):
            return "no enable_request opens it" if says_nothing(map, [layer]) else f"enable_request closes it for {request}"
    listed = addresses(layer.metadata)
    return f"{listed} closes it for some addresses" if listed else None


def is_for_gml(layer):
    """Whether gml_include_items alone includes items: MapServer answers these as GML, and none as text."""
    return first_of(layer.metadata, SERVICES, "include_items") is None and layer.metadata.get("gml_include_items") is not None


def answered(layer, names, opens=False):
    """Those of a layer's items that its clients are answered, compared in any case: none, where no metadata includes one."""
    included = first_of(layer.metadata, ITEM_LISTS if opens else SERVICES, "include_items")
    if included is None:
        return []
    lists = [layer.metadata.get(prefix + "exclude_items") or "" for prefix in ITEM_LISTS]
    excluded = {item.strip().lower() for text in lists for item in text.split(",")}
    wanted = set(included[1].lower().split(","))
    takes_all = included[1].strip().lower() == "all"
    if "all" in excluded:
        return []
    return [name for name in names if (takes_all or name.lower() in wanted) and name.lower() not in excluded]
