"""Layers with a CLUSTER, of which each point stands for itself: Cluster_FeatureCount, by which they have classes and labels, is 1."""
import re

from mapconvert import conditions, texts

# Its names in MapServer 8, and before.
NAMES = {"cluster_featurecount": "1", "cluster:featurecount": "1"}
NAMED = re.compile(r"\[\s*cluster[_:]featurecount\s*\]", re.IGNORECASE)


def is_count(item):
    return (item or "").lower() in NAMES


def hides_points(layer):
    """Whether the FILTER of a CLUSTER hides a point that stands for itself, so that only several together are shown."""
    rule = NAMED.sub("1", (layer.cluster.getFilterString() or "") if layer.cluster.region else "")
    return bool(rule) and holds(rule, None) is not True


def holds(rule, item):
    """Whether a rule on the count alone holds for one point; nothing where it goes by other items, too, or isn't read here."""
    by_item = not rule.startswith("(")
    if "[" in rule and not by_item or by_item and rule and not is_count(item):
        return None
    try:
        if by_item and rule.startswith("/"):
            # Python's regular expressions and C's are alike on the text 1
            return re.search(rule.removesuffix("i")[1:-1], "1") is not None
        return not rule or conditions.label_holds(rule, item, NAMES)
    except (texts.NoText, re.error):
        return None


def settle(layer):
    """Writes 1 for the count into all of a clustered layer; the numbers of the classes that no single point has, or nothing without a count."""
    if not layer.cluster.region:
        return None
    kinds = [layer.getClass(number) for number in range(layer.numclasses)]
    rules = [kind.getExpressionString() or "" for kind in kinds]
    gone, found = set(), is_count(layer.labelitem)
    for number, (kind, rule) in enumerate(zip(kinds, rules)):
        found |= is_counted(kind, rule, layer)
        if NAMED.search(rule) or is_count(layer.classitem):
            settled = holds(NAMED.sub("1", rule), layer.classitem)
            gone |= {number} if settled is False else set()
            kind.setExpression("" if settled else NAMED.sub("1", rule))
        settle_texts(kind, layer)
    layer.classitem = None if is_count(layer.classitem) else layer.classitem
    layer.labelitem = None if is_count(layer.labelitem) else layer.labelitem
    return gone if found else None


def is_counted(kind, rule, layer):
    """Whether a class goes by the count, by its rule or by a text."""
    labels = [kind.getLabel(at) for at in range(kind.numlabels)]
    written = [rule, kind.getTextString(), *(label.getTextString() for label in labels), *(label.getExpressionString() for label in labels)]
    return is_count(layer.classitem) and bool(rule) or any(NAMED.search(text or "") for text in written)


def settle_texts(kind, layer):
    """Writes 1 into the texts of a class and its labels, and into the rules of these."""
    text = kind.getTextString() or ('"[Cluster_FeatureCount]"' if is_count(layer.labelitem) else None)
    if text and NAMED.search(text):
        kind.setText(NAMED.sub("1", text))
    for at in range(kind.numlabels):
        label = kind.getLabel(at)
        for given, set_one in ((label.getTextString(), label.setText), (label.getExpressionString(), label.setExpression)):
            if given and NAMED.search(given):
                set_one(NAMED.sub("1", given))
