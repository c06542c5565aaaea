#!/usr/bin/python3
"""What deploy/convert makes of layers with a CLUSTER (deploy/lib/mapconvert/clusters.py)."""
import pathlib
import sys
import unittest
from types import SimpleNamespace

sys.path.insert(0, str(pathlib.Path(__file__).resolve().parents[1] / "lib"))

import loading

loading.has_package("mapscript", MapServerError=OSError)
from mapconvert import clusters


class Part:
    """A class or a label as mapscript has it: what is set is what is given."""

    def __init__(self, rule=None, text=None, *labels):
        self.rule, self.text, self.labels, self.numlabels = rule, text, labels, len(labels)

    def getExpressionString(self):
        return self.rule

    def setExpression(self, rule):
        self.rule = rule or None

    def getTextString(self):
        return self.text

    def setText(self, text):
        self.text = text

    def getLabel(self, at):
        return self.labels[at]


def layer_of(*kinds, item=None, label_item=None, region="ellipse", rule=None):
    return SimpleNamespace(cluster=SimpleNamespace(region=region, getFilterString=lambda: rule), numclasses=len(kinds), getClass=lambda at: kinds[at],
                           classitem=item, labelitem=label_item)


class Clusters(unittest.TestCase):
    def test_classes_of_several_points_are_gone_and_the_others_have_no_count(self):
        kinds = [Part("([cluster_featurecount] > 1)"), Part("([Cluster:FeatureCount] = 1)"), Part('("[kind]" = "a" AND [Cluster_FeatureCount] < 5)'), Part('("[kind]" = "b")'), Part()]
        self.assertEqual(clusters.settle(layer_of(*kinds)), {0})
        self.assertEqual([kind.rule for kind in kinds[1:]], [None, '("[kind]" = "a" AND 1 < 5)', '("[kind]" = "b")', None])

    def test_classes_by_their_item(self):
        kinds = [Part('"1"'), Part("/^[2-9]/"), Part("{1,2}"), Part('"7"i'), Part("/^1$/"), Part()]
        layer = layer_of(*kinds, item="Cluster_FeatureCount")
        self.assertEqual(clusters.settle(layer), {1, 3})
        self.assertEqual(([kinds[at].rule for at in (0, 2, 4, 5)], layer.classitem), ([None] * 4, None))

    def test_texts_have_a_1(self):
        label = Part('([Cluster_FeatureCount] > 3)', "n: [Cluster_FeatureCount]")
        kind, plain = Part(None, None, label), Part(None, None, Part())
        layer = layer_of(kind, plain, label_item="cluster_featurecount")
        self.assertEqual(clusters.settle(layer), set())
        self.assertEqual((label.rule, label.text, kind.text, plain.text, layer.labelitem), ("(1 > 3)", "n: 1", '"1"', '"1"', None))

    def test_other_layers_stay_as_they_are(self):
        kind = Part("([Cluster_FeatureCount] > 1)")
        self.assertIsNone(clusters.settle(layer_of(kind, region=None)))
        self.assertEqual(kind.rule, "([Cluster_FeatureCount] > 1)")
        self.assertIsNone(clusters.settle(layer_of(Part('("[kind]" = "a")'), item="kind")))

    def test_a_filter_that_hides_single_points_or_may(self):
        rows = [(None, False), ("([Cluster_FeatureCount] > 0)", False), ("([Cluster_FeatureCount] > 3)", True), ('("[kind]" = "a")', True), ("([Cluster_FeatureCount] ! 3)", True)]
        for rule, hides in rows:
            self.assertEqual(clusters.hides_points(layer_of(rule=rule)), hides, rule)
        self.assertFalse(clusters.hides_points(layer_of(rule="([Cluster_FeatureCount] > 3)", region=None)))


if __name__ == "__main__":
    unittest.main()
