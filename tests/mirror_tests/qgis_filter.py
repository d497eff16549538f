"""Reads a collection of a gateway by QGIS's own provider with a filter, and prints what it showed.

    /usr/bin/python3 qgis_filter.py URL COLLECTION FILTER
"""

import json
import sys

from qgis.core import QgsApplication, QgsVectorLayer


def main() -> None:
    url, collection, subset = sys.argv[1:]
    application = QgsApplication([], False)
    application.initQgis()
    source = f"url='{url}' typename='{collection}' pagingEnabled='true'"
    layer = QgsVectorLayer(source, collection, "OAPIF")
    is_taken = layer.setSubsetString(subset)
    ids = sorted(str(each["id"]) for each in layer.getFeatures())
    print(json.dumps({"valid": layer.isValid(), "taken": is_taken, "ids": ids}))


main()
