"""Opens collections of a gateway with QGIS's own provider, and draws them to a picture.

    QT_QPA_PLATFORM=offscreen python3 qgis_layers.py URL PICTURE GROUND COLLECTION.. BOX..

Prints what it found as JSON. A box is four numbers with commas between, in degrees; GROUND is one
in EPSG:25832, which is drawn.
"""

import json
import sys
from typing import Any

from qgis.core import (
    QgsApplication,
    QgsCoordinateReferenceSystem,
    QgsFeatureRequest,
    QgsMapRendererParallelJob,
    QgsMapSettings,
    QgsProject,
    QgsRectangle,
    QgsVectorLayer,
    QgsWkbTypes,
)
from qgis.PyQt.QtCore import QSize
from qgis.PyQt.QtGui import QColor, QImage

SIZE = QSize(900, 600)
PAPER = QColor("#f6f4ee")
# Of each collection its colour and that of its outline, and a width or size in millimetres.
STYLES = {
    "buildings": ("#d9c7ac", "#a08a66", 0.2),
    "kerbs": ("#8a8f94", "#8a8f94", 0.4),
    "lamps": ("#f0a500", "#7a5200", 1.6),
    "parks": ("#cfe6c0", "#9cc286", 0.2),
    "trees": ("#5d9a58", "#3f7040", 2.2),
}
PLAIN = ("#5577cc", "#334477", 0.5)


def layer_of(url: str, name: str, more: str = "") -> Any:
    return QgsVectorLayer(f"url='{url}/' typename='{name}' {more}", name, "OAPIF")


def rectangle(box: str) -> Any:
    return QgsRectangle(*map(float, box.split(",")))


def look(url: str, name: str, boxes: list[str]) -> dict[str, Any]:
    """What QGIS finds in a collection, whole and by boxes that it requests."""
    layer = layer_of(url, name, "pageSize='50'")
    found: dict[str, Any] = {"valid": layer.isValid(), "crs": layer.crs().authid()}
    found["count"] = layer.featureCount()
    found["ids"] = [feature["id"] for feature in layer.getFeatures()]
    found["boxes"] = {}
    for box in boxes:
        part = layer_of(url, name, "restrictToRequestBBOX='1' pageSize='50'")
        request = QgsFeatureRequest(rectangle(box))
        found["boxes"][box] = sorted(feature["id"] for feature in part.getFeatures(request))
    return found


def style(layer: Any) -> None:
    """Gives a layer the style of its collection."""
    colour, outline, size = STYLES.get(layer.name(), PLAIN)
    symbol = layer.renderer().symbol()
    symbol.setColor(QColor(colour))
    drawn = symbol.symbolLayer(0)
    if layer.geometryType() == QgsWkbTypes.LineGeometry:
        symbol.setWidth(size)
        return
    drawn.setStrokeColor(QColor(outline))
    drawn.setStrokeWidth(0.2)
    if layer.geometryType() == QgsWkbTypes.PointGeometry:
        symbol.setSize(size)


def draw(url: str, names: list[str], ground: str, picture: str) -> int:
    """Draws the collections, points above lines above areas, and counts points that are not
    paper."""
    layers = [layer_of(url, name) for name in names]
    for layer in layers:
        style(layer)
    layers.sort(key=lambda layer: int(layer.geometryType()))
    settings = QgsMapSettings()
    settings.setLayers(layers)
    settings.setDestinationCrs(QgsCoordinateReferenceSystem("EPSG:25832"))
    settings.setExtent(rectangle(ground))
    settings.setOutputSize(SIZE)
    settings.setOutputImageFormat(QImage.Format_RGB32)
    settings.setBackgroundColor(PAPER)
    settings.setFlag(QgsMapSettings.Antialiasing, True)
    settings.setTransformContext(QgsProject.instance().transformContext())
    job = QgsMapRendererParallelJob(settings)
    job.start()
    job.waitForFinished()
    image: QImage = job.renderedImage()
    image.save(picture)
    paper = PAPER.rgb()
    columns = range(0, SIZE.width(), 3)
    return sum(image.pixel(x, y) != paper for x in columns for y in range(0, SIZE.height(), 3))


def main() -> None:
    url, picture, ground, *rest = sys.argv[1:]
    names = [word for word in rest if "," not in word]
    boxes = [word for word in rest if "," in word]
    application = QgsApplication([], False)
    application.initQgis()
    found: dict[str, Any] = {name: look(url, name, boxes) for name in names}
    found["drawn"] = draw(url, [name for name in names if name != "mixed"], ground, picture)
    print(json.dumps(found), flush=True)
    application.exitQgis()


if __name__ == "__main__":
    main()
