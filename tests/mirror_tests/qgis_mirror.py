"""Opens views of a mirror with QGIS's own provider of PostGIS, and draws them to a picture.

    python3 qgis_mirror.py HOST PORT DATABASE PICTURE PROJECT GROUND WORD..

A WORD is NAME:KIND, a view and the kind of its geometries, or a box: four numbers with commas
between, in the office's system. GROUND is the box that is drawn. It prints what it found as JSON,
and leaves PROJECT, which QGIS Server serves. Without a box it only draws.
"""

import json
import sys
from typing import Any

from gateway_tests.qgis_layers import PAPER, SIZE, style
from qgis.core import (
    QgsApplication,
    QgsCoordinateReferenceSystem,
    QgsDataSourceUri,
    QgsFeatureRequest,
    QgsMapRendererParallelJob,
    QgsMapSettings,
    QgsProject,
    QgsRectangle,
    QgsVectorLayer,
    QgsWkbTypes,
)
from qgis.PyQt.QtGui import QImage

OFFICE = "EPSG:25832"


def layer_of(database: tuple[str, str, str], name: str, kind: str) -> Any:
    """The view of a collection as a layer."""
    source = QgsDataSourceUri()
    source.setConnection(*database, "streetmap_reader", "")
    source.setDataSource("collections", name, "geometry", "", "id")
    source.setSrid("25832")
    source.setWkbType(getattr(QgsWkbTypes, kind))
    return QgsVectorLayer(source.uri(), name, "postgres")


def rectangle(box: str) -> Any:
    return QgsRectangle(*map(float, box.split(",")))


def ids_of(layer: Any, request: Any) -> list[str]:
    return sorted(feature["id"] for feature in layer.getFeatures(request))


def look(layer: Any, boxes: list[str]) -> dict[str, Any]:
    """What QGIS finds in a layer: whole, by boxes, and by a filter of its own."""
    found: dict[str, Any] = {"valid": layer.isValid(), "crs": layer.crs().authid()}
    found["count"] = layer.featureCount()
    found["fields"] = {field.name(): field.typeName() for field in layer.fields()}
    found["ids"] = ids_of(layer, QgsFeatureRequest())
    exact = QgsFeatureRequest.ExactIntersect
    found["boxes"] = {
        box: ids_of(layer, QgsFeatureRequest(rectangle(box)).setFlags(exact)) for box in boxes
    }
    layer.setSubsetString('"no" < 10')
    found["filtered"] = ids_of(layer, QgsFeatureRequest())
    found["filtered count"] = layer.featureCount()
    layer.setSubsetString("")
    found["expression"] = ids_of(layer, QgsFeatureRequest().setFilterExpression('"no" = 7'))
    return found


def draw(layers: list[Any], ground: str, picture: str) -> int:
    """Draws the layers, points above lines above areas, and counts points that are not paper."""
    settings = QgsMapSettings()
    settings.setLayers(sorted(layers, key=lambda layer: int(layer.geometryType())))
    settings.setDestinationCrs(QgsCoordinateReferenceSystem(OFFICE))
    settings.setExtent(rectangle(ground))
    settings.setOutputSize(SIZE)
    settings.setBackgroundColor(PAPER)
    settings.setFlag(QgsMapSettings.Antialiasing, True)
    job = QgsMapRendererParallelJob(settings)
    job.start()
    job.waitForFinished()
    image: QImage = job.renderedImage()
    image.save(picture)
    paper = PAPER.rgb()
    columns = range(0, SIZE.width(), 3)
    return sum(image.pixel(x, y) != paper for x in columns for y in range(0, SIZE.height(), 3))


def save_project(layers: list[Any], path: str) -> bool:
    """A project that QGIS Server serves by WMS and WFS."""
    project = QgsProject.instance()
    project.setCrs(QgsCoordinateReferenceSystem(OFFICE))
    project.addMapLayers(layers)
    project.writeEntry("WFSLayers", "/", [layer.id() for layer in layers])
    for layer in layers:
        project.writeEntry("WFSLayersPrecision", f"/{layer.id()}", 3)
    project.writeEntry("WMSCrsList", "/", [OFFICE])
    return bool(project.write(path))


def main() -> None:
    host, port, database, picture, project, ground, *rest = sys.argv[1:]
    boxes = [word for word in rest if "," in word]
    application = QgsApplication([], False)
    application.initQgis()
    layers = [layer_of((host, port, database), *word.split(":")) for word in rest if ":" in word]
    found: dict[str, Any] = {layer.name(): look(layer, boxes) for layer in layers if boxes}
    for layer in layers:
        style(layer)
    found["drawn"] = draw(layers, ground, picture)
    found["project"] = save_project(layers, project)
    print(json.dumps(found), flush=True)
    application.exitQgis()


if __name__ == "__main__":
    main()
