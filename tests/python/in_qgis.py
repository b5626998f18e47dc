"""Opens a collection of the gateway in QGIS without a screen. /usr/bin/python3 runs it: in_qgis.py ADDRESS NAME BOX OUT ..

BOX is X0,Y0,X1,Y1. ADDRESS is that of the gateway, or MRTREE: and what the driver of GDAL takes. Of each four words
it prints a line of JSON: how many features there are, the coordinate system, the fields, and the numbers of those in
the box. It draws the box into OUT.png, and as plain bytes, three for each point, into OUT.rgb.
"""
import json
import os
import sys

from qgis.core import QgsApplication, QgsFeatureRequest, QgsFillSymbol, QgsMapRendererSequentialJob, QgsMapSettings
from qgis.core import QgsPalLayerSettings, QgsRectangle, QgsSingleSymbolRenderer, QgsVectorLayer
from qgis.core import QgsVectorLayerSimpleLabeling
from qgis.PyQt.QtCore import QSize
from qgis.PyQt.QtGui import QColor, QImage

SIZE = 400  # points of the picture along each side


def drawn(layer, box, out, is_plain):
    """Draws a box of a layer: plain, each area filled and without a line round it, or as a reader would have it."""
    style = {"color": "200,30,30,255", "style": "solid", "outline_style": "no"}
    if not is_plain:
        style = {"color": "236,214,170,255", "outline_color": "120,80,40,255", "outline_width": "0.2"}
        labels = QgsPalLayerSettings()
        labels.fieldName = "number"
        layer.setLabeling(QgsVectorLayerSimpleLabeling(labels))
        layer.setLabelsEnabled(True)
    layer.setRenderer(QgsSingleSymbolRenderer(QgsFillSymbol.createSimple(style)))
    settings = QgsMapSettings()
    settings.setLayers([layer])
    settings.setDestinationCrs(layer.crs())
    settings.setExtent(box)
    settings.setOutputSize(QSize(SIZE, SIZE))
    settings.setBackgroundColor(QColor(255, 255, 255))
    settings.setFlag(QgsMapSettings.Antialiasing, not is_plain)
    job = QgsMapRendererSequentialJob(settings)
    job.start()
    job.waitForFinished()
    image = job.renderedImage().convertToFormat(QImage.Format_RGB888)
    if not is_plain:
        image.save(out + ".png")
        return
    lines = [image.scanLine(row).asstring(3 * SIZE) for row in range(SIZE)]
    with open(out + ".rgb", "wb") as file:
        file.write(b"".join(lines))


def told_of(address, name, sides, out):
    """What QGIS tells of a collection."""
    source = "url='%s' typename='%s' restrictToRequestBBOX='1'" % (address, name)
    is_driver = address.startswith("MRTREE:")
    layer = QgsVectorLayer(address if is_driver else source, name, "ogr" if is_driver else "OAPIF")
    told = {"is_valid": layer.isValid()}
    if layer.isValid():
        box = QgsRectangle(*map(float, sides.split(",")))
        told.update({"count": layer.featureCount(), "crs": layer.crs().authid()})
        told["fields"] = [field.name() for field in layer.fields()]
        found = layer.getFeatures(QgsFeatureRequest().setFilterRect(box))
        told["numbers"] = sorted(feature["number"] for feature in found)
        if not is_driver:
            drawn(layer, box, out, True)
            drawn(layer, box, out, False)
    return told


def main(words):
    """Opens, counts, asks and draws, each collection in turn."""
    application = QgsApplication([], False)  # it has to be kept
    application.initQgis()
    messages = []
    QgsApplication.messageLog().messageReceived.connect(lambda text, *more: messages.append(text))
    for at in range(0, len(words), 4):
        told = told_of(*words[at : at + 4])
        application.processEvents()
        print(json.dumps({**told, "messages": messages}), flush=True)
        messages.clear()
    os._exit(0)  # what QGIS takes down by itself ends now and then with a signal


main(sys.argv[1:])
