"""For compare/trade/run, in the Python that QGIS belongs to: reads lines of JSON, a table and points, and prints a line of colours."""
import json
import sys

from qgis.core import QgsApplication, QgsColorRampShader, QgsRasterRendererUtils

application = QgsApplication([], False)
application.initQgis()
for line in sys.stdin:
    job = json.loads(line)
    is_read, items, sort, _ = QgsRasterRendererUtils.parseColorMapFile(job['table'])
    shader = QgsColorRampShader()
    shader.setColorRampType(sort)
    shader.setColorRampItemList(items)
    shown = [shader.shade(point) for point in job['points']] if is_read else []
    print(json.dumps([list(colour[1:]) for colour in shown if colour[0]]), flush=True)
