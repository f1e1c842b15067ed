#!/usr/bin/env python3
"""Takes the pictures of docs/PICTURES.md, over the streams in examples/.

    tools/pictures.py [PYTHON]

PYTHON runs the package, /usr/bin/python3 if left out. It needs the built library, Chromium, and for
the index in a map python3-qgis, by which PYTHON draws without a window. The pictures go to
docs/pictures, and the day to the page. CI does not run this.
"""

import argparse
import datetime
import os
import re
import subprocess
import sys
import tempfile
from contextlib import contextmanager
from pathlib import Path
from typing import Iterator

ROOT = Path(__file__).resolve().parent.parent
sys.path.insert(0, str(ROOT / "python"))
from tests.browser import CHROMIUM, Browser, browser  # noqa: E402

EXAMPLES, FOLDER = ROOT / "examples", ROOT / "docs" / "pictures"
PAGE = ROOT / "docs" / "PICTURES.md"
TAKEN = re.compile(r"(<!-- taken: made by tools/pictures\.py -->\n).*\n(<!-- taken: end -->)")
ATTRIBUTES = "use", "oorspronkelijkbouwjaar"  # of the sample: a text, and a year
WIDTH, MOST_BYTES = 1000, 200_000  # pixels, and the most bytes of a picture

# Draws both layers of an index: the extents, each filled by one attribute of its feature and
# labelled by another, and over them the footprints. QGIS needs a process of its own.
MAP = """
import os
import sys
from qgis.core import (QgsApplication, QgsCategorizedSymbolRenderer, QgsFillSymbol,
                       QgsMapRendererParallelJob, QgsMapSettings, QgsPalLayerSettings,
                       QgsRendererCategory, QgsSingleSymbolRenderer, QgsVectorLayer,
                       QgsVectorLayerSimpleLabeling)
from qgis.PyQt.QtCore import QSize
from qgis.PyQt.QtGui import QColor

COLOURS = "#8dd3c7", "#ffffb3", "#bebada", "#fb8072", "#80b1d3", "#fdb462"


def opened(index, name):
    layer = QgsVectorLayer(f"{index}|layername={name}", name, "ogr")
    assert layer.isValid() and layer.featureCount(), name
    return layer


def filled(layer, column):
    values = sorted(layer.uniqueValues(layer.fields().indexOf(column)))
    assert len(values) == len(COLOURS), values
    categories = [
        QgsRendererCategory(value, QgsFillSymbol.createSimple({"color": colour}), value)
        for value, colour in zip(values, COLOURS)
    ]
    layer.setRenderer(QgsCategorizedSymbolRenderer(column, categories))


def labelled(layer, column):
    assert layer.fields().field(column).isNumeric(), column
    settings = QgsPalLayerSettings()
    settings.fieldName = column
    layer.setLabeling(QgsVectorLayerSimpleLabeling(settings))
    layer.setLabelsEnabled(True)


index, output, kind, number = sys.argv[1:]
application = QgsApplication([], False)
application.initQgis()
features, footprints = opened(index, "features"), opened(index, "footprints")
filled(features, kind)
labelled(features, number)
outline = {"style": "no", "outline_color": "#1f5f8b", "outline_width": "0.3"}
footprints.setRenderer(QgsSingleSymbolRenderer(QgsFillSymbol.createSimple(outline)))
layers = [footprints, features]
settings = QgsMapSettings()
settings.setLayers(layers)
settings.setDestinationCrs(layers[0].crs())
settings.setBackgroundColor(QColor("white"))
settings.setOutputSize(QSize(1000, 640))
extent = layers[0].extent()
extent.scale(1.05)
settings.setExtent(extent)
job = QgsMapRendererParallelJob(settings)
job.start()
job.waitForFinished()
assert job.renderedImage().save(output, "png")
os._exit(0)  # QGIS may crash when it ends while layers are there
"""


class Package:
    """The command of the package.

    Attributes:
        words: how to run it.
        settings: the environment.
    """

    def __init__(self, python: str) -> None:
        self.python = python
        self.words = [python, "-m", "cityseq"]
        self.settings = {**os.environ, "PYTHONPATH": str(ROOT / "python")}

    def run(self, *words: str) -> int:
        """Runs a command of the package in the folder of the examples. Returns its status."""
        words = (*self.words, *words)
        return subprocess.run(words, env=self.settings, cwd=EXAMPLES, check=False).returncode

    @contextmanager
    def server(self, index: str) -> Iterator[str]:
        """Serves an index. Yields the URL."""
        words = [*self.words, "serve", "--port", "0", "--quiet", index]
        server = subprocess.Popen(words, env=self.settings, stderr=subprocess.PIPE)
        try:
            assert server.stderr is not None
            yield server.stderr.readline().decode().split(" ")[0]
        finally:
            server.terminate()
            server.wait()


def save(name: str, picture: bytes) -> None:
    """Saves a picture.

    Raises:
        ValueError: it has too many bytes.
    """
    if len(picture) > MOST_BYTES:
        raise ValueError(f"{name} has {len(picture):,} bytes")
    (FOLDER / f"{name}.png").write_bytes(picture)
    print(f"{name}.png: {len(picture):,} bytes")


def show(page: Browser, url: str, height: int) -> None:
    """Opens a URL in a window of this height, and waits until nothing more is loaded."""
    page.load(url, WIDTH, height=height)
    page.run("document.fonts.ready.then(() => true)")


def scroll(page: Browser, name: str) -> None:
    """Scrolls to the element with this id."""
    page.run(f"document.getElementById('{name}').scrollIntoView()")


def report(page: Browser, package: Package, folder: Path) -> None:
    """Takes the page about a delivery: its top, and its map."""
    streams = [f"{name}.city.jsonl" for name in ("sample", "town", "delivery")]
    output = folder / "delivery.html"
    assert package.run("report", "--quiet", "--output", str(output), *streams) == 1
    show(page, output.as_uri(), 960)
    save("report", page.picture(whole=False))
    scroll(page, "where")
    save("report-map", page.picture(whole=False))


def serve(page: Browser, package: Package, index: str) -> None:
    """Takes the map of the server, and its verdict on a file that is dropped."""
    with package.server(index) as url:
        show(page, f"{url}collections/sample/items?f=html&limit=120", 900)
        save("server-map", page.picture(whole=False))
        show(page, f"{url}?f=html", 1000)
        found = page.call("Runtime.evaluate", expression="document.getElementById('file')")
        files = [str(EXAMPLES / "delivery.city.jsonl")]
        page.call("DOM.setFileInputFiles", files=files, objectId=found["result"]["objectId"])
        page.run("document.getElementById('start').click()")
        page.run(
            "new Promise((done) => { const look = () => document.getElementById('verdict')"
            ".textContent ? done(true) : setTimeout(look, 50); look(); })"
        )
        scroll(page, "verdict")
        save("server-check", page.picture(whole=False))


def draw(package: Package, index: str, folder: Path) -> None:
    """Draws an index by QGIS."""
    settings = {**os.environ, "QT_QPA_PLATFORM": "offscreen"}
    output = folder / "index.png"
    words = [package.python, "-c", MAP, index, str(output), *ATTRIBUTES]
    subprocess.run(words, env=settings, check=True, stderr=subprocess.DEVNULL)
    save("index", output.read_bytes())


def main() -> int:
    """Runs the command. Returns its status."""
    parser = argparse.ArgumentParser(description=(__doc__ or "").partition("\n")[0])
    parser.add_argument("python", nargs="?", default="/usr/bin/python3")
    package = Package(parser.parse_args().python)
    if CHROMIUM is None:
        print("chromium is not there", file=sys.stderr)
        return 1
    FOLDER.mkdir(exist_ok=True)
    with tempfile.TemporaryDirectory() as name, browser() as page:
        folder = Path(name)
        index = str(folder / "sample.gpkg")
        words = ["--footprints", "--attributes", ",".join(ATTRIBUTES), "--output", index]
        assert package.run("index", "--quiet", *words, "sample.city.jsonl") == 0
        report(page, package, folder)
        serve(page, package, index)
        draw(package, index, folder)
    today = f"{datetime.date.today():%-d %B %Y}"
    text = PAGE.read_text(encoding="utf-8")
    PAGE.write_text(TAKEN.sub(rf"\1They were taken on {today}.\n\2", text), encoding="utf-8")
    return 0


if __name__ == "__main__":
    sys.exit(main())
