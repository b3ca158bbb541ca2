"""Draws a map of the island of examples/own-map: python3 examples/python/map.py [PICTURE]

Its cells begin with `# %%`, as those of notebooks of Jupyter, VS Code and Spyder. They need noshinka, geopandas and matplotlib.
Without PICTURE, a window or the notebook shows the map.
"""

# %% The districts of a GeoJSON file in degrees become a topology, and this a frame again.
import sys
from pathlib import Path

import geopandas
from matplotlib import pyplot
from shapely.geometry import shape

import noshinka

HERE = Path(__file__ if "__file__" in globals() else "examples/python/map.py").resolve().parent
island = noshinka.build({"districts": HERE.parent / "own-map" / "island.geojson"})
districts = noshinka.to_geodataframe(island, "districts", crs="EPSG:4326")

# %% Each district gets the first colour that no neighbour has.
COLOURS = ["#c7dcb5", "#f2e2a9", "#e8c3b0", "#c5d3e8", "#d9c7e2"]
neighbors = noshinka.neighbors(island, "districts").json()
colours: list[int] = []
for others in neighbors:
    taken = {colours[it] for it in others if it < len(colours)}
    colours.append(min({*range(len(COLOURS))} - taken))


# %% Borders come from the topology, each once: those between two districts, and the coast.
def borders(edges):
    lines = shape(noshinka.mesh(island, "districts", edges=edges).json())
    return geopandas.GeoSeries([lines], crs=districts.crs).scale(1e-6, 1e-6, origin=(0, 0))


figure, axes = pyplot.subplots(figsize=(7, 6))
districts.plot(ax=axes, color=[COLOURS[it] for it in colours])
borders("interior").plot(ax=axes, color="#7a6f5d", linewidth=1, linestyle="--")
borders("exterior").plot(ax=axes, color="#2f4b6e", linewidth=2)
for name, inside in zip(districts["name"], districts.representative_point()):
    axes.annotate(name, inside.coords[0], ha="center", fontsize=9)
axes.set_facecolor("#dbe9f4")
axes.set_title(f"{len(districts)} districts, {sum(map(len, neighbors)) // 2} borders")
figure.tight_layout()

# %% The picture.
if sys.argv[1:]:
    figure.savefig(sys.argv[1], dpi=120)
else:
    pyplot.show()
