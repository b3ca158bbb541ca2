// What topojson-client and d3-geo say of topologies: node answers.js FILE... prints an answer for each file, a line each.
const fs = require("fs");
const topojson = require("topojson-client");
const d3 = require("d3-geo");

const filters = { all: undefined, interior: (a, b) => a !== b, exterior: (a, b) => a === b };

function meshes(topology, object) {
  return Object.fromEntries(Object.entries(filters).map(([name, filter]) => [name, topojson.mesh(topology, object, filter)]));
}

for (const file of process.argv.slice(2)) {
  const topology = JSON.parse(fs.readFileSync(file));
  const layers = {};
  for (const [name, object] of Object.entries(topology.objects)) {
    const collection = topojson.feature(topology, object);
    layers[name] = {
      features: collection.features,
      neighbors: topojson.neighbors(object.geometries),
      meshes: meshes(topology, object),
      bounds: d3.geoPath().bounds(collection),
    };
  }
  console.log(JSON.stringify({ layers, mesh: topojson.mesh(topology) }));
}
