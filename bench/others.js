// Does what a command of topotool does by topojson-client: node others.js COMMAND FILE prints its answer.
const fs = require("fs");
const topojson = require("topojson-client");

const topology = JSON.parse(fs.readFileSync(process.argv[3]));
const layer = topology.objects.a;
const answers = {
  feature: () => topojson.feature(topology, layer),
  mesh: () => topojson.mesh(topology),
  neighbors: () => topojson.neighbors(layer.geometries),
};
process.stdout.write(JSON.stringify(answers[process.argv[2]]()));
