/* global L */
// The small map of a page of features, or of one: Leaflet draws what the page shows, in degrees.
// It has no background, so nothing comes from another host. Without Leaflet no map is shown.

const COLOUR = "#0b6bcb";
const LINE = { color: COLOUR, weight: 2, fillOpacity: 0.25 };
const POINT = { radius: 6, color: "#ffffff", weight: 1, fillColor: COLOUR, fillOpacity: 0.9 };
const NEAREST = 19;

/** The text of a feature's id, and a link to its page if the map has several. */
function label(feature, isAlone) {
  const name = document.createTextNode(String(feature.id));
  if (isAlone) {
    return name;
  }
  const link = document.createElement("a");
  link.href = `${location.pathname.replace(/\/$/, "")}/${encodeURIComponent(feature.id)}`;
  link.append(name);
  return link;
}

/** Draws a feature, or a collection of features, within an element. */
function draw(element, shown) {
  const isAlone = shown.type === "Feature";
  const layer = L.geoJSON(shown, {
    style: (feature) => (feature.geometry.type.endsWith("Point") ? POINT : LINE),
    pointToLayer: (_feature, place) => L.circleMarker(place),
    onEachFeature: (feature, drawn) => drawn.bindPopup(() => holder(label(feature, isAlone))),
  });
  const bounds = layer.getBounds();
  if (!bounds.isValid()) {
    return;
  }
  element.hidden = false;
  const map = L.map(element, { attributionControl: false, maxZoom: 24 });
  L.control.scale({ imperial: false }).addTo(map);
  layer.addTo(map);
  map.fitBounds(bounds, { padding: [24, 24], maxZoom: NEAREST });
}

/** An element that has a node, as a popup takes it. */
function holder(node) {
  const element = document.createElement("span");
  element.append(node);
  return element;
}

async function start() {
  const element = document.getElementById("map");
  if (!element || typeof L === "undefined") {
    return;
  }
  const answer = await fetch(element.dataset.features);
  if (answer.ok) {
    draw(element, await answer.json());
  }
}

start();
