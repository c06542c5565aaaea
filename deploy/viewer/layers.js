// The layers that the capabilities name: their switches, and their legends.
//
// The scripts of this page share their names; viewer.js is the last, and begins.
"use strict";

const textOf = (parent, path) => parent.querySelector(path)?.textContent ?? "";

function numberOf(parent, path, otherwise) {
    const number = Number.parseFloat(textOf(parent, path));
    return Number.isNaN(number) ? otherwise : number;
}

/** A layer of the document, with its switch. */
function layerOf(element) {
    const name = textOf(element, ":scope > Name");
    const input = document.createElement("input");
    input.type = "checkbox";
    input.disabled = name.includes(",");
    input.checked = !input.disabled;
    input.addEventListener("change", changeLayers);
    return {
        name,
        input,
        // The lines of the legend, each with its entry.
        lines: [],
        title: textOf(element, ":scope > Title") || name,
        queryable: element.getAttribute("queryable") === "1",
        minScale: numberOf(element, ":scope > MinScaleDenominator", 0),
        maxScale: numberOf(element, ":scope > MaxScaleDenominator", Infinity),
    };
}

/** The layers with one title, as deploy/convert gives it to those that it makes of one, have one switch: groups of them, in the order of the first. */
function groupsOf(layers) {
    const groups = new Map();
    for (const layer of layers) {
        const key = layer.input.disabled ? layer : layer.title;
        groups.set(key, [...(groups.get(key) ?? []), layer]);
    }
    return [...groups.values()];
}

/** Gives the layers of each group the switch of its first. */
function shareSwitches(layers) {
    groupsOf(layers).forEach((group) => group.forEach((layer) => { layer.input = group[0].input; }));
    return layers;
}

/** The names of MapProxy's layers, as deploy/mapproxy makes them of the server's. */
function nameTiles(layers) {
    const taken = new Set();
    const nameOf = (name) => {
        let plain = name.replace(/[^A-Za-z0-9_-]/gu, "_") || "_";
        while (taken.has(plain)) {
            plain += "_";
        }
        taken.add(plain);
        return plain;
    };
    layers.filter((layer) => !layer.input.disabled).forEach((layer) => { layer.tiles = nameOf(layer.name); });
    return nameOf("all");
}

function readCapabilities(xml) {
    const layers = [...xml.querySelectorAll("Layer")].filter((one) => one.querySelector(":scope > Name")).map(layerOf);
    const side = (name, otherwise) => numberOf(xml, `EX_GeographicBoundingBox > ${name}`, otherwise);
    served = {
        title: textOf(xml, "Service > Title") || "Map",
        extent: [
            [side("southBoundLatitude", -90), side("westBoundLongitude", -180)],
            [side("northBoundLatitude", 90), side("eastBoundLongitude", 180)],
        ],
        layers: shareSwitches(layers),
        formats: [...xml.querySelectorAll("GetMap > Format")].map((one) => one.textContent),
        allTiles: nameTiles(layers),
        width: numberOf(xml, "MaxWidth", 2048),
        height: numberOf(xml, "MaxHeight", 2048),
    };
}

/** The pictures of the class of one title in lower layers, from the uppermost down: as a casing lies below its line. */
function picturesBelow(title, lower) {
    const found = lower.map((layer) => (legend.layers[layer.name] ?? []).find((entry) => entry.title === title));
    return found.filter(Boolean).map((entry) => entry.picture).reverse();
}

/** The lines of the legend of layers with one switch: those of the uppermost, over the pictures of the others. */
function legendOfGroup(group) {
    const named = new Set((legend.layers[group.at(-1).name] ?? []).map((entry) => entry.title));
    return [...group].reverse().flatMap((layer, at) => legendOf(layer, at === 0 ? group.slice(0, -1) : [], at === 0 ? new Set() : named));
}

/** The lines of a layer's legend, but for classes of these titles, each over the pictures of the lower layers. */
function legendOf(layer, lower, others) {
    const entries = (legend.layers[layer.name] ?? []).filter((entry) => !others.has(entry.title));
    layer.lines = entries.map((entry) => {
        const line = document.createElement("div");
        const picture = document.createElement("img");
        line.className = "class";
        picture.src = entry.picture;
        picture.alt = "";
        picture.style.backgroundImage = picturesBelow(entry.title, lower).map((one) => `url(${one})`).join(",");
        line.append(picture, ` ${entry.title}`);
        return [line, entry];
    });
    return layer.lines.map(([line]) => line);
}

/** Writes the map's title and the switches of its layers, the uppermost first, each with its legend below it. */
function writeLayers() {
    document.title = byId("title").textContent = served.title;
    byId("layers").replaceChildren();
    for (const group of groupsOf(served.layers)) {
        const label = document.createElement("label");
        label.append(group[0].input, ` ${group[0].title}${group[0].input.disabled ? " (its name has a comma)" : ""}`);
        byId("layers").prepend(label, ...legendOfGroup(group));
    }
}
