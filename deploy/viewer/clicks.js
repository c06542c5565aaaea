// The features at a click, as a table.
//
// The scripts of this page share their names; viewer.js is the last, and begins.
"use strict";

/** The parameters of a click: a picture, and the column and row of its pixel. */
function clickOf(layers, latlng, point) {
    if (source() === "tiles") {
        // The server has no web mercator, and is asked for a small picture in degrees round the click.
        const half = 50.5 * degreesOfPixel();
        const { lat, lng } = latlng;
        const box = { west: lng - half, south: lat - half, east: lng + half, north: lat + half };
        return { ...pictureOf(layers, "CRS:84", box, 101, 101), I: 50, J: 50 };
    }
    const size = map.getSize();
    const picture = pictureOfView(layers);
    const column = Math.floor(point.x * picture.WIDTH / size.x);
    const row = Math.floor(point.y * picture.HEIGHT / size.y);
    return { ...picture, I: column, J: row };
}

/** Whether an item is the one in which deploy/convert gives a feature the numbers of its classes, for drawing alone. */
const isForDrawing = ([name, value]) => name === "class" && /^\d+(\.\d\d?)?(\+\d+(\.\d\d?)?)*$/.test(value);

/** The features of an answer: each with its layer's name and its items as [name, value]. A value may have several lines. */
function featuresOf(text) {
    const features = [];
    let layer = "";
    for (const line of text.split("\n").slice(1)) {
        const opening = /^Layer '(.*)'$/.exec(line);
        const item = /^    (.*?) = '(.*)$/.exec(line);
        if (opening) {
            layer = opening[1];
        } else if (/^  Feature \d+:$/.test(line)) {
            features.push({ layer, items: [] });
        } else if (item && features.length > 0) {
            features.at(-1).items.push([item[1], item[2]]);
        } else if (features.at(-1)?.items.length > 0) {
            features.at(-1).items.at(-1)[1] += `\n${line}`;
        }
    }
    for (const feature of features) {
        feature.items = feature.items.map(([name, value]) => [name, value.trimEnd().replace(/'$/, "")]);
        if (feature.items.length > 0 && isForDrawing(feature.items.at(-1))) {
            feature.items.pop();
        }
    }
    return features;
}

/** The table of a click: a heading for each feature, its layer, and a row for each item. */
function tableOf(text) {
    const features = featuresOf(text);
    const table = document.createElement("table");
    table.className = "features";
    if (features.length === 0) {
        table.insertRow().insertCell().textContent = "No feature is here.";
    }
    for (const { layer, items } of features) {
        const heading = document.createElement("th");
        heading.colSpan = 2;
        heading.textContent = served.layers.find((one) => one.name === layer)?.title ?? layer;
        table.insertRow().append(heading);
        for (const [name, value] of items) {
            const row = table.insertRow();
            row.insertCell().textContent = name;
            row.insertCell().textContent = value;
        }
    }
    return table;
}

/** Shows the features at a click, of the layers that can be asked: the topmost, as the proxy refuses more names. */
async function showFeatures(event) {
    const layers = layersOn().filter((layer) => layer.queryable).slice(-MOST_ASKED);
    if (layers.length === 0) {
        say("No layer that is on can be asked for its features.");
        return;
    }
    const click = clickOf(layers, event.latlng, event.containerPoint);
    const query = { REQUEST: "GetFeatureInfo", ...click, QUERY_LAYERS: click.LAYERS, INFO_FORMAT: "text/plain" };
    try {
        const text = await ask({ ...query, FEATURE_COUNT: 10 }, "text/plain");
        L.popup({ maxWidth: 400 }).setLatLng(event.latlng).setContent(tableOf(text)).openOn(map);
    } catch (error) {
        say(error.message);
    }
}
