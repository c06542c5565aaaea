// The part of the page's address behind #, which keeps what is shown, and how a place is written.
//
// The scripts of this page share their names; viewer.js is the last, and begins.
"use strict";

/** What is behind # for a level, a latitude and a longitude, and the names of layers; nothing in place of these stands for all. */
function hashOf(level, latitude, longitude, names) {
    const place = [Number(level.toFixed(3)), latitude.toFixed(5), longitude.toFixed(5)].join("/");
    return `#${place}${names ? `/${names.map(encodeURIComponent).join(",")}` : ""}`;
}

/** What is kept behind #: the level, the latitude, the longitude, and the names of layers where it has some. Nothing where it isn't read. */
function placeOf(hash) {
    const found = /^#(\d+(?:\.\d+)?)\/(-?\d+(?:\.\d+)?)\/(-?\d+(?:\.\d+)?)(?:\/(.*))?$/.exec(hash);
    if (!found) {
        return null;
    }
    const [level, latitude, longitude] = found.slice(1, 4).map(Number);
    try {
        return { level, latitude, longitude, names: found[4]?.split(",").filter(Boolean).map(decodeURIComponent) };
    } catch (error) {
        // a % that stands for no letter
        return null;
    }
}

/** Keeps in the page's address what is shown: level and centre, and the layers that are on where some are off. */
function keepPlace() {
    const center = map.getCenter();
    const level = map.getZoom() - (source() === "tiles" ? 1 : 0);
    const every = served.layers.every((layer) => layer.input.checked || layer.input.disabled);
    const names = every ? undefined : layersOn().map((layer) => layer.name);
    history.replaceState(null, "", hashOf(level, center.lat, center.lng, names));
}

/** Switches on the layers that are named, and the others off; all where none are named. */
function switchLayers(names) {
    for (const group of groupsOf(served.layers)) {
        const isNamed = names === undefined || group.some((layer) => names.includes(layer.name));
        group[0].input.checked = !group[0].input.disabled && isNamed;
    }
}

/** A place as it is written for readers, as exactly as the pixels are. */
function textOfPlace({ lat, lng }, degreesOfPixel) {
    const digits = Math.min(Math.max(Math.ceil(-Math.log10(degreesOfPixel)), 0), 6);
    const side = (degrees, positive, negative) => `${Math.abs(degrees).toFixed(digits)}\u00b0 ${degrees < 0 ? negative : positive}`;
    return `${side(lat, "N", "S")}, ${side(lng, "E", "W")}`;
}
