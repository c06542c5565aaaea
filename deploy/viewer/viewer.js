// The viewer: layers by the server's capabilities, pictures by GetMap or as tiles, features by a click.
//
// The scripts of this page share their names; this is the last, and begins.
"use strict";

function replaceOverlays(others) {
    overlays.forEach((overlay) => overlay.remove());
    overlays = others;
    overlays.forEach((overlay) => overlay.addTo(map));
}

/** Reads the document again, shows the layers that it has now, and says which went. */
async function readAgain(signal) {
    const before = served.layers;
    readCapabilities(await ask({ REQUEST: "GetCapabilities" }, "text/xml", signal));
    for (const layer of served.layers) {
        const known = before.find((one) => one.name === layer.name);
        layer.input.checked = !layer.input.disabled && (known === undefined || known.input.checked);
    }
    writeLayers();
    markScales();
    const gone = before.filter((one) => !served.layers.some((layer) => layer.name === one.name));
    if (gone.length > 0) {
        say(`Gone from the map: ${gone.map((layer) => layer.title).join(", ")}.`);
    }
    return gone.length > 0;
}

/** Shows a picture of the layers. Where one of them is gone, as after a batch, the others are asked for once more. */
async function showPicture(layers, isAgain = false) {
    asked = new AbortController();
    const signal = asked.signal;
    const picture = pictureOfView(layers);
    const waiting = setTimeout(() => { byId("waiting").hidden = signal.aborted; }, 300);
    const { west, south, east, north } = boxOfView();
    try {
        const bytes = await ask({ REQUEST: "GetMap", ...picture }, picture.FORMAT, signal);
        const canvas = await canvasOf(picture, bytes);
        if (signal.aborted) {
            return;
        }
        // This overlay takes any element.
        replaceOverlays([L.svgOverlay(canvas, [[south, west], [north, east]])]);
    } catch (error) {
        if (signal.aborted) {
            return;
        }
        await showFailure(error, signal, isAgain);
    } finally {
        clearTimeout(waiting);
        byId("waiting").hidden = true;
    }
}

async function showFailure(error, signal, isAgain) {
    try {
        if (error.code === "LayerNotDefined" && !isAgain && await readAgain(signal) && layersOn().length > 0) {
            await showPicture(layersOn(), true);
            return;
        }
    } catch (other) {
        error = other;
    }
    if (!signal.aborted) {
        replaceOverlays([]);
        say(error.message);
    }
}

/** Shows tiles of each layer, or where all are on those of all together, on which labels lie above everything. */
function showTiles(layers) {
    const every = served.layers.every((layer) => layer.input.checked || layer.input.disabled);
    const together = every && tileNames.has(served.allTiles);
    const names = together ? [served.allTiles] : layers.map((layer) => layer.tiles);
    const missing = names.filter((name) => !tileNames.has(name));
    if (missing.length > 0) {
        say(`MapProxy has no layer ${missing.join(", ")}: write its configuration again.`);
    }
    replaceOverlays(names.filter((name) => tileNames.has(name)).map(tilesOf));
}

function tilesOf(name) {
    const tiles = L.tileLayer(`${TILES}/${name}/webmercator/{z}/{x}/{y}.png`, { maxZoom: 18, noWrap: true });
    return tiles.on("tileerror", () => say("A tile of MapProxy's didn't come."));
}

/** Shows tiles of the server in the format that is chosen, or of deploy/formats. A tile of a layer that is gone has the others asked for once more. */
function showPng(layers, isAgain = false) {
    asked = new AbortController();
    const signal = asked.signal;
    const names = layers.map((layer) => layer.name).join(",");
    // Leaflet has its parameters in small letters
    const ground = Object.fromEntries(Object.entries(groundOf(pictureType())).map(([word, value]) => [word.toLowerCase(), value]));
    const options = { layers: names, version: "1.3.0", format: pictureType(), ...ground, maxZoom: 18 };
    const tiles = L.tileLayer.wms(SERVER, { ...options, noWrap: true, bounds: [[-90, -180], [90, 180]] });
    tiles.once("tileerror", async () => {
        try {
            if (!signal.aborted && !isAgain && await readAgain(signal) && layersOn().length > 0) {
                showPng(layersOn(), true);
            } else if (!signal.aborted) {
                say("A tile of the server's didn't come.");
            }
        } catch (error) {
            say(error.message);
        }
    });
    replaceOverlays([tiles]);
}

function show() {
    say("");
    const layers = layersOn();
    if (layers.length === 0) {
        replaceOverlays([]);
        say(served.layers.length === 0 ? "The map has no layers." : "All layers are off.");
    } else if (source() === "tiles") {
        showTiles(layers);
    } else if (source() === "png") {
        showPng(layers);
    } else {
        showPicture(layers);
    }
}

/** Shows what there is to be shown as soon as no further change has come for a tenth of a second. */
function showSoon() {
    asked.abort();
    clearTimeout(timer);
    timer = setTimeout(show, 100);
}

/** Greys layers, and hides classes of the legend, that the present scale doesn't show. */
function markScales() {
    const scale = degreesOfPixel() * SCALE_OF_A_DEGREE;
    byId("scale").textContent = `1:${Math.round(scale).toLocaleString("en")}`;
    const visible = ({ minScale = 0, maxScale = Infinity }) => minScale <= scale && scale < maxScale;
    for (const group of groupsOf(served.layers)) {
        group[0].input.parentElement.classList.toggle("out-of-scale", !group.some(visible));
        group.forEach((layer) => markClasses(layer, visible));
    }
}

/** Hides the classes of a layer that aren't there at a scale: of two that look the same one is enough. */
function markClasses(layer, visible) {
    let isTaken = !visible(layer) || !layer.input.checked;
    const shown = new Set();
    for (const [line, entry] of layer.lines) {
        const look = `${entry.title}\n${entry.picture}`;
        line.hidden = isTaken || !visible(entry) || shown.has(look);
        isTaken ||= entry.takesAll && visible(entry);
        if (!line.hidden) {
            shown.add(look);
        }
    }
}

function afterMove() {
    markScales();
    keepPlace();
    if (!isTiled()) {
        showSoon();
    }
}

function changeLayers() {
    markScales();
    keepPlace();
    map.closePopup();
    showSoon();
}

/** All but MapProxy's tiles are in degrees; those are in web mercator, whose levels have twice the degrees a pixel. */
function changeSource() {
    const isMercator = source() === "tiles";
    const system = isMercator ? L.CRS.EPSG3857 : L.CRS.EPSG4326;
    const center = map.getCenter();
    map.options.zoomSnap = isTiled() ? 1 : 0.5;
    if (map.options.crs !== system) {
        replaceOverlays([]);
        map.options.crs = system;
        map.setView(center, Math.round(map.getZoom()) + (isMercator ? 1 : -1), { reset: true });
    } else if (isTiled()) {
        map.setZoom(Math.round(map.getZoom()));
    }
    showSoon();
}

function writePanel() {
    writeLayers();
    // Both orders of the axes show the same: the second is for those who look for faults.
    byId("other-axes").hidden = !new URLSearchParams(location.search).has("debug");
    byId("png-tiles").hidden = formatsOf(served.formats).length === 0;
    byId("mapproxy-tiles").hidden = !hasTiles();
    byId("formats").hidden = formatsOf(served.formats).length === 0;
    byId("format").replaceChildren(...formatsOf(served.formats).map((format) => new Option(format.slice(6).toUpperCase(), format)));
    byId("format").addEventListener("change", showSoon);
    document.querySelectorAll("input[name=source]").forEach((input) => input.addEventListener("change", changeSource));
}

/** Leaflet takes HTML for an attribution. */
function escaped(text) {
    const element = document.createElement("p");
    element.textContent = text;
    return element.innerHTML;
}

function makeMap() {
    const maxBounds = [[-180, -360], [180, 360]];
    map = L.map("map", { crs: L.CRS.EPSG4326, maxZoom: 18, zoomSnap: 0.5, maxBounds });
    map.setMinZoom(map.getBoundsZoom([[-90, -180], [90, 180]]));
    map.attributionControl.addAttribution(escaped(served.title));
    L.control.scale({ imperial: false }).addTo(map);
    map.on("moveend", afterMove).on("click", showFeatures);
    map.on("mousemove", (event) => { byId("pointer").textContent = textOfPlace(event.latlng, degreesOfPixel()); });
    map.on("mouseout", () => { byId("pointer").textContent = ""; });
    const place = placeOf(location.hash);
    if (place) {
        setExactView(() => map.setView([place.latitude, place.longitude], place.level));
    } else {
        // as large as the window holds
        setExactView(() => map.fitBounds(served.extent));
    }
    window.addEventListener("hashchange", goToAddress);
}

/** Sets a view of any level, where Leaflet takes halves. Levels of tiles are whole. */
function setExactView(set) {
    const snap = map.options.zoomSnap;
    map.options.zoomSnap = isTiled() ? 1 : 0;
    set();
    map.options.zoomSnap = snap;
}

/** Shows what an address that came into an open page keeps. */
function goToAddress() {
    const place = placeOf(location.hash);
    if (!place) {
        return;
    }
    switchLayers(place.names);
    const level = place.level + (source() === "tiles" ? 1 : 0);
    setExactView(() => map.setView([place.latitude, place.longitude], level, { reset: true }));
    changeLayers();
}

/** Whether MapProxy's tiles are asked for: where the page, or its address by ?tiles, says that they are there. */
function hasTiles() {
    const said = document.querySelector("meta[name=tiles]").content;
    return said === "yes" || new URLSearchParams(location.search).has("tiles");
}

/** Lets tiles be chosen where MapProxy has some. */
async function findTiles() {
    const choice = document.querySelector("input[value=tiles]");
    try {
        const xml = await xmlOf(await get(`${TILES}/1.0.0/WMTSCapabilities.xml`));
        const layers = [...xml.querySelectorAll("Contents > Layer")];
        tileNames = new Set(layers.map((layer) => layer.getElementsByTagNameNS("*", "Identifier")[0].textContent));
        choice.disabled = false;
    } catch (error) {
        choice.parentElement.append(" - not served here");
    }
}

async function readLegend() {
    try {
        legend = { layers: {}, ...await (await get(LEGEND)).json() };
    } catch (error) {
        legend = { layers: {} };
    }
    document.documentElement.style.setProperty("--ground", groundColour());
}

async function begin() {
    if (!window.L) {
        say("Leaflet is missing: apt-get install libjs-leaflet.");
        return;
    }
    try {
        readCapabilities(await ask({ REQUEST: "GetCapabilities" }, "text/xml"));
    } catch (error) {
        say(error.message);
        return;
    }
    await readLegend();
    switchLayers(placeOf(location.hash)?.names);
    writePanel();
    makeMap();
    if (hasTiles()) {
        findTiles();
    }
}

begin();
