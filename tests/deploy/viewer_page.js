// Runs the viewer's scripts on stand-ins for its page, for Leaflet and for a server with three layers: test_viewer.py calls it
// with a JSON of {tiles, search, hash, then}, `then` being what comes behind # later. It prints what was asked, and what is shown.
"use strict";

const fs = require("fs");
const path = require("path");
const vm = require("vm");

const VIEWER = path.join(__dirname, "..", "..", "deploy", "viewer");
const given = JSON.parse(fs.readFileSync(0, "utf8"));
const asked = [];
const listeners = {};

function elementOf(tag) {
    const element = { tag, style: { setProperty() {} }, children: [], hidden: false, value: "", textContent: "" };
    const adopt = (children) => children.filter((one) => one.tag).forEach((one) => { one.parentElement = element; });
    element.classList = { toggle() {} };
    element.append = (...children) => { adopt(children); element.children.push(...children); };
    element.prepend = (...children) => { adopt(children); element.children.unshift(...children); };
    element.replaceChildren = (...children) => { element.children = children; element.value = children[0]?.value ?? ""; };
    element.addEventListener = () => {};
    element.getContext = () => ({ drawImage() {} });
    return element;
}

// The page.
const elements = {};
const radio = (value, at) => Object.assign(elementOf("input"), { value, checked: at === 0, parentElement: elementOf("label") });
const radios = ["CRS:84", "EPSG:4326", "png", "tiles"].map(radio);
const found = { "input[name=source]:checked": radios[0], "input[value=tiles]": radios[3], "meta[name=tiles]": { content: given.tiles ?? "no" } };
const page = {
    getElementById: (id) => { elements[id] ??= elementOf(id); return elements[id]; },
    createElement: elementOf,
    documentElement: elementOf("html"),
    querySelector: (path) => found[path],
    querySelectorAll: () => radios,
};

// The capabilities.
const layerOf = (name, title) => ({ getAttribute: () => "1", querySelector: (path) => ({ ":scope > Name": { textContent: name }, ":scope > Title": { textContent: title } })[path] ?? null });
const layers = [layerOf("roads_below1", "Roads"), layerOf("roads", "Roads"), layerOf("lakes", "Lakes")];
const every = { Layer: layers, "GetMap > Format": [{ textContent: "image/png" }, { textContent: "image/jpeg" }] };
const xml = { querySelector: () => null, getElementsByTagName: () => [], querySelectorAll: (path) => every[path] ?? [] };

function fetchOf(address) {
    asked.push(address);
    const type = address.includes("GetMap") ? "image/png" : "text/xml";
    const headers = { get: (field) => field === "Content-Type" ? type : null };
    return Promise.resolve({ ok: true, headers, text: async () => "", json: async () => given.legend ?? {}, arrayBuffer: async () => new ArrayBuffer(0) });
}

// Leaflet: a map of 800 by 600 pixels, of which 5 are a degree.
const views = [];
const map = {
    options: { zoomSnap: 0.5, crs: 1 }, level: 0, center: { lat: 0, lng: 0 },
    attributionControl: { addAttribution() {} },
    setMinZoom() {}, closePopup() {}, getBoundsZoom: () => 0.5, getZoom: () => map.level, getCenter: () => map.center, getSize: () => ({ x: 800, y: 600 }),
    containerPointToLatLng: (point) => ({ lat: 60 - (point[1] ?? point.y) / 5, lng: (point[0] ?? point.x) / 5 }),
    on: (name, listener) => { listeners[name] = listener; return map; },
    fitBounds: () => { map.see([1, 2], 0.8339); },
    setView: ([lat, lng], level) => { map.see([lat, lng], level); },
    see: ([lat, lng], level) => {
        views.push([level, map.options.zoomSnap]);
        map.center = { lat, lng };
        map.level = level;
        listeners.moveend();
    },
};
const overlay = { addTo() {}, remove() {} };
const leaflet = { map: () => map, CRS: { EPSG4326: 1, EPSG3857: 2 }, control: { scale: () => overlay }, svgOverlay: () => overlay };

const address = { hash: given.hash ?? "", search: given.search ?? "" };
const context = vm.createContext({
    AbortController, URLSearchParams, Blob, clearTimeout, document: page, location: address, L: leaflet, fetch: fetchOf,
    // a tenth of the time, so that all is done when it is looked at, on a busy machine, too
    setTimeout: (work, milliseconds) => setTimeout(work, milliseconds / 10),
    window: { L: leaflet, addEventListener: (name, listener) => { listeners[name] = listener; } },
    history: { replaceState: (state, title, hash) => { address.hash = hash; } },
    DOMParser: class { parseFromString() { return xml; } },
    Option: class { constructor(text, value) { Object.assign(this, { text, value }); } },
    createImageBitmap: async () => ({ width: 800, height: 600 }),
});
const scripts = [...fs.readFileSync(path.join(VIEWER, "index.html"), "utf8").matchAll(/src="([a-z]+\.js)"/g)].map((one) => one[1]);
scripts.forEach((name) => vm.runInContext(fs.readFileSync(path.join(VIEWER, name), "utf8"), context, { filename: name }));

const textOf = (element) => element.children.map((child) => child.tag ? child.style.backgroundImage ?? "" : child).join("") + (element.hidden ? " (hidden)" : "");

setTimeout(() => {
    listeners.mousemove({ latlng: { lat: 51.25, lng: -0.5 } });
    if (given.then) {
        address.hash = given.then;
        listeners.hashchange();
    }
    setTimeout(() => {
        const shown = { message: elements.message.textContent, pointer: elements.pointer.textContent, layers: elements.layers.children.map(textOf) };
        console.log(JSON.stringify({ asked, views, hash: address.hash, formats: elements.format.children.map((one) => one.text), ...shown }));
    }, 300);
}, 300);
