// What the viewer knows of the server, and asks it: its capabilities, and pictures. The server's texts go into the page
// by textContent, so that none of them is read as HTML.
//
// The scripts of this page share their names; viewer.js is the last, and begins.
"use strict";

const SERVER = "../wms";
const TILES = "../tiles/wmts";
const LEGEND = "legend.json";
const PNG = "image/png";
const JPEG = "image/jpeg";
const ARBITRARY_MAP = "image/x-portable-arbitrarymap";

// A pixel counts as 0.28 mm, and a degree of longitude as 111,319.491 m.
const SCALE_OF_A_DEGREE = 111319.491 / 0.00028;

// What the server has: the map's title, its extent, its layers from the lowest up, and the largest picture.
let served = { layers: [] };
// The names of MapProxy's layers; empty where none are served.
let tileNames = new Set();
// What deploy/legend wrote: the colour of the ground, and the classes of each layer, by its name; nothing where it isn't there.
let legend = { layers: {} };
let map;
// What lies on the map: a canvas, or layers of tiles.
let overlays = [];
// Cancels the picture that was asked for last, where the view has changed since.
let asked = new AbortController();
let timer;

/** The formats of which one can be chosen. Where a map offers none of them its pictures are PAM. */
const formatsOf = (offered) => [PNG, JPEG].filter((format) => offered.includes(format));
/** The format of pictures. */
const pictureType = () => formatsOf(served.formats).includes(byId("format").value) ? byId("format").value : ARBITRARY_MAP;
const isPicture = (type) => [PNG, JPEG, ARBITRARY_MAP].includes(type);
const byId = (id) => document.getElementById(id);
const say = (text) => { byId("message").textContent = text; };
const source = () => document.querySelector("input[name=source]:checked").value;
const isTiled = () => ["png", "tiles"].includes(source());
// as many names of QUERY_LAYERS as the proxy hands on
const MOST_ASKED = 16;
const layersOn = () => served.layers.filter((layer) => layer.input.checked);

// Asking

/** What the proxy answers, which has to be a success. */
async function get(address, signal) {
    let response;
    try {
        response = await fetch(address, { cache: "no-store", signal });
    } catch (error) {
        throw new Error(`The server doesn't answer: ${error.message}.`);
    }
    if (!response.ok) {
        throw new Error(`The server doesn't answer: ${response.status} ${response.statusText}.`);
    }
    return response;
}

async function xmlOf(response) {
    const xml = new DOMParser().parseFromString(await response.text(), "text/xml");
    if (xml.querySelector("parsererror")) {
        throw new Error("The server's document isn't well-formed XML.");
    }
    return xml;
}

/** The answer to a query: a document, a text, or a picture's bytes. An exception is thrown as its text. */
async function ask(parameters, type, signal) {
    const query = new URLSearchParams({ SERVICE: "WMS", VERSION: "1.3.0", ...parameters });
    const response = await get(`${SERVER}?${query}`, signal);
    if (isPicture(type)) {
        // demo/serve has a program answer, until another is built, of which nothing is proved
        byId("unproved").hidden = response.headers.get("X-Proved") !== "no";
    }
    const came = (response.headers.get("Content-Type") || "no type").split(";")[0];
    if (came === "text/xml") {
        const xml = await xmlOf(response);
        const exceptions = [...xml.getElementsByTagName("ServiceException")];
        if (exceptions.length > 0) {
            const text = exceptions.map((one) => `${one.getAttribute("code")}: ${one.textContent}`).join("; ");
            throw Object.assign(new Error(text), { code: exceptions[0].getAttribute("code") });
        }
        if (type === "text/xml") {
            return xml;
        }
    }
    if (came !== type) {
        throw new Error(`The server answers with ${came} in place of ${type}.`);
    }
    return isPicture(type) ? response.arrayBuffer() : response.text();
}

/** The colour of the ground, as the legend has it, else as viewer.css has it. */
const groundColour = () => /^#[0-9a-f]{6}$/.test(legend.ground ?? "") ? legend.ground : "#d8e8f4";

/** The parameters of what lies below the layers: nothing where the format has transparency, else the ground. */
function groundOf(format) {
    return format === JPEG ? { TRANSPARENT: "FALSE", BGCOLOR: `0x${groundColour().slice(1)}` } : { TRANSPARENT: "TRUE" };
}

/** The parameters of a picture of a box in degrees. Each system has its own order of the axes. */
function pictureOf(layers, system, box, width, height) {
    const { west, south, east, north } = box;
    const sides = system === "EPSG:4326" ? [south, west, north, east] : [west, south, east, north];
    return {
        LAYERS: layers.map((layer) => layer.name).join(","),
        STYLES: "",
        CRS: system,
        BBOX: sides.map((degrees) => degrees.toFixed(6)).join(","),
        WIDTH: width,
        HEIGHT: height,
        FORMAT: pictureType(),
        ...groundOf(pictureType()),
    };
}

function boxOfView() {
    const northWest = map.containerPointToLatLng([0, 0]);
    const southEast = map.containerPointToLatLng(map.getSize());
    return { west: northWest.lng, south: southEast.lat, east: southEast.lng, north: northWest.lat };
}

/** The parameters of a picture of the view. It has the page's pixels, but no more than the server paints. */
function pictureOfView(layers) {
    const size = map.getSize();
    const width = Math.min(size.x, served.width);
    const height = Math.min(size.y, served.height);
    return pictureOf(layers, source() === "EPSG:4326" ? "EPSG:4326" : "CRS:84", boxOfView(), width, height);
}

function degreesOfPixel() {
    const { west, east } = boxOfView();
    return (east - west) / Math.min(map.getSize().x, served.width);
}

/** The pixels of a PNG or JPEG, which has to be of the size that was asked for. */
async function canvasOfFile(file, width, height) {
    const image = await createImageBitmap(file);
    if (image.width !== width || image.height !== height) {
        throw new Error(`The server's picture isn't one of ${width} by ${height} pixels.`);
    }
    const canvas = document.createElement("canvas");
    canvas.width = width;
    canvas.height = height;
    canvas.getContext("2d").drawImage(image, 0, 0);
    return canvas;
}

/** The pixels of a PAM, which has to be of the size that was asked for. */
function canvasOfPam(bytes, width, height) {
    const head = `P7\nWIDTH ${width}\nHEIGHT ${height}\nDEPTH 4\nMAXVAL 255\nTUPLTYPE RGB_ALPHA\nENDHDR\n`;
    const came = new TextDecoder("latin1").decode(bytes.slice(0, head.length));
    if (came !== head || bytes.byteLength !== head.length + 4 * width * height) {
        throw new Error(`The server's picture isn't one of ${width} by ${height} pixels with transparency.`);
    }
    const canvas = document.createElement("canvas");
    canvas.width = width;
    canvas.height = height;
    const pixels = new Uint8ClampedArray(bytes, head.length);
    canvas.getContext("2d").putImageData(new ImageData(pixels, width, height), 0, 0);
    return canvas;
}

/** The pixels of an answer to the parameters of a picture. */
async function canvasOf({ FORMAT, WIDTH, HEIGHT }, bytes) {
    if (FORMAT === ARBITRARY_MAP) {
        return canvasOfPam(bytes, WIDTH, HEIGHT);
    }
    return canvasOfFile(new Blob([bytes], { type: FORMAT }), WIDTH, HEIGHT);
}
