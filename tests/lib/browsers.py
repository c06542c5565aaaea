"""Pages for browsers, and a server that gives them with the libraries which Debian has."""
import http.server
import pathlib

SCRIPTS = pathlib.Path("/usr/share/javascript")
LEAFLET_HEAD = '<link rel="stylesheet" href="/javascript/leaflet/leaflet.css"><script src="/javascript/leaflet/leaflet.min.js"></script>'
OPENLAYERS_HEAD = '<script src="/javascript/openlayers/OpenLayers.js"></script>'


class Files(http.server.SimpleHTTPRequestHandler):
    """Pages of a folder, and the libraries that Debian has."""

    def translate_path(self, path):
        return str(SCRIPTS) + path[len("/javascript") :] if path.startswith("/javascript/") else super().translate_path(path)

    def log_message(self, *_):
        pass
