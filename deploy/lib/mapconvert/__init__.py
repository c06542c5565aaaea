"""What deploy/convert makes of a mapfile of MapServer's. It needs Debian's python3-mapscript, python3-pil and gdal-bin."""
