#!/usr/bin/env python3
"""Writes a session with one query of so many parameters that are not looked at. Usage: many_parameters.py COUNT"""
import sys

MAP = 'MAP LAYER NAME "a" TYPE POLYGON END END\n%%\n'
QUERY = "VERSION=1.3.0&REQUEST=GetMap&LAYERS=a&STYLES=&CRS=CRS:84&BBOX=0,0,4,4&WIDTH=4&HEIGHT=4&FORMAT=image/x-portable-pixmap"
sys.stdout.write(MAP + "QUERY " + "LAYER=%78%20&" * int(sys.argv[1]) + QUERY + "\n")
