"""What deploy/convert has to make of the mapfiles of tests/converted/, and by which options. Used by conversions.py."""

# What the map of a mapfile has to have, and what it must not have.
WANTED = {
    "include": (["EXPRESSION ([depth] > 2)", 'TITLE "Deep ponds"', "OUTLINECOLOR 86 52 38"], ["bunkers", "7 7"]),
    "symbolset": (['NAME "fences"', "OUTLINECOLOR 20 40 60 WIDTH 3", "IMAGECOLOR 240 230 220"], ["fences_below", "WIDTH 7"]),
    "fontset": (['TEXT "Upper Mill (12.3 k)"', 'TEXT "ford, 678"', 'TEXT "mine"'], ["LABELITEM", "12345"]),
    "postgis": (["EXPRESSION {barn,mill}", 'ITEMS "1;barn"'], ["Ada", "Ben", "let", 'ITEMS "3']),
    "expressions": (["EXPRESSION {oak,ash}", '("[kind]" =* "FIR")', "EXPRESSION {1+2}", 'ITEMS "second;2"'], ["oak tree", "shrub", "1 2 3"]),
    "bound": (['TITLE "route: #1e3250, 3"', "EXPRESSION {1.2} STYLE COLOR 200 90 40 WIDTH 5", 'ITEMS "#1e3250;3;1.1"', 'ITEMS "1.2"', 'TITLE "1: 2"'], ["secret", "turn"]),
    "casings": (["COLOR 130 120 110 WIDTH 3", "COLOR 250 250 250 WIDTH 1", "COLOR 90 80 70 WIDTH 6", "COLOR 240 200 40 WIDTH 4", "COLOR 200 200 200 WIDTH 4", "COLOR 20 20 20 WIDTH 2", "COLOR 30 90 200 WIDTH 5"], ["WIDTH 32"]),
    "discs": ([
        'CONFIG "WMS_SMOOTHING" "4"', 'SYMBOL NAME "disc" TYPE ELLIPSE POINTS 1 1 END FILLED TRUE END', 'STYLE SYMBOL "disc" COLOR 200 60 40 OUTLINECOLOR 250 250 240 SIZE 10 WIDTH 2 END',
        'STYLE SYMBOL "disc" COLOR 20 60 110 SIZE 5 END', 'STYLE SYMBOL "disc" OUTLINECOLOR 30 70 120 SIZE 7 WIDTH 1 END', 'STYLE SYMBOL "disc" COLOR 70 110 160 SIZE 3 END',
        'STYLE SYMBOL "dot1" END', 'STYLE SYMBOL "egg2" END', 'STYLE SYMBOL "square3" END',
    ], ["40 80 130", "SIZE 6"]),
    "counted": (['TEXT "well 1"', "2.375 3.5", 'NAME "sights"', 'ITEMS "well"'], ["crowds", 'NAME "dot3"', "class", 'TEXT "1"']),
    "small": (['TEXT "28-029-1710"', 'CONFIG "LABELFONT sans-6" "sans-6.bdf"', 'FONT "sans-6" END'], ["LABELITEM", "WMS_SMOOTHING"]),
    "mono": (['TEXT "28-029-1710"', 'CONFIG "LABELFONT mono-8" "mono-8.bdf"', 'FONT "mono-8" END'], ["LABELITEM", "WMS_SMOOTHING"]),
    "fonts": ([
        'CONFIG "WMS_SMOOTHING" "4"', 'CONFIG "LABELFONT sans-16" "sans-16.bdf" CONFIG "LABELFONT sans-9" "sans-9.bdf" CONFIG "LABELFONT mono-12" "mono-12.bdf" LAYER',
        'OUTLINEWIDTH 2 POSITION CC PRIORITY 1 FONT "sans-16" END', 'EXPRESSION "village" LABEL COLOR 60 50 40 POSITION CC PRIORITY 1 FONT "sans-9" END',
        'EXPRESSION "mill" LABEL COLOR 60 50 40 POSITION CC PRIORITY 1 FONT "sans-9" END', 'FONT "mono-12" END',
    ], ['"LABELFONT"', "sans-10", "mono-20"]),
    "eighteen": (
        [f'CONFIG "LABELFONT {alias}-{size}" "{alias}-{size}.bdf"' for alias in ("sans", "mono") for size in (6, 7, 8, 10, 12, 14, 18, 24)]
        + [f'EXPRESSION "{alias}9" LABEL COLOR 10 20 30 POSITION CC PRIORITY 1 FONT "{alias}-10" END' for alias in ("sans", "mono")],
        ["sans-9", "mono-9"],
    ),
    "patterns": (["COLOR 190 230 170 END", "STYLE COLOR 147 193 139 END", "STYLE OUTLINECOLOR 60 90 200 WIDTH 1 END", "STYLE OUTLINECOLOR 20 50 80 WIDTH 1 END", "STYLE COLOR 120 110 100 END"], ["COLOR 70 120 110"]),
    "cluster": (["2.1 2", "1 3 5 3"], ["7 7", "9 8"]),
    "ranges": (["COLOR 10 50 90", "COLOR 30 70 110", "COLOR 150 190 230", 'ITEMS "900;1.8"'], ["COLORRANGE"]),
    "auto": (["9 51.505", "9.0013 51.505488"], ["1001875"]),
    "substitution": (["([year] < 1990)"], ["%year%"]),
    "limited": (['ITEMS "Ada;1990"', 'TEMPLATE "features"'], ["hunter2"]),
    "opened": (['ITEMS "4"', 'TEMPLATE "features"'], ["swordfish"]),
    # 2.5 degrees from corner to corner are 100 pixels of 0.025 degrees, each 2,782.987 m in 0.28 mm
    "hidden": (["MAXSCALEDENOM 19878480.535714", "1 1 2.5 3"], ["hunter2", "1.125", "1.375", "1.625", "1.875", "6.125", "7.125", "7 7 7", "8 8 8"]),
    "labels": (['TEXT "sesame"', 'ITEMS "one"'], ["hunter2", "xyzzy", "plugh", "plover", "swordfish", "grue"]),
    "items": (['TITLE "1" EXPRESSION ([code] = 7)', 'ITEMS "Ada;1"', 'ITEMS "Ben;2"', 'NAME "silent"', 'ITEMS "7"'], ["hunter2", "swordfish", "xyzzy", "plugh", "plover", "5.625", "6.375", "debt", "8.375"]),
}

# The options of those of which there is no map else, and those that others are converted with.
OPTIONS = {"limited": ["--shown"], "opened": ["--open"]}
MORE = {"small": ["--smoothing", "1"], "mono": ["--smoothing", "1"]}
# Those with labels, for which fonts are made.
LABELLED = {"counted", "eighteen", "fonts", "fontset", "labels", "small", "mono"}
