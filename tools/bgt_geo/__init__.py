"""bgt-geo: tools beside bgt, between its exact lines and the formats of a GIS.

Nothing here decides anything: what a tool makes goes through `bgt`, which answers. Coordinates are whole millimetres of the
national grid (EPSG:28992) from end to end.
"""
