"""Layers of GIS formats, read and written by GDAL's OGR. This is the one module that needs GDAL."""
from dataclasses import dataclass, field
from typing import Iterator, NamedTuple

from . import wkb
from .problem import USAGE, Problem

try:
    from osgeo import gdal, ogr, osr
except ImportError as missing:
    raise Problem("GDAL's bindings are missing (python3-gdal): run tools/setup", USAGE) from missing

gdal.UseExceptions()
# (what goes wrong is told by exceptions; GDAL's own remarks would stand between our lines)
gdal.PushErrorHandler("CPLQuietErrorHandler")

RD = 28992
LAYER_WORD = "|layername="


class Feature(NamedTuple):
    """A feature: where it is from, its columns as text, and its polygons, or why it has none."""

    layer: str
    fid: int
    columns: dict[str, str | None]
    polygons: list[wkb.Polygon]
    fault: str | None

    def where(self) -> str:
        """How a sentence names it."""
        return f"feature {self.fid} of {self.layer}"


@dataclass
class Table:
    """A layer to write: its name, its columns with whether each is a whole number, and its rows with their polygons."""

    name: str
    columns: dict[str, type]
    rows: list[tuple[dict[str, object], list[wkb.Polygon]]] = field(default_factory=list)
    is_many: bool = False


class Source:
    """A data source, or one layer of it."""

    def __init__(self, text: str, is_rd: bool = False):
        self.path, _, self.wanted = text.partition(LAYER_WORD)
        self.is_rd = is_rd
        try:
            self.data = gdal.OpenEx(self.path, gdal.OF_VECTOR | gdal.OF_READONLY)
        except RuntimeError as fault:
            raise Problem(f"{self.path} cannot be opened: {_first_line(fault)}", USAGE) from fault

    def layers(self) -> list:
        """The layers with polygons or of mixed form, or the one that is named."""
        every = [self.data.GetLayer(place) for place in range(self.data.GetLayerCount())]
        if not self.wanted:
            # (a table without geometry holds styles or metadata)
            return [it for it in every if it.GetGeomType() != ogr.wkbNone]
        found = [it for it in every if it.GetName() == self.wanted]
        if not found:
            names = ", ".join(it.GetName() for it in every)
            raise Problem(f"{self.path} has no layer {self.wanted}; it has {names}", USAGE)
        return found

    def names(self) -> list[str]:
        """The names of these layers."""
        return [it.GetName() for it in self.layers()]

    def columns(self, name: str) -> list[str]:
        """The columns of a layer."""
        definition = self.data.GetLayerByName(name).GetLayerDefn()
        return [definition.GetFieldDefn(place).GetName() for place in range(definition.GetFieldCount())]

    def count(self, name: str) -> int:
        """How many features a layer has."""
        return self.data.GetLayerByName(name).GetFeatureCount()

    def features(self, name: str) -> Iterator[Feature]:
        """The features of a layer, which has to be in the national grid."""
        layer = self.data.GetLayerByName(name)
        if not self.is_rd:
            _check_grid(layer.GetSpatialRef(), name, self.path)
        readers = _readers(layer)
        layer.ResetReading()
        try:
            for each in layer:
                columns = {column: read(each) if each.IsFieldSetAndNotNull(place) else None
                           for place, (column, read) in enumerate(readers)}
                yield Feature(name, each.GetFID(), columns, *_polygons(each.GetGeometryRef()))
        except RuntimeError as fault:
            raise Problem(f"{self.path} cannot be read to its end: {_first_line(fault)}") from fault


def _first_line(fault: Exception) -> str:
    return str(fault).strip().split("\n")[0].rstrip(".")


def _readers(layer: ogr.Layer) -> list:
    """How each column is read as text: days and moments in the form of ISO 8601, everything else as OGR prints it."""
    definition, readers = layer.GetLayerDefn(), []
    for place in range(definition.GetFieldCount()):
        column = definition.GetFieldDefn(place)
        is_time = column.GetType() in (ogr.OFTDate, ogr.OFTDateTime)
        readers.append((column.GetName(), (lambda it, k=place: _day_text(it, k)) if is_time else (lambda it, k=place: it.GetFieldAsString(k))))
    return readers


def _day_text(feature: ogr.Feature, place: int) -> str:
    year, month, day = feature.GetFieldAsDateTime(place)[:3]
    return f"{year:04d}-{month:02d}-{day:02d}"


def _polygons(geometry: ogr.Geometry | None) -> tuple[list[wkb.Polygon], str | None]:
    if geometry is None or geometry.IsEmpty():
        return [], "has no geometry"
    if geometry.HasCurveGeometry(1):
        return [], "has arcs, and the register has straight sides only: draw the arc as sides, or let `ogr2ogr -nlt CONVERT_TO_LINEAR` do it"
    if geometry.HasCurveGeometry():
        # (a curve of straight pieces alone: taken as a polygon it has the same corners)
        geometry = geometry.GetLinearGeometry()
    try:
        polygons = wkb.polygons_of(bytes(geometry.ExportToIsoWkb()))
    except wkb.NoPolygon as fault:
        return [], str(fault)
    return (polygons, None) if polygons else ([], "has no geometry")


def _check_grid(srs: osr.SpatialReference | None, name: str, path: str) -> None:
    """Refuses a layer whose coordinates are said to be of another grid, or of none."""
    if srs is None or srs.GetName().startswith("Undefined"):
        raise Problem(f"layer {name} of {path} does not say in which grid its coordinates are: give it EPSG:28992, or add --assume-rd")
    if srs.IsCompound():
        srs = srs.Clone()
        srs.DemoteTo2D()
    code = srs.GetAuthorityCode(None)
    if code == str(RD) or (code is None and _is_rd(srs)):
        return
    what = f"EPSG:{code}" if code else srs.GetName()
    raise Problem(f"layer {name} of {path} is in {what}, and the register is in EPSG:28992: `ogr2ogr -t_srs EPSG:28992` makes it so, "
                  "or add --assume-rd where the numbers are metres of it already (GeoJSON without `crs` is read as EPSG:4326)")


def _is_rd(srs: osr.SpatialReference) -> bool:
    """Whether a definition without a number (a .prj file) is that of the national grid."""
    if srs.GetName().replace("_", " ").lower() in ("rd new", "amersfoort / rd new"):
        return True
    return any(match.GetAuthorityCode(None) == str(RD) and trust >= 90 for match, trust in srs.FindMatches())


def driver_of(path: str, name: str | None) -> str:
    """The format of a file to write, by its name or by the file's ending."""
    if name:
        driver = gdal.GetDriverByName(name)
        if driver is None or driver.GetMetadataItem("DCAP_CREATE") != "YES":
            raise Problem(f"OGR cannot write a format {name}", USAGE)
        return name
    ending = path.lower().rpartition(".")[2] if "." in path else ""
    for place in range(gdal.GetDriverCount()):
        driver = gdal.GetDriver(place)
        endings = (driver.GetMetadataItem("DMD_EXTENSIONS") or "").lower().split()
        if ending and ending in endings and driver.GetMetadataItem("DCAP_VECTOR") and driver.GetMetadataItem("DCAP_CREATE") == "YES":
            return driver.ShortName
    raise Problem(f"the ending of {path} names no format that OGR writes: use .gpkg or .geojson, or --format", USAGE)


def has_many_layers(format_name: str) -> bool:
    """Whether a file of the format holds several layers. A shapefile is one layer, though a folder of them counts as many for OGR."""
    many = gdal.GetDriverByName(format_name).GetMetadataItem("DCAP_MULTIPLE_VECTOR_LAYERS") == "YES"
    return many and format_name not in ("ESRI Shapefile", "MapInfo File", "GML")


# GeoJSON is written with three decimals and the grid named; other formats keep doubles.
_LAYER_OPTIONS = {"GeoJSON": ["COORDINATE_PRECISION=3", "RFC7946=NO", "WRITE_BBOX=NO"], "GPKG": ["GEOMETRY_NAME=geom"]}


def write(path: str, format_name: str, tables: list[Table], styles: dict[str, str] | None = None) -> None:
    """Writes the layers to a new file."""
    grid = osr.SpatialReference()
    grid.ImportFromEPSG(RD)
    grid.SetAxisMappingStrategy(osr.OAMS_TRADITIONAL_GIS_ORDER)
    try:
        data = gdal.GetDriverByName(format_name).Create(path, 0, 0, 0, gdal.GDT_Unknown)
        for table in tables:
            _write_table(data, format_name, table, grid)
        if styles and format_name == "GPKG":
            _write_styles(data, styles)
        # (what fails while a file is closed is told here, and not by the end of the object)
        data.FlushCache()
        del data
        _check_written(path, tables)
    except RuntimeError as fault:
        raise Problem(f"the layers cannot be written as {format_name}: {_first_line(fault)}") from fault


def _check_written(path: str, tables: list[Table]) -> None:
    """Whether each row can be read again."""
    data = gdal.OpenEx(path, gdal.OF_VECTOR)
    for place, table in enumerate(tables):
        layer = data.GetLayerByName(table.name) or data.GetLayer(place)
        if layer.GetFeatureCount() != len(table.rows):
            raise RuntimeError(f"{len(table.rows)} features were written, and {layer.GetFeatureCount()} can be read")


def _write_table(data: gdal.Dataset, format_name: str, table: Table, grid: osr.SpatialReference) -> None:
    layer = data.CreateLayer(table.name, grid, ogr.wkbMultiPolygon if table.is_many else ogr.wkbPolygon, _LAYER_OPTIONS.get(format_name, []))
    for column, form in table.columns.items():
        layer.CreateField(ogr.FieldDefn(column, ogr.OFTInteger if form is int else ogr.OFTString))
    definition = layer.GetLayerDefn()
    places = {column: place for place, column in enumerate(table.columns)}
    layer.StartTransaction()
    for values, polygons in table.rows:
        feature = ogr.Feature(definition)
        for column, value in values.items():
            if value is not None:
                feature.SetField(places[column], value)
        feature.SetGeometryDirectly(ogr.CreateGeometryFromWkb(wkb.data_of(polygons, table.is_many)))
        layer.CreateFeature(feature)
    layer.CommitTransaction()


_STYLE_COLUMNS = ("f_table_catalog", "f_table_schema", "f_table_name", "f_geometry_column", "styleName", "styleQML", "styleSLD",
                  "useAsDefault", "description", "owner", "ui", "update_time")


def _write_styles(data: gdal.Dataset, styles: dict[str, str]) -> None:
    """The table in which QGIS looks for the style of a layer of a GeoPackage."""
    layer = data.CreateLayer("layer_styles", None, ogr.wkbNone, ["FID=id"])
    for column in _STYLE_COLUMNS:
        form = ogr.OFTInteger if column == "useAsDefault" else ogr.OFTDateTime if column == "update_time" else ogr.OFTString
        definition = ogr.FieldDefn(column, form)
        if column == "useAsDefault":
            definition.SetSubType(ogr.OFSTBoolean)
        layer.CreateField(definition)
    for name, style in styles.items():
        feature = ogr.Feature(layer.GetLayerDefn())
        for column, value in (("f_table_catalog", ""), ("f_table_schema", ""), ("f_table_name", name), ("f_geometry_column", "geom"),
                              ("styleName", name), ("styleQML", style), ("styleSLD", ""), ("useAsDefault", 1),
                              ("description", "colours by kind"), ("owner", ""), ("update_time", "1970-01-01T00:00:00Z")):
            feature.SetField(column, value)
        layer.CreateFeature(feature)
