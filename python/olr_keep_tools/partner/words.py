"""The page that goes to the partner with the strings."""

FOR_PARTNER = """What we ask of you

strings.csv has OpenLR line locations, binary version 3, as base64, each with a name. fields.json has what each field of them is, by
our reading of the format, if you want to compare your decoder's.

Please decode each string with your decoder, on your map, and send back one file, either

    GeoJSON   a FeatureCollection in WGS84, longitude first: for each string a LineString, in order of travel, with the property "name",
              and "positive_m" and "negative_m" if you have them; geometry null if it isn't found
    CSV       rows of name,wkt,positive_m,negative_m with LINESTRING(longitude latitude, ..), or of name,not found

positive_m and negative_m are the metres of your line, at its start and at its end, that don't belong to the location. Whole segments
with these two are what most decoders return. If your line ends where the location does, write 0 and 0. Without them we don't judge
where it ends.

If a string becomes several lines, repeat its name, in order of travel. Leave out nothing: a string that isn't found tells us as much
as one that is. Please tell us the date of your map, and the name and version of your decoder.
"""
