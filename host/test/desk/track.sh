#!/bin/sh
# Tracks: sums over the date line in both directions, what is not known, tables, GeoJSON, pictures; what is refused.
. "$(dirname "$0")/cases.sh"
pacific=$examples/pacific.reports

answers 0 'three tracks over the Pacific' track "$pacific"
out_is "$pacific, report 1 from byte 0 on: NFFN to PHNL, aircraft FJ0822" \
    '       latitude    longitude  time               altitude     temp.  wind' \
    '  1   17.7500 S   177.5000 E  day 14, 00:00:00    1200 ft    21.4 C  110/12 kt' \
    '  2   17.5500 S   178.1333 E  day 14, 00:04:00    6000 ft    11.8 C  115/18 kt' \
    '  3   17.2500 S   178.8333 E  day 14, 00:09:00   11500 ft     1.2 C  130/22 kt' \
    '  4   16.8833 S   179.6333 E  day 14, 00:14:00   17500 ft   -11.2 C  160/27 kt' \
    '  5   16.3833 S   179.4500 W  day 14, 00:20:00   23500 ft   -23.6 C  210/34 kt' \
    '  6   15.7500 S   178.4167 W  day 14, 00:27:00   29500 ft   -37.1 C  245/48 kt' \
    '  7   14.8833 S   177.0833 W  day 14, 00:37:00   35000 ft   -48.1 C  262/63 kt' \
    '  8   13.8167 S   175.4833 W  day 14, 00:49:00   35000 ft   -48.6 C  268/71 kt' \
    '' \
    "$pacific, report 2 from byte 220 on: PHNL to NFFN, aircraft FJ0823" \
    '       latitude    longitude  time               altitude     temp.  wind' \
    '  1    7.0000 S   175.0000 W  day 14, 02:00:00   36000 ft   -51.2 C  281/58 kt' \
    '  2    8.4667 S   176.1667 W  day 14, 02:12:00   36000 ft   -50.8 C  276/66 kt' \
    '  3   10.0667 S   177.4667 W  day 14, 02:25:00   36000 ft   -50.3 C  271/74 kt' \
    '  4   11.6333 S   178.8000 W  day 14, 02:38:00   36000 ft   -49.9 C  268/86 kt' \
    '  5   13.1667 S   179.8333 E  day 14, 02:51:00   36000 ft   -49.4 C  262/97 kt' \
    '  6   14.5000 S   178.5667 E  day 14, 03:02:00   29000 ft   -35.2 C  248/61 kt' \
    '  7   15.3000 S   177.7000 E  day 14, 03:10:00   18000 ft   -12.1 C  205/29 kt' \
    '  8   15.6667 S   177.3000 E  day 14, 03:15:00    6000 ft    12.1 C  140/14 kt' \
    '' \
    "$pacific, report 3 from byte 440 on: PMDY to NSTU, aircraft N10774" \
    '       latitude    longitude  time               altitude     temp.  wind' \
    '  1    2.0000 N   177.0000 W  day 14, 00:46:40   33000 ft   -43.8 C  305/38 kt' \
    '  2    0.1667 S   176.6333 W  day 14, 01:01:40   33000 ft   -44.1 C  300/41 kt' \
    '  3    2.3000 S   176.3000 W  day 14, 01:16:40   33400 ft   -44.9 C  296/44 kt' \
    '  4    4.4000 S   175.9000 W  day 14, 01:31:40   33000 ft   -44.0 C  -' \
    '  5           -   175.5667 W  day 14, 01:46:40   33000 ft   -43.6 C  280/33 kt'
err_is
cp "$scratch/out" "$scratch/shown"
input=$pacific
answers 0 'from standard input' track
out_has 'standard input, report 1 from byte 0 on: NFFN to PHNL, aircraft FJ0822' '  5   16.3833 S   179.4500 W'
input=/dev/null

answers 0 'for a machine' track --json "$pacific"
json_has subcommand=track results.0.accepted=true results.0.code=0 results.0.designator=FJ0822 results.0.report=1 \
    results.0.points.0.observation=1 results.0.points.4.longitude_minutes=-10767 \
    results.0.points.4.longitude_degrees=-179.4500 results.0.points.7.time=00:49:00 results.1.points.4.longitude_minutes=10790 \
    results.2.points.4.latitude_minutes=null results.2.points.4.longitude_minutes=-10534 results.2.points.4.observation=5 status=0
! grep -q 'results.2.points.5' "$scratch/flat" || fail 'an absent observation has a point'
! grep -q 'change' "$scratch/flat" || fail 'there is a change'

answers 0 'a table' track --csv "$pacific"
[ "$(wc -l <"$scratch/out")" -eq 22 ] || fail 'not a line of names and 21 rows'
head='file,report,departure,arrival,designator,observation,kind,latitude_minutes,latitude_degrees,longitude_minutes'
head=$head,longitude_degrees,seconds_into_month,day,time,altitude_feet,temperature_celsius,wind_direction_degrees
[ "$(head -n 1 "$scratch/out")" = "$head,wind_speed_knots" ] || fail 'not these names'
out_has "$pacific,1,NFFN,PHNL,FJ0822,5,A,-983,-16.3833,-10767,-179.4500,1124400,14,00:20:00,23500,-23.6,210,34" \
    "$pacific,3,PMDY,NSTU,N10774,5,R,,,-10534,-175.5667,1129600,14,01:46:40,33000,-43.6,280,33"

# What report derives, and what track shows, are the same call's.
answers 0 'report shows the same places' report --csv --fields lat,lon,seconds_into_month "$pacific"
cp "$scratch/out" "$scratch/of_report"
answers 0 'and track' track --csv "$pacific"
cut -d, -f9,11,12 "$scratch/out" >"$scratch/of_track"
sed -i 1d "$scratch/of_track" "$scratch/of_report"
cmp -s "$scratch/of_track" "$scratch/of_report" || fail 'they differ'

# Past the month's end, over a pole, and at 180 degrees itself: the first observation's bytes are put in place by hand, and a
# second one behind them.
made() { # NAME FIRST SECOND: 27 and 23 bytes
    absent=$(printf '%046d' 0 | tr 0 /)
    printf 'ABCDEFGH\r\nAMDAR3XY0001\r\n%s%s\r\n%s\r\n%s\r\n%s\r\n' "$2" "$3" "$absent" "$absent" "$absent" >"$scratch/$1"
}
made month 'R  K  KL1X..  K K K K//////' 'R K K  L  K K K K//////'
answers 0 'a second past the month is a day more' track "$scratch/month"
out_has '  1    0.0000 N     0.0000 E  day 31, 23:59:59' '  2    0.0000 N     0.0000 E  day 32, 00:00:00'
made pole 'RNF0  K    K  K K K K//////' 'R L K  K  K K K K//////'
answers 0 'beyond a pole a latitude is not known' track "$scratch/pole"
out_has '  1   90.0000 N     0.0000 E' '  2           -     0.0000 E'
made edge 'R  KQU0    K  K K K K//////' 'R K K  K  K K K K//////'
answers 0 '180 degrees east stays so' track "$scratch/edge"
out_has '  1    0.0000 N   180.0000 E' '  2    0.0000 N   180.0000 E'
made over 'R  KQU0    K  K K K K//////' 'R K L  K  K K K K//////'
answers 0 'and a minute further is west' track "$scratch/over"
out_has '  2    0.0000 N   179.9833 W'

# ---- for map programs
answers 0 'for map programs' track --geojson "$pacific"
cp "$scratch/out" "$scratch/pacific.geojson"
answers 0 'from 180 degrees itself: one piece on the other side' track --geojson "$scratch/over"
cp "$scratch/out" "$scratch/over.geojson"
answers 0 'along 180 degrees: nothing is cut' track --geojson "$scratch/edge"
cp "$scratch/out" "$scratch/edge.geojson"
answers 0 'beyond a pole: one position, no line' track --geojson "$scratch/pole"
cp "$scratch/out" "$scratch/pole.geojson"
"$root/host/tool" run generate reports 300 5 >"$scratch/many"
answers 0 'of random reports' track --geojson "$scratch/many"
cp "$scratch/out" "$scratch/many.geojson"
answers 0 'the same as a table' track --csv "$scratch/many"
cp "$scratch/out" "$scratch/many.csv"

# ---- pictures
answers 0 'a picture' track --svg "$scratch/pacific.svg" "$pacific"
out_is
err_is
answers 0 'a picture beside a table' track --svg "$scratch/one.svg" --csv "$examples/one.report"
out_has 'AU0137,2,R,-2226'
answers 0 'a picture of random reports' track --svg "$scratch/many.svg" "$scratch/many"
answers 0 'of two files' track --svg "$scratch/month.svg" "$scratch/month" "$examples/three.reports"
made nowhere 'R//////////////////////////' '///////////////////////'
answers 0 'of a report that gives nothing' track --svg "$scratch/nowhere.svg" "$scratch/nowhere"
answers 0 'which has a point all the same' track "$scratch/nowhere"
out_has '  1           -            -  -                         -         -  -'
answers 2 'a picture that cannot be written' track --svg "$scratch/none/x.svg" "$pacific"
err_has 'x.svg: cannot open'
if [ -e /dev/full ]; then
    answers 2 'a full disk' track --svg /dev/full "$pacific"
    err_has '/dev/full: cannot write'
fi

if command -v python3 >/dev/null; then
    python3 - "$scratch" <<'END' || { why='GeoJSON and SVG by python3' words=''; fail 'they do not hold'; }
import csv, json, sys, xml.etree.ElementTree as tree
at = sys.argv[1] + "/"
SVG = "{http://www.w3.org/2000/svg}"

def collection(name):
    with open(at + name, encoding="utf-8") as file:
        document = json.load(file)
    assert document["type"] == "FeatureCollection"
    for feature in document["features"]:
        assert feature["type"] == "Feature" and set(feature) == {"type", "geometry", "properties"}
    return document["features"]

def pieces(geometry):
    if geometry is None:
        return []
    kind, places = geometry["type"], geometry["coordinates"]
    assert kind in ("LineString", "MultiLineString") and (kind == "LineString" or len(places) > 1)
    return [places] if kind == "LineString" else places

def lines(features):
    return [f for f in features if f["geometry"] is None or f["geometry"]["type"] != "Point" if "observation" not in f["properties"]]

features = collection("pacific.geojson")
tracks, points = lines(features), [f for f in features if "observation" in f["properties"]]
assert len(tracks) == 3 and len(points) == 21
east, west, south = [f["geometry"] for f in tracks]
assert east["type"] == "MultiLineString" and len(east["coordinates"]) == 2
assert east["coordinates"][0][-1] == [180, -16.6833] and east["coordinates"][1][0] == [-180, -16.6833]
assert west["coordinates"][0][-1] == [-180, -12.9797] and west["coordinates"][1][0] == [180, -12.9797]
assert south["type"] == "LineString" and len(south["coordinates"]) == 4
assert points[4]["geometry"] == {"type": "Point", "coordinates": [-179.45, -16.3833]}
assert points[4]["properties"]["temperature_celsius"] == -23.6 and points[4]["properties"]["wind_speed_knots"] == 34
assert points[20]["geometry"] is None and points[20]["properties"]["longitude_minutes"] == -10534
assert lines(collection("over.geojson"))[0]["geometry"]["coordinates"] == [[-180, 0], [-179.9833, 0]]
assert lines(collection("edge.geojson"))[0]["geometry"]["coordinates"] == [[180, 0], [180, 0]]
assert lines(collection("pole.geojson"))[0]["geometry"] is None

# No piece goes over 180 degrees, none is shorter than two places, and the points are those of the table.
features = collection("many.geojson")
cut = 0
for feature in lines(features):
    parts = pieces(feature["geometry"])
    cut += len(parts) > 1
    for part in parts:
        assert len(part) > 1
        for (x, y), (u, v) in zip(part, part[1:]):
            assert -180 <= x <= 180 and -90 <= y <= 90 and abs(x - u) <= 180
    for one, other in zip(parts, parts[1:]):
        assert abs(one[-1][0]) == 180 and other[0][0] == -one[-1][0] and other[0][1] == one[-1][1]
assert cut > 5
with open(at + "many.csv", encoding="utf-8", newline="") as file:
    rows = list(csv.DictReader(file))
points = [f for f in features if "observation" in f["properties"]]
assert len(rows) == len(points)
for row, feature in zip(rows, points):
    place = row["latitude_degrees"] and row["longitude_degrees"]
    assert (feature["geometry"] is not None) == bool(place)
    if place:
        assert feature["geometry"]["coordinates"] == [float(row["longitude_degrees"]), float(row["latitude_degrees"])]

for name in ("pacific", "one", "many", "month", "nowhere"):
    root = tree.parse(at + name + ".svg").getroot()
    assert root.tag == SVG + "svg" and root.find(SVG + "title") is not None
root = tree.parse(at + "pacific.svg").getroot()
words = [t.text for t in root.iter(SVG + "text")]
assert "180\u00b0" in words and "FJ0822" in words and "temperature, \u00b0C" in words
assert len([p for p in root.iter(SVG + "polyline")]) == 6 and len(list(root.iter(SVG + "path"))) > 10
for line in root.iter(SVG + "polyline"):
    for place in line.get("points").split():
        x, y = map(float, place.split(","))
        assert 0 <= x <= 1180 and 0 <= y <= 700
assert "no position is known" in [t.text for t in tree.parse(at + "nowhere.svg").getroot().iter(SVG + "text")]
END
else
    echo 'track: python3 is not here: the GeoJSON and the pictures were not read by another program'
fi

# ---- what is refused
answers 1 'a damaged file: the bad ones are told, the others shown' track "$examples/damaged.reports"
out_has 'report 1 from byte 0 on: YMML' 'report 3 from byte 440 on: ABCD' 'report 5 from byte 873 on: YMML'
err_has 'report 2 from byte 220 on: refused: code 5 at byte 25, latitude of observation 1: ZZZ is 25435' \
    'report 4 from byte 660 on: refused: code 1 at byte 0: a report has 220 bytes, this one 213' \
    'eskelvor: 3 reports followed, 2 refused'
answers 1 'the same for a machine' track --json "$examples/damaged.reports"
json_has results.1.code=5 results.1.place=25 results.1.offset=220 results.3.code=1 results.4.accepted=true status=1
answers 1 'the same for map programs: still one document' track --geojson "$examples/damaged.reports"
out_has '"designator":"XY0001"'
: >"$scratch/empty"
answers 2 'an empty file' track "$scratch/empty"
err_has 'empty: there is no report in it'
answers 2 'no such file' track "$scratch/none"
err_has 'cannot open'
for slip in '--csv --geojson' '--csv --json' '--geojson --json' '--svg' '--loud'; do
    # shellcheck disable=SC2086
    answers 2 "a slip: $slip" track "$pacific" $slip
done

done_with 'tracks, tables, GeoJSON, pictures'
