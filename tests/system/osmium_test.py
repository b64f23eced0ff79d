"""Files that are exchanged with osmium-tool: what it writes is read, and what we write it reads.

Where osmium isn't there, all of this is skipped, and said so.
"""

import shutil
import subprocess
import tempfile
from pathlib import Path

from lines_rows_test import canonical
from runs import Outcome, Tally

# All kinds, metadata, and texts with each character that OPL escapes.
XML = """\
<?xml version='1.0' encoding='UTF-8'?>
<osm version="0.6" generator="by hand">
  <node id="-3" lat="-90" lon="-0.0000001"/>
  <node id="1" version="1" visible="true" changeset="5" timestamp="2020-01-02T03:04:05Z" uid="7" user="Ann"
        lat="52.5" lon="13.4"><tag k="highway" v="crossing"/></node>
  <node id="2" version="3" visible="true" changeset="5" timestamp="2020-01-02T03:04:05Z" uid="7"
        user="a b,c=d@e%f &#xe9; &#x1F600;" lat="52.5" lon="13.4000001">
    <tag k="a,b=c@d% e" v=" &lt;&amp;&quot; tab&#9;newline&#10;cr&#13;"/><tag k="" v="empty key"/>
    <tag k="name" v="Caf&#xe9; &#x20ac;"/><tag k="empty" v=""/></node>
  <way id="10" version="1"><nd ref="1"/><nd ref="2"/><nd ref="1"/><nd ref="-3"/>
    <tag k="highway" v="primary"/><tag k="name" v="A B"/></way>
  <way id="11"/>
  <relation id="100" version="2" changeset="9" timestamp="2021-02-03T04:05:06Z" uid="1" user="x">
    <member type="way" ref="10" role="outer"/><member type="node" ref="99" role="a b,c=d@e%"/>
    <member type="relation" ref="100" role=""/><tag k="type" v="route"/></relation>
  <relation id="101"/>
</osm>
"""

# The same set in its canonical text, by the rules of docs/FORMATS.md.
CANONICAL = b"""\
n-3 v0 dV c0 t i0 u T x-0.0000001 y-90
n1 v1 dV c5 t2020-01-02T03:04:05Z i7 uAnn Thighway=crossing x13.4 y52.5
n2 v3 dV c5 t2020-01-02T03:04:05Z i7 ua%20%b%2c%c%3d%d%40%e%25%f%20%%e9%%20%%1f600% \
T=empty%20%key,a%2c%b%3d%c%40%d%25%%20%e=%20%<&"%20%tab%09%newline%0a%cr%0d%,empty=,name=Caf%e9%%20%%20ac% \
x13.4000001 y52.5
w10 v1 dV c0 t i0 u Thighway=primary,name=A%20%B Nn1,n2,n1,n-3
w11 v0 dV c0 t i0 u T N
r100 v2 dV c9 t2021-02-03T04:05:06Z i1 ux Ttype=route Mw10@outer,n99@a%20%b%2c%c%3d%d%40%e%25%,r100@
r101 v0 dV c0 t i0 u T M
"""

WHOLE = Outcome(CANONICAL, b"", 0)


def converted(source, target):
    """Lets osmium read one file and write another, each in the format of its suffix."""
    subprocess.run(["osmium", "cat", "--no-progress", "--overwrite", source, "-o", target], check=True)
    return target


def check_reading(tally, room):
    """What osmium writes is read as the set that it is."""
    source = room / "set.osm"
    source.write_text(XML, encoding="utf-8")
    outcome = canonical(converted(source, room / "set.opl"))
    tally.check("osmium's OPL", outcome == WHOLE, outcome)


def check_writing(tally, room):
    """Our canonical text comes back from osmium as the same set, by each of its formats."""
    ours = room / "canonical.opl"
    ours.write_bytes(CANONICAL)
    for suffix in ["opl", "osm", "osm.pbf"]:
        through = converted(ours, room / f"through.{suffix}")
        outcome = canonical(converted(through, room / "back.opl"))
        tally.check(f"back from {suffix}", outcome == WHOLE, outcome)


def main():
    tally = Tally()
    if shutil.which("osmium") is None:
        print("SKIPPED: osmium isn't installed")
    else:
        with tempfile.TemporaryDirectory() as room:
            check_reading(tally, Path(room))
            check_writing(tally, Path(room))
    tally.end()


if __name__ == "__main__":
    main()
