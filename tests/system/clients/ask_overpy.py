"""Asks an Overpass server through overpy: for each query of a file (a JSON list) a line of JSON with what overpy made of the
answer. `sax` or `dom` chooses overpy's parser of XML."""

import json
import sys

import overpy


def meta(one):
    told = one.attributes
    when = told.get("timestamp")
    return [
        told.get("version", 0),
        told.get("changeset", 0),
        when.strftime("%Y-%m-%dT%H:%M:%SZ") if when else "",
        told.get("uid", 0),
        told.get("user", ""),
    ]


def objects_of(result):
    objects = {}
    for node in result.nodes:
        at = [str(node.lat), str(node.lon)] if node.lat is not None else None
        objects[f"n{node.id}"] = {"tags": node.tags, "at": at, "meta": meta(node)}
    for way in result.ways:
        objects[f"w{way.id}"] = {"tags": way.tags, "nodes": way._node_ids, "meta": meta(way)}
    for relation in result.relations:
        # (overpy's SAX parser makes no role of an empty one)
        members = [[member._type_value, member.ref, member.role or ""] for member in relation.members]
        objects[f"r{relation.id}"] = {"tags": relation.tags, "members": members, "meta": meta(relation)}
    return objects


def main():
    url, queries, parser = sys.argv[1:]
    api = overpy.Overpass(url=f"{url}/interpreter")
    api.xml_parser = overpy.XML_PARSER_SAX if parser == "sax" else overpy.XML_PARSER_DOM
    with open(queries, encoding="utf-8") as file:
        for query in json.load(file):
            try:
                print(json.dumps({"objects": objects_of(api.query(query))}))
            except overpy.exception.OverPyException as error:
                print(json.dumps({"refused": f"{type(error).__name__}: {error}"}))


main()
