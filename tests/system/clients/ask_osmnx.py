"""Asks an Overpass server through osmnx: for each query of a file (a JSON list) a line of JSON with what osmnx got, and then a
line with the nodes and edges of the graph that it makes of the last answer."""

import json
import sys
import time

import osmnx
from json_objects import objects_of
from osmnx import downloader, graph


def main():
    url, queries = sys.argv[1:]
    osmnx.settings.overpass_endpoint = url
    osmnx.settings.use_cache = False
    answer = None
    with open(queries, encoding="utf-8") as file:
        for query in json.load(file):
            begun = time.monotonic()
            try:
                answer = downloader.overpass_request({"data": query})
                told = {"objects": objects_of(answer)}
            except Exception as error:  # (osmnx raises no other class)
                told = {"refused": str(error)}
            print(json.dumps(told | {"seconds": time.monotonic() - begun}))
    made = graph._create_graph([answer], retain_all=True)
    print(json.dumps({"nodes": sorted(made.nodes), "edges": sorted({way["osmid"] for _, _, way in made.edges(data=True)})}))


main()
