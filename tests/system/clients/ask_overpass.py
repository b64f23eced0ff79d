"""Asks an Overpass server through python3-overpass: for each query of a file (a JSON list of queries with a verbosity) a line of
JSON with what it made of the answer, and with the query as it was sent."""

import json
import sys

import overpass
from json_objects import objects_of


def main():
    url, queries = sys.argv[1:]
    api = overpass.API(endpoint=f"{url}/interpreter")
    with open(queries, encoding="utf-8") as file:
        for query, verbosity in json.load(file):
            sent = api._construct_ql_query(query, "json", verbosity)
            try:
                answer = api.get(query, responseformat="json", verbosity=verbosity)
                print(json.dumps({"sent": sent, "objects": objects_of(answer)}))
            except overpass.errors.OverpassError as error:
                print(json.dumps({"sent": sent, "refused": type(error).__name__}))


main()
