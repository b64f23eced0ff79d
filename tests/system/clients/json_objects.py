"""The objects of a JSON answer, as the tests of clients compare them."""

KINDS = {"node": "n", "way": "w", "relation": "r"}


def objects_of(answer):
    """For each object, by its reference: its tags, location, nodes, members and metadata."""
    objects = {}
    for element in answer["elements"]:
        objects[f"{KINDS[element['type']]}{element['id']}"] = {
            "tags": element.get("tags", {}),
            "at": [repr(element["lat"]), repr(element["lon"])] if "lat" in element else None,
            "nodes": element.get("nodes", []),
            "members": [[member["type"], member["ref"], member["role"]] for member in element.get("members", [])],
            "meta": [
                element.get("version", 0),
                element.get("changeset", 0),
                element.get("timestamp", ""),
                element.get("uid", 0),
                element.get("user", ""),
            ],
        }
    return objects
