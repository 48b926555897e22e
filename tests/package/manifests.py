"""Compares manifests of Kubernetes, on standard input, with the models of python3-kubernetes, which
are made from the published OpenAPI schema.

A line names each fault: a key that the schema does not have, a value of another type, or one that
is missing. The last line counts the documents. The Python that runs it has `kubernetes` and `yaml`,
as Debian's has with python3-kubernetes.
"""
import re
import sys

import kubernetes
import yaml
from kubernetes.client import models

PLAIN = {
    "str": str,
    "int": int,
    "bool": bool,
    "float": (int, float),
    "datetime": str,
    "date": str,
    "object": object,
}


def faults_of(value, kind, path):
    """The faults of a value that is to be of a kind, as the models name it: `str`,
    `list[V1Container]`, `dict(str, str)`, `V1Pod`."""
    listed, mapped = re.fullmatch(r"list\[(.*)\]", kind), re.fullmatch(r"dict\(str, (.*)\)", kind)
    if listed or mapped:
        if not isinstance(value, list if listed else dict):
            return [f"{path}: is no {'list' if listed else 'mapping'}"]
        rows = enumerate(value) if listed else value.items()
        return [
            it
            for key, one in rows
            for it in faults_of(
                one, (listed or mapped)[1], f"{path}[{key}]" if listed else f"{path}.{key}"
            )
        ]
    if kind in PLAIN:
        fits = isinstance(value, PLAIN[kind]) and not (kind == "int" and isinstance(value, bool))
        return [] if fits else [f"{path}: {value!r} is no {kind}"]
    if not isinstance(value, dict):
        return [f"{path}: is no mapping"]
    return faults_of_model(value, getattr(models, kind), path)


def faults_of_model(value, model, path):
    names = {key: name for name, key in model.attribute_map.items()}
    found = [f"{path}.{key}: {model.__name__} has no such key" for key in value if key not in names]
    given = {names[key]: it for key, it in value.items() if key in names}
    try:
        model(**given)
    except ValueError as error:
        found.append(f"{path}: {error}")
    return found + [
        it
        for name, one in given.items()
        for it in faults_of(one, model.openapi_types[name], f"{path}.{model.attribute_map[name]}")
    ]


def faults_of_document(document):
    kind = document.get("kind", "")
    model = getattr(models, f"V1{kind}", None)
    if model is None or not str(document.get("apiVersion", "")).endswith("v1"):
        return [f"{document.get('apiVersion')} {kind}: there is no such kind"]
    return faults_of_model(document, model, kind)


def main():
    documents = [it for it in yaml.safe_load_all(sys.stdin) if it is not None]
    for document in documents:
        for it in faults_of_document(document):
            print(it)
    print(f"{len(documents)} documents by the models of kubernetes {kubernetes.__version__}")


if __name__ == "__main__":
    main()
