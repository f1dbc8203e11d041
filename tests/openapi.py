"""What docs/openapi.yaml says about the office over HTTP, and whether a reply is as it says. Python has no reader of YAML, so
this reads the part of YAML that the file uses."""
import json
import re

from programs import HOME

PATH = HOME / "docs" / "openapi.yaml"
WHOLE = re.compile(r"\A-?(0|[1-9][0-9]*)\Z")


class Lines:
    """The lines of a file that are still to be read, each with its indentation."""

    def __init__(self, text):
        lines = [line for line in text.splitlines() if line.strip()]
        self.left = [(len(line) - len(line.lstrip()), line.strip()) for line in reversed(lines)]

    def indent(self):
        return self.left[-1][0] if self.left else -1

    def value(self):
        """The mapping or the list that begins at the next line."""
        return self.items() if self.left[-1][1].startswith("- ") else self.mapping()

    def items(self):
        indent, found = self.indent(), []
        while self.indent() == indent:
            text = self.left.pop()[1]
            if not text.startswith("- "):
                raise ValueError(f"no item: {text}")
            self.left.append((indent + 2, text[2:]))
            found.append(self.mapping())
        return found

    def mapping(self):
        indent, found = self.indent(), {}
        while self.indent() == indent:
            key, colon, text = self.left.pop()[1].partition(":")
            key = scalar(key)
            if not colon or text[:1] not in ("", " ") or key in found:
                raise ValueError(f"no new key: {key}{colon}{text}")
            found[key] = self.behind(indent, text.strip())
        return found

    def behind(self, indent, text):
        """What follows a key: a text on its line or on the lines below it, or what is indented there."""
        if text == ">-":
            folded = []
            while self.indent() > indent:
                folded.append(self.left.pop()[1])
            return " ".join(folded)
        if text == "|":
            kept = []
            while self.indent() > indent:
                kept.append(self.left.pop()[1])
            return "".join(f"{line}\n" for line in kept)
        if text:
            return flow(text)
        if self.indent() <= indent:
            raise ValueError("nothing comes behind a key")
        return self.value()


def flow(text):
    """A text, a number, a word, or a list of these in brackets."""
    if text.startswith("["):
        inner = text.removeprefix("[").removesuffix("]")
        return [scalar(item.strip()) for item in inner.split(",")] if inner else []
    return scalar(text)


def shows(example, whole):
    """Whether a value is what an example shows. A list in an example may have only the first items."""
    if isinstance(example, dict):
        return isinstance(whole, dict) and example.keys() == whole.keys() and all(shows(example[name], whole[name]) for name in example)
    if isinstance(example, list):
        return isinstance(whole, list) and len(example) <= len(whole) and all(map(shows, example, whole))
    return type(example) is type(whole) and example == whole


def scalar(text):
    if text.startswith("'"):
        return text[1:-1].replace("''", "'")
    if text in ("true", "false"):
        return text == "true"
    return int(text) if WHOLE.match(text) else text


class Description:
    """The office as the file describes it."""

    def __init__(self):
        self.whole = Lines(PATH.read_text(encoding="utf-8")).value()
        self.parts = self.whole["components"]

    def resolved(self, part):
        """A part itself, or the part that it refers to."""
        while "$ref" in part:
            found = self.whole
            for name in part["$ref"].removeprefix("#/").split("/"):
                found = found[name]
            part = found
        return part

    def operations(self):
        """Each method and path, with what is said about it."""
        for path, methods in self.whole["paths"].items():
            for method, operation in methods.items():
                yield method.upper(), path, operation

    def parameters(self, operation):
        """The name and the schema of each part of an operation's path that varies."""
        parts = (self.resolved(part) for part in operation["parameters"])
        return {part["name"]: self.resolved(part["schema"]) for part in parts if part["in"] == "path"}

    def example_request(self, path, operation):
        """The target of an operation's example, and the text that is sent to it, or None if there is none."""
        parts = (self.resolved(part) for part in operation["parameters"])
        target = path.format(**{part["name"]: part["example"] for part in parts if part["in"] == "path"})
        contents = operation.get("requestBody", {}).get("content", {})
        return target, next((content["example"] for content in contents.values()), None)

    def example_reply(self, response):
        """What the only content of a response shows as its example."""
        (content,) = self.resolved(response)["content"].values()
        return content["example"]

    def examples(self):
        """Each example with its schema, and where it is."""
        for _, path, operation in self.operations():
            for part in map(self.resolved, operation["parameters"]):
                yield f"{path} {part['name']}", part["schema"], part["example"]
            for content in operation.get("requestBody", {}).get("content", {}).values():
                yield f"{path} request", content["schema"], content["example"]
            for status, response in operation["responses"].items():
                (content,) = self.resolved(response)["content"].values()
                yield f"{path} {status}", content["schema"], content["example"]

    def key_header(self):
        """The header that shows a key."""
        (name,) = (name for needed in self.whole["security"] for name in needed)
        scheme = self.parts["securitySchemes"][name]
        assert (scheme["type"], scheme["in"]) == ("apiKey", "header"), scheme
        return scheme["name"]

    def path_of(self, target):
        """The path to which a target belongs, if it belongs to one. Its parts need not be readable."""
        parts = target.split("/")
        for path in self.whole["paths"]:
            names = path.split("/")
            if len(names) == len(parts) and all(n == p or n.startswith("{") for n, p in zip(names, parts)):
                return path
        return None

    def response_to(self, method, target, status):
        """What is said about a reply. It belongs to no operation if the path or its method is not there."""
        path = self.path_of(target)
        methods = self.whole["paths"].get(path, {})
        operation = methods.get(method.lower())
        if methods and status == 405:
            # Each operation of a path says what another method gets.
            operation = next(iter(methods.values()))
        if operation is None:
            names = {404: "NoRoute", 400: "BadRequest"}
            return self.parts["responses"][names[status]]
        return self.resolved(operation["responses"][str(status)])

    def faults(self, method, target, status, headers, body):
        """In what a reply is not as the file says."""
        response = self.response_to(method, target, status)
        wanted = {name for name, header in response.get("headers", {}).items() if header.get("required")}
        found = [f"no header {name}" for name in wanted - headers.keys()]
        for name in wanted & headers.keys():
            found += self.differences(response["headers"][name]["schema"], headers[name], name)
        (kind, content), = response["content"].items()
        if headers["Content-Type"] != kind:
            found.append(f"content of type {headers['Content-Type']}")
        if method == "HEAD":
            return found
        return found + self.differences(content["schema"], json.loads(body), "body")

    def differences(self, schema, value, at):
        """In what a value does not fit a schema."""
        schema = self.resolved(schema)
        kinds = {"object": dict, "array": list, "string": str, "integer": int}
        if not isinstance(value, kinds[schema["type"]]):
            return [f"{at}: {value!r} is no {schema['type']}"]
        found = [f"{at}: {value!r} {why}" for why in self.misfits(schema, value)]
        if isinstance(value, dict):
            names = schema["properties"]
            found += [f"{at} lacks {name}" for name in schema["required"] if name not in value]
            found += [f"{at} has {name}" for name in value if name not in names]
            for name in names.keys() & value.keys():
                found += self.differences(names[name], value[name], f"{at}.{name}")
        if isinstance(value, list):
            for number, item in enumerate(value):
                found += self.differences(schema["items"], item, f"{at}[{number}]")
        return found

    def misfits(self, schema, value):
        """The rules of a schema that a text or number breaks."""
        if value not in schema.get("enum", [value]):
            yield "is none of those that may be there"
        if "pattern" in schema and not re.search(schema["pattern"], value):
            yield "is off its pattern"
        if isinstance(value, int) and not schema.get("minimum", value) <= value <= schema.get("maximum", value):
            yield "is out of its range"
