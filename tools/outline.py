"""The outline of a design that vfault accepts, read lightly: modules with their variables and instances, and so what kind of thing a site is."""
import re

NOISE = re.compile(r"//[^\n]*|/\*.*?\*/|\"(?:\\.|[^\"\\\n])*\"|^\s*`timescale[^\n]*", re.S | re.M)
NAME = r"[A-Za-z_][\w$]*"
MODULE = re.compile(rf"\bmodule\s+({NAME})(.*?)\bendmodule\b", re.S)
# A declaration up to what ends it: in a head `)` or the next direction, else a semicolon.
DECLARED = re.compile(r"\b(?:(input|output)\b\s*)?\b(reg|integer|wire)?\b\s*(?:signed\b\s*)?(?:\[[^\]]*\]\s*)?(?P<names>[^;()]*?)(?=;|\)|,\s*(?:input|output)\b)")
BEGINS = re.compile(r"\b(?:input|output|reg|integer)\b")


def bracketed(text, start):
    """The text between the bracket at start and its partner, and the place behind that."""
    depth = 0
    for place in range(start, len(text)):
        depth += {"(": 1, ")": -1}.get(text[place], 0)
        if depth == 0:
            return text[start + 1:place], place + 1
    return text[start + 1:], len(text)


def parted(text):
    """The parts of a text between commas that stand in no brackets."""
    parts, depth, start = [], 0, 0
    for place, mark in enumerate(text):
        depth += {"(": 1, "[": 1, "{": 1, ")": -1, "]": -1, "}": -1}.get(mark, 0)
        if mark == "," and depth == 0:
            parts.append(text[start:place])
            start = place + 1
    return [it.strip() for it in [*parts, text[start:]]]


class Module:
    """What one module declares: variables, ports in their order, and instances as name, module and connections."""

    def __init__(self, text, names):
        self.variables, self.ports, self.instances = set(), [], []
        self.declarations(text)
        head = re.match(r"\s*(?:#\s*\(.*?\)\s*)?\(([^)]*)\)", text, re.S)
        if head and not re.search(r"\b(?:input|output)\b", head[1]):
            self.ports = [it for it in parted(head[1]) if it]
        for found in re.finditer(rf"\b({NAME})\s*(?=#\s*\(|{NAME}\s*\()", text):
            if found[1] in names:
                self.instances_at(found[1], text, found.end())

    def declarations(self, text):
        place = 0
        while True:
            start = BEGINS.search(text, place)
            found = start and DECLARED.match(text, start.start())
            if not found:
                return
            place = max(found.end(), start.end())
            names = [re.match(rf"{NAME}|", it)[0] for it in parted(found["names"])]
            if found[2] in ("reg", "integer"):
                self.variables.update(names)
            if found[1]:
                self.ports += [it for it in names if it not in self.ports]

    def instances_at(self, module, text, place):
        """The instances of one item that begins behind the module's name."""
        if text[place] == "#":
            place = bracketed(text, text.index("(", place))[1]
        while True:
            found = re.compile(rf"\s*,?\s*({NAME})\s*(?=\()").match(text, place)
            if not found:
                return
            inside, place = bracketed(text, found.end())
            self.instances.append((found[1], module, parted(inside)))


class Outline:
    """The modules of a design from its top."""

    def __init__(self, text, top=None):
        bare = NOISE.sub(lambda it: " ", text)
        found = MODULE.findall(bare)
        names = {name for name, _ in found}
        self.modules = {name: Module(inside, names) for name, inside in found}
        held = {module for it in self.modules.values() for _, module, _ in it.instances}
        tops = [top] if top else [it for it in self.modules if it not in held]
        self.top = tops[0] if len(tops) == 1 and tops[0] in self.modules else None

    def module_at(self, path):
        """The module of an instance by the names on the way to it, or None."""
        module = self.modules.get(self.top)
        for step in path:
            name = next((it for own, it, _ in module.instances if own == step), None) if module else None
            module = self.modules.get(name)
        return module

    def is_variable(self, module, name):
        """Whether a name is a variable, or joined to one by the port of an instance."""
        if name in module.variables:
            return True
        for _, inner, connections in module.instances:
            below = self.modules[inner]
            for place, connection in enumerate(connections):
                named = re.fullmatch(rf"\.\s*({NAME})\s*\(\s*({NAME})\s*\)", connection)
                joined = named[2] if named else connection
                port = named[1] if named else below.ports[place] if place < len(below.ports) else None
                if joined == name and port in below.ports and self.is_variable(below, port):
                    return True
        return False

    def kind_of(self, site):
        """What a site is, by its declaration; a reg stands for an integer too."""
        *path, name = site.split(".")
        if name.isdigit():
            return "input of a gate"
        module = self.module_at(path)
        if module is None:
            return "bit of a reg or wire"
        return "bit of a reg" if self.is_variable(module, name.split("[")[0]) else "bit of a wire"


def instance_of(site):
    """The instance in which a site stands, as its names joined by dots; the top is the empty text."""
    path = site.split(".")
    return ".".join(path[:-2] if path[-1].isdigit() else path[:-1])
