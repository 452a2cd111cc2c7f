"""Which definitions of specs/ and which types of src/ stand on which others, by the names that their texts have.

A definition uses another when its text names it, as the imports of its file resolve the name and where no parameter, pattern or
`let` of the same clause hides it. A constructor stands for its type. A type of the code uses the types of its fields and what its
public facts name. Definitions of the standard library are not followed, nor the clauses of traits. What is not seen: what a type is
viewed as (`ghost view`), and contracts that a definition relies on without naming them.
"""
import re

from proving.antt import LABEL, WORDS, definitions_in, without_texts

NAME = re.compile(r"[^\s(){}\[\],;]+")
BINDERS = re.compile(r"[({]\s*((?:[^\s(){}\[\],;:]+\s+)+):(?=\s)")
RUST_ITEM = re.compile(r"(?m)^(pub )?(?:const |unsafe )*(struct|enum|trait|type|fn|impl)\b(?:<[^{\n]*?>)?[ ](.*)")
RUST_END = re.compile(r"(?m)^(?:\S.*)?[;}]$")
CLAUSE = re.compile(r"\b(?:requires|ensures|pub ghost \w+:)[^{};]*\{")


def free_names(text, is_clause=False, means=lambda word: True, bound=()):
    """The words of a piece of text, but for labels, projections and what the text binds."""
    hidden = set(bound).union(*(names.split() for names in BINDERS.findall(text)))
    hidden.update(*(names.split() for names in re.findall(r"λ ([^(){}.]*)\.", text)), re.findall(r"\blet (\S+)", text))
    text = re.sub(r"([{;]\s*)[^\s{};]+ =(?=\s)", r"\1", LABEL.sub(r"\1", text))
    if is_clause:
        hidden.update(word for word in NAME.findall(re.split(r"\s=(?:\s|$)", text)[0]) if not means(word))
    return [word for word in NAME.findall(text) if word.split(".")[0] not in hidden]


class Repository:
    """Nodes are ("spec", crate, file, name) and ("rust", crate, module, name)."""

    def __init__(self, root):
        self.crates = {path.name: path for path in sorted((root / "crates").iterdir()) if path.is_dir()}
        self.lines, self.specs, self.rust, self.definition, self.node_of = {}, {}, {}, {}, {}
        for crate, folder in self.crates.items():
            for path in sorted((folder / "specs").rglob("*.antt")):
                key = crate, str(path.relative_to(folder / "specs").with_suffix(""))
                self.lines[key] = path.read_text().splitlines()
                self.specs[key] = definitions_in(self.lines[key])
                for one in self.specs[key][1]:
                    self.definition["spec", *key, one.name] = one
                    self.node_of.update({(*key, name): ("spec", *key, one.name) for name in [one.name, *one.constructors]})
            for path in sorted((folder / "src").rglob("*.rt")):
                parts = path.relative_to(folder / "src").with_suffix("").parts
                module = () if parts == ("lib",) else parts[:-1] if parts[-1] == "mod" else parts
                self.rust[crate, module] = {"path": path.relative_to(root), **self.rust_file(path.read_text())}

    def rust_file(self, text):
        """The items, imports and modules of a file of code."""
        text = re.sub(r"(?m)^[ ]*(//.*|#!?\[.*\])$", "", text)
        items, uses, public = {}, {}, []
        for head in RUST_ITEM.finditer(text):
            end = RUST_END.search(text, head.start())
            body, first = text[head.start() : end.end() if end else len(text)], text.count("\n", 0, head.start()) + 1
            name = re.match(r"\w*", head[3].split(" for ")[-1])[0]
            is_trait_impl = head[2] == "impl" and " for " in head[3]
            items[(name, first) if head[2] == "impl" else name] = dict(
                kind="" if is_trait_impl else head[2], public=head[1], first=first, last=first + body.count("\n"), text=body)
        for is_public, path in re.findall(r"(?m)^(pub )?use ([^;]*);", text):
            start, _, names = path.partition("::{")
            for name in re.findall(r"[\w:]+(?: as \w+)?", names) or [""]:
                full, _, other = (f"{start}::{name}" if names else path).partition(" as ")
                uses[other or full.split("::")[-1]] = full.split("::")
                public += [full.split("::")] if is_public else []
        return dict(items=items, uses=uses, public=public, modules=re.findall(r"(?m)^pub mod (\w+);", text),
                    ghost=re.findall(r"ghost (use [^;]*);", text))

    def find_rust(self, crate, module, path, depth=0):
        """The item that a module calls by this path, behind all re-exports."""
        file = self.rust.get((crate, module))
        if not path or not file or depth > 12:
            return None
        head, rest = path[0], path[1:]
        if rest and (head == "crate" or head in self.crates):
            return self.find_rust(crate if head == "crate" else head, (), rest, depth + 1)
        if not rest and head in file["items"]:
            return "rust", crate, module, head
        if file["uses"].get(head, [head]) != [head]:
            return self.find_rust(crate, module, file["uses"][head] + rest, depth + 1)
        return self.find_rust(crate, module + (head,), rest, depth + 1)

    def find_spec(self, file, name):
        """What a file of definitions has under a name: its own, or what a `pub use` of it hands on."""
        handed_on = [it for it in self.specs.get(file, ([],))[0] if it.startswith("pub use ")]
        return self.node_of.get((*file, name)) or self.meanings(handed_on)(name)

    def meanings(self, imports, key=None):
        """What a word means in a file with these imports: a function from words to nodes, or None."""
        names, modules = {}, {}
        for statement in imports:
            path, _, items = statement.split("use ", 1)[1].partition(".{")
            path, _, alias = path.partition(" as ")
            parts = [part for part in path.strip().split(".") if part != "TheVariants"]
            if len(parts) < 4 or parts[1] not in self.crates or parts[2] != "specs":
                continue
            if parts[3] in ("declared", "contracts"):
                node = "rust", parts[1], tuple(parts[4:-1]), parts[-1]
                find = lambda name, node=self.find_rust(node[1], node[2], [node[3]]) or node: node
            else:
                file = parts[1], "/".join(parts[3:])
                find = lambda name, file=file: self.find_spec(file, name) or ("lost", *file, name)
            for item in re.findall(r"[^\s,{}]+(?: as [^\s,{}]+)?", items):
                name, _, other = item.partition(" as ")
                names.update({part: find(name) for part in (other or name).split("◌") if part})
            if not items:
                modules[alias.strip() or parts[-1]] = find
        for one in self.specs[key][1] if key else []:
            own = [part for name in [one.name, *one.constructors] for part in name.split("◌") if part]
            names.update({part: ("spec", *key, one.name) for part in own})

        def meant(word):
            head, _, rest = word.rstrip(".").partition(".")
            return modules[head](rest.split(".")[0]) if rest and head in modules else names.get(head)
        return meant

    def used_by(self, node):
        """The nodes that a definition or a type names."""
        if node[0] != "spec":
            item = self.rust.get(node[1:3], {"items": {}})["items"].get(node[3])
            return self.used_by_rust(*node[1:3], item["text"]) if item and item["kind"] != "trait" else []
        meant, one, used = self.meanings(self.specs[node[1:3]][0], node[1:3]), self.definition[node], []
        is_constructor = lambda word, to: word.split(".")[-1] in self.definition[to].constructors
        can_match = lambda word: (to := meant(word)) and (to[0] != "spec" or to == node or is_constructor(word, to))
        for i, part in enumerate(one.parts):
            part = re.sub(rf"^\s*{WORDS}", " ", part)
            if not part.strip().startswith("unfolding "):
                used += map(meant, free_names(part, i > 0, can_match))
        return filter(None, used)

    def used_by_rust(self, crate, module, text):
        """What a type, or the head of a call, names: types, and definitions in its clauses."""
        meant, used, start = self.meanings(self.rust[crate, module]["ghost"]), [], 0
        text = re.split(r"\n *\{", text)[0] if re.match(r"(pub )?(const )?fn ", text) else text
        text = re.sub(r"(?m)^\s+ghost .*$", "", text)
        plain, bound = "", {"self", "result", *re.findall(r"(\w+)\s*:[^:]", CLAUSE.split(text)[0])}
        while opening := CLAUSE.search(text, start):
            end, depth = opening.end(), 1
            while depth and end < len(text):
                depth, end = depth + {"{": 1, "}": -1}.get(text[end], 0), end + 1
            words = free_names(without_texts(text[opening.end() : end - 1]), bound=bound)
            used += [meant(word) or self.find_rust(crate, module, word.split(".")[:1]) for word in words]
            plain, start = plain + text[start : opening.start()], end
        paths = re.findall(r"[A-Za-z_]\w*(?:::\w+)*", plain + text[start:])
        used += [self.find_rust(crate, module, path.split("::")) for path in paths]
        is_call = lambda to: to[0] == "rust" and self.rust[to[1:3]]["items"].get(to[3], {}).get("kind") == "fn"
        return [to for to in used if to and not is_call(to)]

    def roots_of(self, crate, module=()):
        """The public items of a crate, and what the heads of public methods name."""
        file = self.rust.get((crate, module), dict(items={}, public=[], modules=[]))
        roots = [("rust", crate, module, name) for name, item in file["items"].items() if item["public"]]
        roots += filter(None, (self.find_rust(crate, module, path) for path in file["public"]))
        roots += [node for child in file["modules"] for node in self.roots_of(crate, module + (child,))]
        types = {name for _, _, _, name in roots}
        for (owner, inside), other in self.rust.items() if not module else []:
            for name, item in other["items"].items():
                if owner == crate and item["kind"] == "impl" and name[0] in types:
                    for method in re.findall(r"(?ms)^    (pub (?:const )?fn .*?)(?=^    \{|\{$)", item["text"]):
                        roots += self.used_by_rust(owner, inside, method)
        return roots

    def closure(self, roots):
        """All that these nodes stand on, and themselves."""
        reached, waiting = set(), set(roots)
        while waiting:
            node = waiting.pop()
            reached.add(node)
            waiting |= set(self.used_by(node)) - reached
        return reached
