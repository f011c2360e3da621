"""Everything that the page shows, read and looked up once."""
import repo
from contracts import Contracts
from listing import target_id
from quotations import Quotations
from references import References
from resolve import Resolver
from tools import Tools
from trace_md import Paragraph, Table, parsed, rows_of
from world import World

# the crates whose functions are the calls; of the others the page has the functions that docs/TRACE.md names
CALLS = ("types", "ty")


class Model:
    def __init__(self):
        self.tools = Tools()
        self.world = World(self.tools)
        self.resolver = Resolver(self.world)
        for file in self.world.specs.values():
            self.resolver.file(file)
        self.contracts = Contracts(self.resolver)
        self.read_order()
        self.read_trace()
        self.read_functions()
        self.read_proofs()

    def read_order(self):
        """The definition files in README.md's order, and the rest behind them."""
        self.order = repo.reading_order()
        self.problems = []
        for entry in self.order:
            entry.files = [key for key in entry.files if self.there(key in self.world.specs, repo.spec_path(*key))]
            entry.enums = [key for key in entry.enums if self.there(key[0] in self.world.declared.get(key[1], {}), "{} of crates/{}/src".format(*key))]
        read = [key for entry in self.order for key in entry.files]
        self.further = [self.world.specs[key] for key in repo.spec_files() if key not in read]
        shown = {(crate, name) for entry in self.order for name, crate in entry.enums}
        self.further_types = [
            made for crate, types in self.world.declared.items() for name, made in types.items() if (crate, name) not in shown
        ]

    def there(self, is_there, named):
        if not is_there:
            self.problems.append(f"README.md: {named} is not there")
        return is_there

    def read_trace(self):
        self.blocks = parsed()
        self.rows = rows_of(self.blocks)
        self.references = References(self.world)
        self.quotations = Quotations(self.blocks, self.rows)
        self.found, self.named = {}, {}
        for block in self.blocks:
            if isinstance(block, Paragraph):
                self.found[id(block)] = self.references.paragraph(block.text, block.line)
            elif isinstance(block, Table):
                for row, cells in self.references.table(block):
                    self.found[id(row)] = cells
                    references = [reference for cell in cells for reference in cell]
                    self.quotations.note_definitions(row, references)
                    self.note_named(row, references)
        for file in self.world.specs.values():
            self.quotations.file(file)

    def note_named(self, row, references):
        """Which rows name a function, a theorem, a line of a script or a file of definitions."""
        for reference in references:
            target = reference.target[1] if reference.kind == "proof" else reference.target
            target = getattr(target, "home", target) if reference.kind == "definition" else target
            if reference.kind in ("function", "proof", "test", "file", "definition") and target is not None:
                self.named.setdefault(target, {})[row.number] = row

    def naming(self, target):
        return list(self.named.get(target, {}).values())

    def read_functions(self):
        """The functions that are shown: the calls, and those that docs/TRACE.md names, crate by crate."""
        chosen = {(function.crate, function.title): function for function in self.references.named_functions}
        for crate in CALLS:
            for source in self.world.sources[crate]:
                chosen.update({(crate, function.title): function for function in source.functions})
        crates = list(CALLS) + sorted({crate for crate, _ in chosen} - set(CALLS))
        self.functions = [
            function
            for crate in crates
            for source in self.world.sources[crate]
            for function in source.functions
            if chosen.get((crate, function.title)) is function
        ]

    def read_proofs(self):
        """The theorems that docs/TRACE.md names, by file."""
        self.proofs = {}
        named = {target_id(made): made for made in self.references.named_proofs}
        for made in sorted(named.values(), key=lambda made: (made.home.path, made.site.line)):
            self.proofs.setdefault(made.home.path, []).append(made)
        for found in self.proofs.values():
            self.resolver.file(found[0].home)
        names = [made.name for made in named.values()]
        self.theorems = {made.name: identity for identity, made in named.items() if names.count(made.name) == 1}

    # ---- what listings ask

    def marks(self, token):
        return self.quotations.marks.get(id(token), [])

    def shows(self, made):
        """Of the files of proofs the page has the theorems that docs/TRACE.md names."""
        home = getattr(made, "home", None)
        return getattr(home, "folder", "") != "proofs" or made in self.proofs.get(home.path, ())

    def known(self, file, name):
        """The id that a name in a comment's code marks leads to: a definition that the file knows, or a theorem of that name."""
        made = file.scope.get(name) if file is not None else None
        if made is not None and made.kind != "elsewhere" and self.shows(made) and (made.kind != "tool" or self.tools.explains(made)):
            return target_id(made)
        return self.theorems.get(name)

    def quoted_lines(self, file):
        """The lines of a file that a row leads back to."""
        return {line for row in self.rows for source, line in row.quoted_at if source is file}
