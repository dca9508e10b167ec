"""The crates, with the files of definitions and of code that were looked at, and where names lead."""
import os

from common import Fault

from believed.declared import FIELDS, Code, Part
from believed.definitions import Import, Module

DEFINED, DECLARED, VARIANTS = 'specs.', 'specs.declared.', 'TheVariants'
# What the language has without a `use`
BUILT_IN = {'⊥', 'Type', 'Unit', 'tt', 'sem', '𝓛'}
# Constructors of the library that begin with a small letter
SMALL = {'zero', 'suc', 'pos', 'negsuc', 'true', 'false', 'inl', 'inr', 'tt'}


class World:
    def __init__(self, top):
        self.top, self.modules, self.codes = top, {}, {}
        rows = self.text_of('crates.txt').split('\n')
        self.crates = [row.partition(':')[0] for row in rows if row.strip() and not row.startswith('#')]

    def text_of(self, path):
        try:
            with open(os.path.join(self.top, path), encoding='utf-8') as file:
                return file.read()
        except FileNotFoundError:
            raise Fault('%s isn\'t there' % path) from None
        except UnicodeDecodeError:
            raise Fault('%s isn\'t UTF-8' % path) from None

    def module(self, crate, name):
        """A file of definitions."""
        if (crate, name) not in self.modules:
            path = os.path.join('crates', crate, 'specs', name + '.antt')
            self.modules[crate, name] = Module(self, crate, path, self.text_of(path))
        return self.modules[crate, name]

    def code(self, crate, name):
        """A file of code."""
        if (crate, name) not in self.codes:
            path = os.path.join('crates', crate, 'src', name + '.rt')
            self.codes[crate, name] = Code(self, crate, path, self.text_of(path))
        return self.codes[crate, name]

    def type_by(self, path):
        """The type that a path of code leads to, which begins with a crate. None: it is the library's, or no type."""
        crate, *modules = path
        if crate not in self.crates or not modules:
            return None
        name = modules.pop()
        code = self.code(crate, modules[0] if modules else 'lib')
        if name in code.types or name not in code.uses:
            return code.types.get(name)
        further = code.uses[name]
        return self.type_by(further if modules or further[0] in self.crates else (crate, *further))

    def named(self, found):
        """The definitions that an import leads to, and whether as a constructor. Behind the name of the file that of a
        data type may stand."""
        return self.module(found.crate, found.module.removeprefix(DEFINED).split('.')[0]).named(found.name)

    def is_constructor(self, imports, word):
        """Whether a word is a constructor's, by what is imported. One of the library is known by how it is written."""
        found = imports.get(word)
        if not found or found.crate not in self.crates:
            return word in SMALL or bool(found) and not found.name[:1].islower()
        if found.module.startswith(DECLARED):
            return found.module.endswith(VARIANTS)
        return any(is_constructor for _, is_constructor in self.named(found))

    def target(self, found):
        """What an import leads to: definitions, parts of a type, or itself, as it is the library's."""
        if found.crate not in self.crates:
            return [found]
        if not found.module.startswith(DECLARED):
            return [each for each, _ in self.named(found)]
        file, name, *inside = found.module.removeprefix(DECLARED).split('.')
        declared = self.code(found.crate, file).types.get(name)
        if not declared:
            raise Fault('crates/%s/src/%s.rt: it declares no %s' % (found.crate, file, name))
        return [Part(declared, FIELDS, False)] if inside else declared.parts(False)

    def resolve(self, imports, token, path):
        """What a name leads to that stands in a file, by what is imported there."""
        head, *rest = token.text.split('.')
        if head in BUILT_IN:
            return []
        found = imports.get(head)
        if not found:
            raise Fault('%s:%d: where does %s come from?' % (path, token.line, token.text))
        return self.target(found if found.name else Import(found.crate, found.module, rest[0] if rest else ''))
