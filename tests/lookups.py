"""Look-ups over packages that are described (tests/packages.py), by docs/profile/lookups.md and linking.md: for packages that can be linked. A
class is known by the number of its package and its name, and a reference in a state is one to such a pair.
"""
from packages import *

OBJECT_ITSELF, THROWABLE = Reference((0, 'Object')), Reference((0, 'Throwable'))


class World:
    """Packages one behind the other, those of the API first, and what is looked up in them."""

    def __init__(self, packages):
        self.packages = packages
        self.classes = {(n, c.name): c for n, p in enumerate(packages) for c in p.classes}
        self.methods = {(n, m.name): (c, m) for (n, _), c in self.classes.items() for m in c.methods if not c.interface}

    def imported(self, at, token):
        """The package that an import is met by."""
        aid_of, (major, minor) = self.packages[at].imports[token]
        return next(n for n, p in enumerate(self.packages[:at]) if p.aid == aid_of and p.version[0] == major and p.version[1] >= minor)

    def class_at(self, at, to):
        if not isinstance(to, Imported):
            return at, to
        home = self.imported(at, to.package)
        return self.class_at(home, self.packages[home].exports[to.token][0])

    def static(self, at, of, column):
        """The package of a static member, and what it is called there: in column 1 of exports fields, in column 2 methods."""
        if not isinstance(of, tuple):
            return at, of
        home = self.imported(at, of[0])
        return home, self.packages[home].exports[of[1]][column][of[2]]

    def chain(self, c):
        """A class and those above it, the nearest first."""
        above = self.classes[c].above
        return [c] if above is None else [c, *self.chain(self.class_at(c[0], above))]

    def virtual(self, at, c, token):
        """The package and the method at a virtual token of a class, looked up for a package."""
        for d in self.chain(c):
            table = self.classes[d].public if token < 128 else self.classes[d].package
            place = token % 128 - table.base
            if (token < 128 or d[0] == at) and place in range(len(table.entries)) and table.entries[place] != ABOVE:
                return d[0], self.methods[d[0], table.entries[place]][1]

    def reference(self, c, is_array=False):
        """The type of references to a class, or to arrays of them. An interface counts as Object."""
        return Reference(OBJECT_ITSELF.to if self.classes[c].interface else c, is_array)

    def declared(self, at, kind):
        """The types of what a member takes or gives: one, or none for void."""
        if isinstance(kind, Reference):
            return [self.reference(self.class_at(at, kind.to), kind.is_array)]
        return [] if kind == VOID else [WORD if kind in PRIMITIVES else kind]

    def arguments(self, at, m):
        return [t for kind in m.takes for t in self.declared(at, kind)]

    def joined(self, t, u):
        """The least type above two."""
        if t == u:
            return t
        if {t, u} & {TOP, WORD}:
            return TOP
        if NULL in (t, u):
            return t if u == NULL else u
        if isinstance(t, Reference) and isinstance(u, Reference) and t.is_array == u.is_array:
            return Reference(next((c for c in self.chain(t.to) if c in self.chain(u.to)), OBJECT_ITSELF.to), t.is_array)
        return OBJECT_ITSELF

    def under(self, t):
        return lambda u: self.joined(t, u) == t
