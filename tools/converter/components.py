"""Writes the components of a package from its classes (docs/profile/files.md)."""
from converter.assemble import u1, u2
from converter.classfile import ABSTRACT, FINAL, PUBLIC, Refusal, Refusals, STATIC
from converter.layout import ABOVE, PACKAGE_VISIBLE, is_reference, objects_fields, place_of, static_fields, table
from converter.methods import Methods
from converter.references import References
from converter.statics import initial_values, laid_out
from converter.translate import translate
from converter.world import SHAREABLE, dotted

FILES = {
    1: 'Header', 3: 'Applet', 4: 'Import', 5: 'ConstantPool', 6: 'Class', 7: 'Method', 8: 'StaticField', 10: 'Export',
    11: 'Descriptor',
}
KINDS = ['class', 'field', 'virtual', 'super', 'static field', 'static method']  # of entries, by their tags from 1 on
NO_TYPE = 0xFFFF
NO_TOKEN = 0xFF
NOTHING = 0xFFFF  # in a table of virtual methods
INSTALL = ('install', '([BSB)V')
LARGEST = 0xFFFF  # bytes of a component


def named(package):
    """A package as Header and Import have it."""
    major, minor = package.version
    return u1(minor) + u1(major) + u1(len(package.aid)) + package.aid


def token_byte(token):
    return u1(NO_TOKEN if token is None else token)


def gathered(refusals, place, work, *arguments):
    """What a work gives; what is refused is noted, with a place where it has none."""
    try:
        return work(*arguments)
    except Refusals as several:
        refusals += several.all
    except Refusal as refusal:
        refusals.append(Refusal(refusal.text, refusal.place or place))
    except (IndexError, KeyError, TypeError, ValueError, AttributeError, OverflowError):
        refusals.append(Refusal('it isn\'t as a compiler writes it', place))
    return None


def translated(world, classes, refusals):
    """All methods with code, by their classes, names and types, and the static image. What is refused is gathered."""
    found, values = {}, {}
    for k in classes:
        for f in [*objects_fields(k.file), *static_fields(k.file)]:
            gathered(refusals, place_of(k, f), world.check_type, f.type)
        for method in k.file.methods:
            if method.has(ABSTRACT):
                gathered(refusals, place_of(k, method), world.check_type, method.type)
            elif method.code and method.name != '<clinit>':
                found[k.name, method.key] = gathered(refusals, place_of(k, method), translate, world, k, method)
        values[k.name] = gathered(refusals, dotted(k.name), initial_values, k)
    return found, None if refusals else laid_out(classes, values)


class Components:
    """The components of a package, by their tags: `infos`. It has none where something is refused: `refusals`."""

    def __init__(self, package, world, classes, applets, refusals):
        self.world, self.classes, self.applets, self.refusals = world, classes, applets, refusals
        found, self.statics = translated(world, classes, self.refusals)
        if not self.refusals:
            try:
                self.methods = Methods(classes, found)
                self.references = References(world, self.class_offsets(), len(self.methods.pool))
                self.infos = self.written(package)
            except OverflowError:
                raise Refusal('the package is too large: a component has at most %d bytes' % LARGEST) from None

    # Class

    def tables(self, k):
        """The tables of public and of package-visible methods."""
        base, entries = table(self.world, k, k.package_virtual)
        return table(self.world, k, k.virtual), (base - PACKAGE_VISIBLE if entries else 0, entries)

    def class_offsets(self):
        """Where records stand; nothing of other classes is needed to know how long they are."""
        found, at = {}, 0
        for k in self.classes:
            found[k.name] = at
            if k.is_interface:
                at += 1 + 2 * len(k.interfaces)
            else:
                entries = sum(len(entries) for _, entries in self.tables(k))
                at += 10 + 2 * entries + sum(3 + len(self.world.find(name).virtual) for name in k.interfaces)
        return found

    def record(self, k):
        if len(k.interfaces) > 15:
            raise Refusal('it has more than 15 interfaces', dotted(k.name))
        flags = (0x80 if k.is_interface else 0) | (0x40 if self.is_shareable(k) else 0) | len(k.interfaces)
        if k.is_interface:
            return u1(flags) + b''.join(map(self.references.of_class, k.interfaces))
        held = [token for token, f in enumerate(objects_fields(k.file)) if is_reference(f.type)]
        sizes = u1(len(k.fields)) + token_byte(held[0] if held else None) + u1(len(held))
        tables = self.tables(k)
        bases = b''.join(u1(base) + u1(len(entries)) for base, entries in tables)
        offsets = [NOTHING if e is ABOVE else self.methods.offsets[e] for _, entries in tables for e in entries]
        rows = b''.join(self.interface_row(k, name) for name in k.interfaces)
        return u1(flags) + self.references.of_class(k.above) + sizes + bases + b''.join(map(u2, offsets)) + rows

    def interface_row(self, k, name):
        """An interface of a class, and the class's virtual token for each of the interface's methods."""
        methods = self.world.find(name).virtual
        tokens = [k.virtual[key] for key in sorted(methods, key=methods.get)]
        return self.references.of_class(name) + u1(len(tokens)) + bytes(tokens)

    def is_shareable(self, k):
        classes = [k] if k.is_interface else self.world.chain(k.name)
        return any(SHAREABLE in above.interfaces for above in classes)

    # Descriptor

    def field_row(self, k, f):
        kind = self.references.of_field_type(f.type)
        if f.has(STATIC):
            place = u1(0) + u2(self.statics.places[k.name, f.key])
            return token_byte(k.static_fields[f.key]) + u1(f.flags & 0x1F) + place + kind
        token = u1(k.fields[f.key])
        return token + u1(f.flags & 0x1F) + self.references.of_class(k.name) + token + kind

    def method_row(self, k, method):
        where = k.name, method.key
        flags = method.flags & 0x1F | (0x40 if method.has(ABSTRACT) else 0) | (0x80 if method.name == '<init>' else 0)
        tables = [k.virtual, k.package_virtual] if method.is_virtual else [k.static_methods]
        token = next((table[method.key] for table in tables if method.key in table), None)
        place = u2(self.methods.offsets[where]) + self.references.of_type(method.type)
        return token_byte(token) + u1(flags) + place + b''.join(map(u2, self.methods.rows[where]))

    def interface_method_row(self, key, token):
        return u1(token) + u1(0x41) + u2(0) + self.references.of_type(key[1]) + bytes(6)

    def class_row(self, k):
        fields = [self.field_row(k, f) for f in [*objects_fields(k.file), *static_fields(k.file)]]
        if k.is_interface:
            methods = [self.interface_method_row(*pair) for pair in k.virtual.items()]
        else:
            methods = [self.method_row(k, method) for method in k.file.methods if method.name != '<clinit>']
        flags = sum(bit for bit, flag in ((1, PUBLIC), (0x10, FINAL), (0x80, ABSTRACT)) if k.file.has(flag))
        head = token_byte(k.token) + u1(flags | (0x40 if k.is_interface else 0)) + self.references.of_class(k.name)
        counts = u1(len(k.interfaces)) + u2(len(fields)) + u2(len(methods))
        return head + counts + b''.join([*map(self.references.of_class, k.interfaces), *fields, *methods])

    def descriptor(self):
        rows = b''.join(map(self.class_row, self.classes))
        pool = self.methods.pool
        types = [u2(NO_TYPE) if entry.type is None else self.references.of_type(entry.type) for entry in pool]
        return u1(len(self.classes)) + rows + u2(len(types)) + b''.join(types) + self.references.spelled

    # The other components

    def entry(self, entry):
        tag = u1(KINDS.index(entry.kind) + 1)
        if isinstance(entry.of, tuple):
            offsets = self.methods.offsets if entry.kind == 'static method' else self.statics.places
            return tag + u1(0) + u2(offsets[entry.of])
        return tag + self.references.of_class(entry.of) + u1(entry.token or 0)

    def applet(self, applet):
        name, aid = applet
        return u1(len(aid)) + aid + u2(self.methods.offsets[name, INSTALL])

    def static_field(self):
        s = self.statics
        arrays = b''.join(u1(kind) + u2(len(content)) + content for kind, content in s.arrays)
        size = 2 * s.references + s.defaults + len(s.values)
        counts = u2(size) + u2(s.references) + u2(len(s.arrays))
        return counts + arrays + u2(s.defaults) + u2(len(s.values)) + s.values

    def exported(self):
        """The classes that other packages see, by their tokens."""
        return sorted((k for k in self.classes if k.token is not None), key=lambda k: k.token)

    def export_row(self, k):
        fields = [self.statics.places[k.name, key] for key, token in k.static_fields.items() if token is not None]
        methods = [self.methods.offsets[k.name, key] for key, token in k.static_methods.items() if token is not None]
        counts = u1(len(fields)) + u1(len(methods))
        return self.references.of_class(k.name) + counts + b''.join(map(u2, [*fields, *methods]))

    def written(self, package):
        """The infos of the components. That of imports comes last: the others say which packages are named."""
        exported = self.exported()
        flags = (2 if exported else 0) | (4 if self.applets else 0)
        infos = {1: bytes.fromhex('DECAFFED0102') + u1(flags) + named(package)}
        if self.applets:
            infos[3] = u1(len(self.applets)) + b''.join(map(self.applet, self.applets))
        infos[6] = b''.join(map(self.record, self.classes))
        infos[5] = u2(len(self.methods.pool)) + b''.join(map(self.entry, self.methods.pool))
        infos[7], infos[8] = self.methods.info, self.static_field()
        if exported:
            infos[10] = u1(len(exported)) + b''.join(map(self.export_row, exported))
        infos[11] = self.descriptor()
        infos[4] = u1(len(self.references.imports)) + b''.join(map(named, self.references.imports))
        return infos

    def files(self):
        """The component files by their names."""
        for tag, info in self.infos.items():
            if len(info) > LARGEST:
                raise Refusal('the component %s has more than %d bytes' % (FILES[tag], LARGEST))
        return {FILES[tag] + '.cap': u1(tag) + u2(len(info)) + info for tag, info in sorted(self.infos.items())}
