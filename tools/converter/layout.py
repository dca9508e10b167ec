"""Gives the classes of a package their order, and their members tokens and places in tables."""
from converter.classfile import ABSTRACT, INTERFACE, Member, NATIVE, PROTECTED, PUBLIC, Refusal, Refusals, STATIC
from converter.classfile import SYNCHRONIZED, with_line
from converter.world import Known, MOST, OBJECT, dotted

VISIBLE = PUBLIC | PROTECTED
PACKAGE_VISIBLE = 128  # the least token of a package-visible method
ABOVE = None  # in a table, where another package has the method
CLOSED = 'it overrides a method that overrides a package-visible one of another package'
KINDS = {
    'java/lang/Enum': 'an enum', 'java/lang/Record': 'a record',
    'java/lang/annotation/Annotation': 'an annotation type',
}


def in_order(files):
    """Interfaces first, and each class or interface behind those of the package that it stands on."""
    waiting, found = {f.name: f for f in files}, []

    def put(file):
        if waiting.pop(file.name, None):
            for name in [file.above, *file.interfaces]:
                if name in waiting:
                    put(waiting[name])
            found.append(file)

    for file in sorted(files, key=lambda f: (not f.has(INTERFACE), f.name)):
        put(file)
    return sorted(found, key=lambda f: not f.has(INTERFACE))


def add_classes(world, files, refusals):
    """The classes of a package in their order; each is put into the world. Methods that are refused are gathered. Where
    a class is refused for itself, nothing else of the package can be told."""
    found, broken, seen = [], [], 0
    if len(files) > MOST:
        raise Refusal('there are more than %d classes' % MOST)
    for file in in_order(files):
        is_interface = file.has(INTERFACE)
        known = Known(file.name, None if is_interface else file.above, is_interface=is_interface, file=file)
        if file.has(PUBLIC):
            known.token, seen = seen, seen + 1
        world.known[file.name] = known
        try:
            add_class(world, known, refusals)
        except Refusal as refusal:
            broken.append(Refusal(refusal.text, refusal.place or dotted(file.name)))
            known.above = None if is_interface else OBJECT
        found.append(known)
    if broken:
        raise Refusals(broken + refusals)
    return found


def add_class(world, known, refusals):
    """Tells what a class has, and what it stands on."""
    for name in [known.file.above, *known.file.interfaces]:
        if name in KINDS:
            raise Refusal('%s isn\'t in the profile' % KINDS[name])
    known.interfaces = world.all_interfaces(known.file.interfaces)
    if known.is_interface:
        add_interface_methods(world, known, refusals)
    else:
        add_methods(world, known, refusals)
        add_fields(known)
    add_static_members(known)


def add_interface_methods(world, known, refusals):
    """The methods that an interface inherits, and then its own."""
    for name in known.interfaces:
        for key in world.find(name).virtual:
            known.virtual.setdefault(key, len(known.virtual))
    for method in known.file.methods:
        if method.name == '<clinit>':
            continue
        if not method.has(ABSTRACT):
            text = 'a method of an interface with code isn\'t in the profile'
            refusals.append(Refusal(text, place_of(known, method)))
        known.virtual.setdefault(method.key, len(known.virtual))
    check_count(known.virtual, PACKAGE_VISIBLE)


def add_methods(world, known, refusals):
    """The tokens of virtual methods: those of the class above, and further ones. What an abstract class leaves to be
    done of its interfaces, it declares itself."""
    above = world.find(known.above)
    if above.is_interface:
        raise Refusal('%s is an interface' % dotted(known.above))
    known.virtual, known.package_virtual, known.closed = dict(above.virtual), dict(above.package_virtual), above.closed
    for method in known.file.methods:
        if method.has(NATIVE | SYNCHRONIZED):
            word = 'native' if method.has(NATIVE) else 'synchronized'
            refusals.append(Refusal('a %s method isn\'t in the profile' % word, place_of(known, method)))
        if method.is_virtual and method.key in known.closed:
            refusals.append(Refusal(CLOSED, place_of(known, method)))
        if method.is_virtual and method.has(VISIBLE):
            known.virtual.setdefault(method.key, max(known.virtual.values(), default=-1) + 1)
        elif method.is_virtual:
            known.package_virtual.setdefault(method.key, PACKAGE_VISIBLE + len(known.package_virtual))
    for key in [key for name in known.interfaces for key in world.find(name).virtual]:
        if key not in known.virtual:
            if not known.file.has(ABSTRACT):
                raise Refusal('it lacks the method %s of an interface' % key[0])
            known.file.methods.append(Member(PUBLIC | ABSTRACT, *key))
            known.virtual[key] = max(known.virtual.values(), default=-1) + 1
    check_count(known.virtual, PACKAGE_VISIBLE)
    check_count(known.package_virtual, PACKAGE_VISIBLE)


def check_count(table, most):
    if len(table) > most:
        raise Refusal('it has more than %d methods of a kind' % most)


def is_reference(kind):
    return kind[0] in 'L['


def objects_fields(file):
    """The fields of objects by their tokens: those that others see first, and references one behind the other."""
    ranks = {(True, False): 0, (True, True): 1, (False, True): 2, (False, False): 3}
    fields = [f for f in file.fields if not f.has(STATIC)]
    return sorted(fields, key=lambda f: ranks[f.has(VISIBLE), is_reference(f.type)])


def add_fields(known):
    known.fields = {f.key: token for token, f in enumerate(objects_fields(known.file))}
    if len(known.fields) > MOST:
        raise Refusal('it has more than %d fields' % MOST)


def static_fields(file):
    """The static fields that have a place: constants have none, as the compiler puts their values into code."""
    return [f for f in file.fields if f.has(STATIC) and not f.is_constant]


def add_static_members(known):
    """Static members and constructors; those that other packages see get tokens."""
    methods = [m for m in known.file.methods if m.name == '<init>' or m.has(STATIC) and m.name != '<clinit>']
    for members, table in (methods, known.static_methods), (static_fields(known.file), known.static_fields):
        seen = [m.key for m in members if known.token is not None and m.has(VISIBLE)]
        table.update({m.key: None for m in members})
        table.update(zip(seen, range(len(seen))))
        if len(seen) > MOST:
            raise Refusal('it has more than %d static members that other packages see' % MOST)


def place_of(known, member):
    """How a member is named where something is wrong with it."""
    return with_line('%s.%s' % (dotted(known.name), member.name), member.code and member.code.line(0))


def method_of(known, key):
    """The method that a class of the package declares, or None."""
    return next((m for m in known.file.methods if m.key == key), None)


def table(world, known, tokens):
    """A table of virtual methods: its base, and for each token from there on the class and the method's name and type,
    or ABOVE. It begins with the least token of a method of the class itself."""
    by_token = {token: key for key, token in tokens.items()}
    own = [token for token, key in by_token.items() if declares(known, key)]
    if not own:
        return 0, []
    return min(own), [implementation(world, known, by_token[token]) for token in range(min(own), max(by_token) + 1)]


def declares(known, key):
    method = method_of(known, key)
    return method is not None and method.is_virtual


def implementation(world, known, key):
    """The class of the package, nearest above, that declares a virtual method, and its name and type."""
    for k in world.chain(known.name):
        if k.file is None:
            break
        if declares(k, key):
            return k.name, key
    return ABOVE
