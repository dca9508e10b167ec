"""The static library that bench/calls builds: a card whose call asks for what no caller can show, so that code is
measured which no program may call yet. Its files, by their names."""

LIB = '''//! A card on which a benchmark calls methods of packages.
#![tactic(auto)]

mod call;
mod card;
mod objects;
'''

OBJECTS = '''//! The card's first objects: the runtime's exceptions, in the order of their numbers, a global array of bytes, and one
//! that is cleared on deselect.

use jc_api::ApiClass;
use jc_program::Program;
use jc_names::{ClassName, Owner};
use jc_store::{ClearingEvent, Mark, ObjectKind, ObjectType, Store};

const EXCEPTIONS: [ApiClass; 10] = [
    ApiClass::ArithmeticException,
    ApiClass::ArrayStoreException,
    ApiClass::ClassCastException,
    ApiClass::ArrayIndexOutOfBoundsException,
    ApiClass::NegativeArraySizeException,
    ApiClass::NullPointerException,
    ApiClass::SecurityException,
    ApiClass::IsoException,
    ApiClass::SystemException,
    ApiClass::ApduException,
];

/// Makes them all.
pub(crate) fn make_exceptions(store: &mut Store, program: &Program) -> Option<()> {
    for class in EXCEPTIONS {
        let name = ClassName::Api(class);
        let number = program.classes.number_of(name)?;
        let len = program.rows.row(number).cells as usize;
        let kind = ObjectKind {
            object_type: ObjectType::Instance(name),
            mark: Mark::TemporaryEntryPoint,
            clears: None,
        };
        store.make(kind, Owner::RUNTIME, len, number.index())?;
    }
    Some(())
}

/// The two arrays, by their numbers.
#[derive(Clone, Copy)]
pub(crate) struct Arrays {
    pub(crate) global: u16,
    pub(crate) cleared: u16,
}

fn make_array(
    store: &mut Store,
    mark: Mark,
    clears: Option<ClearingEvent>,
    owner: Owner,
    len: usize,
) -> Option<u16> {
    let kind = ObjectKind {
        object_type: ObjectType::ByteArray,
        mark,
        clears,
    };
    store.make(kind, owner, len, 0)
}

/// Makes both, the second for the package with the number 2.
pub(crate) fn make_arrays(store: &mut Store) -> Option<Arrays> {
    let owner = Owner {
        context: 2,
        instance: 2,
    };
    let global = make_array(store, Mark::GlobalArray, None, Owner::RUNTIME, 261)?;
    let cleared = make_array(store, Mark::Plain, Some(ClearingEvent::Deselect), owner, 200)?;
    Some(Arrays { global, cleared })
}
'''

CARD = '''//! Packages that are loaded, and the machine that runs their methods.

use crate::objects::{Arrays, make_arrays, make_exceptions};
use jc_api::Binding;
use jc_base::{LoadFault, cut};
use jc_check::check;
use jc_frames::{CodePlace, FrameHeader, FrameSize, Frames};
use jc_interp::{Statics, WordMachine};
use jc_link::{World, link};
use jc_program::Program;
use jc_names::Owner;
use jc_offcard::put;
use jc_store::Store;
use jc_verify::infer;
use std::alloc::Global;

/// Packages, and the machine that runs their methods.
#[derive(Drop)]
pub(crate) struct Card {
    pub(crate) world: World,
    pub(crate) program: Program,
    pub(crate) machine: WordMachine,
}

/// Links a package, checks it with its certificate, and puts it behind the others.
fn load(alloc: Global, world: &mut World, image: &[u8]) -> Result<(), LoadFault> {
    let linked = link(alloc, &cut(image)?, world)?;
    let Ok(inferred) = infer(alloc, &linked) else {
        return Err(LoadFault::Memory);
    };
    let checked = check(alloc, linked, &inferred.cert)?;
    put(world, checked.into_linked())
}

/// The packages whose images stand one behind the other, each behind two bytes that say how long it is.
fn load_all(alloc: Global, images: &[u8]) -> Option<World> {
    let mut world = World::new(alloc, &Binding::default_table()).ok()?;
    let mut left = images;
    for _ in 0..64 {
        if left.len() < 2 {
            break;
        }
        let size = usize::from(left[0]) * 256 + usize::from(left[1]);
        let rest = &left[2..];
        if size > rest.len() {
            return None;
        }
        load(alloc, &mut world, &rest[..size]).ok()?;
        left = &rest[size..];
    }
    Some(world)
}

/// The static fields of all packages, each 0, but for those of the second at the offsets 2 and 4: the two arrays.
fn first_statics(alloc: Global, world: &World, arrays: Arrays) -> Option<Statics> {
    let mut statics = Statics::new(alloc);
    let mut number = 0;
    for body in world.bodies() {
        let size = usize::from(body.kept().statics.size);
        let mut image = vec![in alloc; 0; size].ok()?;
        if number == 1 && size > 4 {
            image[2] = arrays.global;
            image[4] = arrays.cleared;
        }
        statics.push(image).ok()?;
        number = 1;
    }
    Some(statics)
}

/// A card with packages, with the runtime's exceptions, and with two arrays in static fields.
pub(crate) fn new_card(alloc: Global, images: &[u8]) -> Option<Card> {
    let world = load_all(alloc, images)?;
    let program = Program::new(alloc, &world).ok()?;
    let mut store = Store::new(alloc, 32767, 65535).ok()?;
    make_exceptions(&mut store, &program)?;
    let arrays = make_arrays(&mut store)?;
    let frames = Frames::new(alloc, 64, 1024).ok()?;
    let statics = first_statics(alloc, &world, arrays)?;
    Some(Card {
        world,
        program,
        machine: WordMachine {
            store,
            frames,
            statics,
        },
    })
}

/// The frame of a call from outside: the one instance of the method's package is active, and has the package's number.
fn first_header(place: CodePlace) -> FrameHeader {
    FrameHeader {
        method: place,
        pc: 0,
        depth: 0,
        active: Owner {
            context: place.package,
            instance: place.package,
        },
        previous: None,
    }
}

/// How much room the frame of a method takes.
fn size_of(program: &Program, place: CodePlace) -> Option<FrameSize> {
    let number = program.methods.number_of(place.package, place.offset)?;
    let header = program.methods.get(number)?.header;
    Some(FrameSize {
        locals: u16::from(header.nargs) + u16::from(header.max_locals),
        operands: header.max_stack,
    })
}

/// Puts the first frame of a call there, if there is such a method and room.
pub(crate) fn begin(card: &mut Card, place: CodePlace, arguments: &[u16]) -> bool {
    let Some(size) = size_of(&card.program, place) else {
        return false;
    };
    if arguments.len() > usize::from(size.locals) {
        return false;
    }
    card.machine
        .frames
        .push_frame(first_header(place), size, arguments)
}
'''

CALL = '''//! The call that C makes.

use crate::card::{begin, new_card};
use jc_frames::CodePlace;
use jc_interp::{RunEnd, ShownFrame};
use jc_natives::Runtime;
use std::alloc::Global;

/// What is called: first a method without arguments, then one with one, for so many steps at most.
#[repr(C)]
#[derive(Drop)]
pub struct Call {
    pub first_package: u8,
    pub package: u8,
    pub first_offset: u16,
    pub offset: u16,
    pub argument: u16,
    pub steps: u32,
}

/// How the second call ended: 0 not at all, 1 with nothing, 2 with a word, 3 with an object that was thrown, 4 used up.
#[repr(C)]
#[derive(Drop)]
pub struct Ended {
    pub how: u16,
    pub word: u16,
}

/// Loads packages, and calls two methods.
#[unsafe(no_mangle)]
pub extern "C" fn calls_run(alloc: Global, images: &[u8], call: &Call, ended: &mut Ended)
    requires { ⊥ }
{
    let Some(mut card) = new_card(alloc, images) else {
        return;
    };
    let mut natives = Runtime::new();
    let mut stopped = ShownFrame::none();
    let first = CodePlace {
        package: call.first_package,
        offset: call.first_offset,
    };
    let place = CodePlace {
        package: call.package,
        offset: call.offset,
    };
    if !begin(&mut card, first, &[]) {
        return;
    }
    let _ = card
        .machine
        .run(&mut natives, &card.world, &card.program, None, 1000, &mut stopped);
    if !begin(&mut card, place, &[call.argument]) {
        return;
    }
    let end = card
        .machine
        .run(&mut natives, &card.world, &card.program, Some(2), call.steps, &mut stopped);
    match end {
        RunEnd::Gave(None) => ended.how = 1,
        RunEnd::Gave(Some(word)) => {
            ended.how = 2;
            ended.word = word;
        }
        RunEnd::Threw { object, .. } => {
            ended.how = 3;
            ended.word = object;
        }
        RunEnd::RanOut { .. } => ended.how = 4,
    }
}
'''

FILES = {'lib.rt': LIB, 'objects.rt': OBJECTS, 'card.rt': CARD, 'call.rt': CALL}
