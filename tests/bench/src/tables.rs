//! Tables of the tuned version, computed when it is compiled.
//!
//! A class is its code, a set of classes a mask. A flavour is what a kind
//! does: bit 0 inverts, bit 1 is OR rather than AND.

/// Flavour by kind byte; 255 for no kind.
pub static FLAVOUR: [u8; 256] = {
    let mut table = [255; 256];
    table[1] = 1;
    table[2] = 0;
    table[3] = 0;
    table[4] = 2;
    table[5] = 1;
    table[6] = 3;
    table
};

/// Permitted pin counts by kind byte, as a mask.
pub static COUNTS: [u16; 256] = {
    let mut table = [0; 256];
    table[1] = 1 << 1;
    table[2] = 1 << 1;
    let mut kind = 3;
    while kind < 7 {
        table[kind] = 0b1_1111_1100;
        kind += 1;
    }
    table
};

/// By pin count, all ones for each of eight lanes that holds a pin.
pub static LANES: [[u16; 8]; 16] = {
    let mut table = [[0; 8]; 16];
    let mut at = 0;
    while at < 16 * 8 {
        if at % 8 < at / 8 {
            table[at / 8][at % 8] = 0xFFFF;
        }
        at += 1;
    }
    table
};

const fn start(class: u8) -> bool {
    matches!(class, 1 | 3 | 5 | 7)
}

const fn end(class: u8) -> bool {
    matches!(class, 1 | 2 | 5 | 6)
}

const fn invert(class: u8) -> u8 {
    class ^ 1
}

/// AND of the members of a set, which is not empty: joins are idempotent, so
/// a gate's class depends only on the set of its pins' classes.
const fn and_of_set(set: u8) -> u8 {
    if set & 1 != 0 {
        return 0;
    }
    let (mut starts, mut ends, mut class) = (true, true, 0);
    while class < 8 {
        if set >> class & 1 != 0 {
            starts &= start(class);
            ends &= end(class);
        }
        class += 1;
    }
    match (starts, ends) {
        (false, false) => 4,
        (true, true) if set & !0b0010 == 0 => 1,
        (true, true) => 5,
        (false, true) if set & !0b0110 == 0 => 2,
        (false, true) => 6,
        (true, false) if set & !0b1010 == 0 => 3,
        (true, false) => 7,
    }
}

/// The set of the inverted members: codes 2k and 2k + 1 change places.
const fn invert_set(set: u8) -> u8 {
    (set & 0x55) << 1 | (set & 0xAA) >> 1
}

/// A gate's class, as the set of it alone, by flavour and the set of its pins'
/// classes.
pub static GATE: [[u8; 256]; 4] = {
    let mut table = [[0; 256]; 4];
    let mut set = 1;
    while set < 256 {
        let and = and_of_set(set as u8);
        let or = invert(and_of_set(invert_set(set as u8)));
        table[0][set] = 1 << and;
        table[1][set] = 1 << invert(and);
        table[2][set] = 1 << or;
        table[3][set] = 1 << invert(or);
        set += 1;
    }
    table
};

const fn join(or: usize, a: u8, b: u8) -> u8 {
    let set = 1 << a | 1 << b;
    match or {
        0 => and_of_set(set),
        _ => invert(and_of_set(invert_set(set))),
    }
}

const fn image(or: usize, p: u8, set: u8) -> u8 {
    let (mut image, mut class) = (0, 0);
    while class < 8 {
        if set >> class & 1 != 0 {
            image |= 1 << join(or, p, class);
        }
        class += 1;
    }
    image
}

/// Row of no waiting gate in [`IMAGE`]: each set is its own image, so that
/// check (c) finds one class only where check (b) did before.
pub const NO_WAITING: usize = 16;

/// Image of a set by row (8 for OR, plus p) and set.
pub static IMAGE: [[u8; 256]; 17] = {
    let mut table = [[0; 256]; 17];
    let mut row = 0;
    while row < 17 {
        let mut set = 0;
        while set < 256 {
            table[row][set] = match row {
                NO_WAITING => set as u8,
                _ => image(row / 8, row as u8 % 8, set as u8),
            };
            set += 1;
        }
        row += 1;
    }
    table
};

/// Join of two classes by row (8 for OR, plus p) and class.
pub static JOIN: [[u8; 8]; 16] = {
    let mut table = [[0; 8]; 16];
    let mut row = 0;
    while row < 16 {
        let mut class = 0;
        while class < 8 {
            table[row][class] = join(row / 8, row as u8 % 8, class as u8);
            class += 1;
        }
        row += 1;
    }
    table
};

const fn possible(flavour: usize, p: u8, left: bool) -> u8 {
    let set = match left {
        true => image(flavour / 2, p, 0xFF),
        false => 1 << p,
    };
    match flavour % 2 {
        0 => set,
        _ => invert_set(set),
    }
}

/// Possible set by flavour, pins left or not, and p.
pub static POSSIBLE: [[[u8; 8]; 2]; 4] = {
    let mut table = [[[0; 8]; 2]; 4];
    let mut flavour = 0;
    while flavour < 4 {
        let mut p = 0;
        while p < 8 {
            table[flavour][0][p] = possible(flavour, p as u8, false);
            table[flavour][1][p] = possible(flavour, p as u8, true);
            p += 1;
        }
        flavour += 1;
    }
    table
};

const fn wanted(flavour: usize, left_after: usize, p: u8, wanted: u8) -> u8 {
    let (mut set, mut class) = (0, 0);
    while class < 8 {
        let joined = join(flavour / 2, p, class);
        if POSSIBLE[flavour][left_after][joined as usize] & wanted != 0 {
            set |= 1 << class;
        }
        class += 1;
    }
    set
}

/// Wanted set of the gate behind a pin by the waiting gate's flavour, pins
/// left after this one or not, p and wanted set.
pub static WANTED: [[[[u8; 256]; 8]; 2]; 4] = {
    let mut table = [[[[0; 256]; 8]; 2]; 4];
    let mut at = 0;
    while at < 4 * 2 * 8 * 256 {
        let (flavour, left, p, set) = (at >> 12, at >> 11 & 1, at >> 8 & 7, at & 255);
        table[flavour][left][p][set] = wanted(flavour, left, p as u8, set as u8);
        at += 1;
    }
    table
};

/// Constants by flavour and the set of a gate's pins: bits 0 and 1 for the
/// constants, bit 2 for what is not constant. The result is such a bit too.
pub static CONSTANT: [[u8; 8]; 4] = {
    let mut table = [[4; 8]; 4];
    let mut flavour = 0;
    while flavour < 4 {
        let deciding = flavour / 2;
        let mut set = 1;
        while set < 8 {
            if set >> deciding & 1 != 0 {
                table[flavour][set] = 1 << (deciding ^ flavour & 1);
            } else if set == 1 << (1 - deciding) {
                table[flavour][set] = 1 << ((1 - deciding) ^ flavour & 1);
            }
            set += 1;
        }
        flavour += 1;
    }
    table
};
