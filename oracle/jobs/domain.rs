//! Document 01's domain for differential runs: is a job inside it?
use crate::job::*;

/// The access width of flags, none for access 6 to 15.
pub fn width(flags: u8) -> Option<u64> {
    [8, 8, 16, 32, 64, 8].get((flags & 15) as usize).copied()
}

fn bits(bytes: &[u8], offset: u64, length: u64) -> u64 {
    let bit = |k: u64| (bytes[(k / 8) as usize] >> (k % 8) & 1) as u64;
    (0..length).fold(0, |x, k| x | bit(offset + k) << k)
}

/// What an operand is as an integer; none where that is refused. (Only to judge what fits and what overflows.)
pub fn integer(o: &Operand) -> Option<u64> {
    let size = o.n as u128 * 8;
    match o.kind {
        BOOLEAN => Some(if o.value == 0 { 0 } else { u64::MAX }),
        INTEGER => Some(o.value),
        BUFFER => Some(bits(&o.bytes(), 0, size.min(64) as u64)),
        BUFFER_FIELD if o.offset as u128 + o.length as u128 <= size => Some(bits(&o.bytes(), o.offset, o.length.min(64))),
        FIELD_UNIT if o.offset as u128 + o.length as u128 <= size && width(o.flags).is_some() && o.length <= 64 => {
            Some(bits(&o.bytes(), o.offset, o.length))
        }
        _ => None,
    }
}

/// "buffer fields of 0 to 32 bits, and over 64 at offsets divisible by 8, offset + length below 2^64"
fn buffer_field_inside(o: &Operand) -> bool {
    let length = o.length <= 32 || o.length > 64 && o.offset % 8 == 0;
    length && o.offset.checked_add(o.length).is_some()
}

/// "field units at offset 0 inside the region, lengths 8, 16, 32, 64, SystemMemory, access not wider than the length"; an access that has
/// no width is inside.
fn field_unit_inside(o: &Operand) -> bool {
    let whole = [8, 16, 32, 64].contains(&o.length) && o.length <= o.n as u64 * 8;
    o.offset == 0 && o.space == 0 && whole && width(o.flags).is_none_or(|access| access <= o.length)
}

/// "ASCII strings", "no .. 27"
pub fn operand_inside(o: &Operand) -> bool {
    let of_kind = match o.kind {
        STRING => o.bytes().is_ascii(),
        BUFFER_FIELD => buffer_field_inside(o),
        FIELD_UNIT => field_unit_inside(o),
        _ => true,
    };
    of_kind && o.n <= 65536
}

/// "a written value that fits", after its conversion; where 9 is given nothing is asked of it.
pub fn fits(job: &Job) -> bool {
    let field = &job.operands[0];
    let nine = width(field.flags).is_none() || field.flags >> 5 & 3 == 3;
    let value = match job.op {
        UNIT => Some(job.operands[1].value),
        WRITE_VALUE_SELF => integer(&Operand { n: field.n, seed: field.seed, head: field.head, ..job.operands[1] }),
        _ => integer(&job.operands[1]),
    };
    nine || value.is_none_or(|x| field.length >= 64 || x >> field.length == 0)
}

/// "in-bounds writes, except a Boolean into length 0"
pub fn write_inside(job: &Job) -> bool {
    let field = &job.operands[0];
    let boolean_in_nothing = job.operands[1].kind == BOOLEAN && field.length == 0;
    field.offset as u128 + field.length as u128 <= field.n as u128 * 8 && !boolean_in_nothing
}

/// "no repeated `0x` or plus sign"
pub fn text_inside(o: &Operand) -> bool {
    o.kind != STRING || !o.bytes().contains(&b'+') && !o.bytes().starts_with(b"0x0x")
}

/// "no Boolean on the left of Concat, or on the right of a string or named kind"
pub fn concat_inside(job: &Job) -> bool {
    let [left, right, _] = job.operands.map(|o| o.kind);
    left != BOOLEAN && (left == INTEGER || left == BUFFER || right != BOOLEAN)
}

/// "Mid, increment and decrement without overflow"
fn mid_inside(job: &Job) -> bool {
    let [_, index, length] = job.operands.map(|o| integer(&o));
    index.zip(length).is_none_or(|(index, length)| index.checked_add(length).is_some())
}

/// A value whose bytes are the region is judged with the region's bytes.
fn self_inside(job: &Job) -> bool {
    let field = &job.operands[0];
    operand_inside(field) && operand_inside(&Operand { n: field.n, seed: field.seed, head: field.head, ..job.operands[1] }) && fits(job)
}

/// Is the job inside? ("no operand that is the same buffer twice": only SELF has one. 20 is seen at the answer.)
pub fn inside(job: &Job) -> bool {
    if job.op == WRITE_VALUE_SELF {
        return self_inside(job);
    }
    let used = if job.op == UNIT || job.op == BUILD { 1 } else { operands_of(job.op) };
    let operands = job.operands[..used].iter().all(operand_inside) && job.operands.iter().all(|o| o.n <= 65536);
    operands
        && match job.op {
            FLAGS => true,
            UNIT => job.write == 0 || fits(job),
            WRITE_VALUE => fits(job),
            WRITE => write_inside(job),
            SELF => false,
            AS_TYPE => job.made != 5,
            TO_INTEGER => text_inside(&job.operands[0]),
            INCREMENT => integer(&job.operands[0]) != Some(u64::MAX),
            DECREMENT => integer(&job.operands[0]) != Some(0),
            MID => mid_inside(job),
            CONCAT => concat_inside(job),
            _ => true,
        }
}
