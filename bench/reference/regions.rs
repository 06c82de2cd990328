//! Field units: fields of a region, loaded and stored by whole units; and single units.
use crate::bits::{number, ones};
use crate::{check_size, Refusal};

/// A field of a region: offset and length in bits.
#[derive(Clone, Copy)]
pub struct Field {
    pub space: u8,
    pub flags: u8,
    pub offset: u64,
    pub length: u64,
}

#[derive(Clone, Copy, PartialEq)]
enum UpdateRule {
    Preserve,
    WriteAsOnes,
    WriteAsZeros,
}

// ---- units: 1, 2, 4 or 8 whole bytes

#[inline]
pub fn load(region: &[u8], at: usize, bytes: usize) -> u64 {
    let rest = region.get(at..).unwrap_or(&[]);
    let unit = match bytes {
        1 => rest.first().map(|b| u64::from(*b)),
        2 => rest.first_chunk().map(|b| u64::from(u16::from_le_bytes(*b))),
        4 => rest.first_chunk().map(|b| u64::from(u32::from_le_bytes(*b))),
        8 => rest.first_chunk().map(|b| u64::from_le_bytes(*b)),
        _ => None,
    };
    unit.unwrap_or_else(|| number(&rest[..bytes.min(rest.len())]))
}

#[inline]
pub fn store(region: &mut [u8], at: usize, bytes: usize, value: u64) {
    let Some(rest) = region.get_mut(at..) else {
        return;
    };
    match (bytes, rest.len()) {
        (1, 1..) => rest[0] = value as u8,
        (2, 2..) => rest[..2].copy_from_slice(&(value as u16).to_le_bytes()),
        (4, 4..) => rest[..4].copy_from_slice(&(value as u32).to_le_bytes()),
        (8, 8..) => rest[..8].copy_from_slice(&value.to_le_bytes()),
        _ => {
            for (to, from) in rest.iter_mut().zip(value.to_le_bytes()).take(bytes) {
                *to = from;
            }
        }
    }
}

// ---- whole fields

#[inline]
fn access_width(flags: u8) -> Result<u64, Refusal> {
    match flags & 15 {
        0 | 1 | 5 => Ok(8),
        2 => Ok(16),
        3 => Ok(32),
        4 => Ok(64),
        _ => Err(Refusal::INVALID_FIELD_FLAGS),
    }
}

#[inline]
fn update_rule(flags: u8) -> Result<UpdateRule, Refusal> {
    match flags >> 5 & 3 {
        0 => Ok(UpdateRule::Preserve),
        1 => Ok(UpdateRule::WriteAsOnes),
        2 => Ok(UpdateRule::WriteAsZeros),
        _ => Err(Refusal::INVALID_FIELD_FLAGS),
    }
}

/// Answers the bit after the field. All widths are powers of two.
#[inline]
fn check_place(size: usize, space: u8, width: u64, offset: u64, length: u64) -> Result<u64, Refusal> {
    if space > 2 {
        return Err(Refusal::UNSUPPORTED_REGION_SPACE);
    }
    if width == 64 && space != 0 {
        return Err(Refusal::QWORD_ACCESS_IN_SPACE);
    }
    if length == 0 || length > 64 {
        return Err(Refusal::FIELD_UNIT_LENGTH);
    }
    let bits = 8 * size as u64;
    let end = offset.checked_add(length).ok_or(Refusal::FIELD_UNIT_OUTSIDE_REGION)?;
    if end > bits || (end + width - 1) & !(width - 1) > bits {
        return Err(Refusal::FIELD_UNIT_OUTSIDE_REGION);
    }
    Ok(end)
}

/// What the checks find of a field that is accepted: the width of a unit, the bit after the field, and how a write goes around it.
#[derive(Clone, Copy)]
pub struct Plan {
    width: u64,
    offset: u64,
    end: u64,
    rule: Option<UpdateRule>,
}

#[inline]
pub fn plan(field: Field, write: bool, size: usize) -> Result<Plan, Refusal> {
    let width = access_width(field.flags)?;
    let rule = if write { Some(update_rule(field.flags)?) } else { None };
    let end = check_place(size, field.space, width, field.offset, field.length)?;
    Ok(Plan { width, offset: field.offset, end, rule })
}

/// The value, and how many loads it took.
#[inline]
pub fn read_field(region: &[u8], field: Field) -> Result<(u64, u32), Refusal> {
    check_size(region)?;
    let Plan { width, offset, end, .. } = plan(field, false, region.len())?;
    let (mut value, mut count) = (0, 0);
    let mut at = offset & !(width - 1);
    while at < end {
        let unit = load(region, at as usize / 8, width as usize / 8);
        value |= if at < offset { unit >> (offset - at) } else { unit << (at - offset) };
        at += width;
        count += 1;
    }
    Ok((value & ones(field.length), count))
}

/// How many loads and stores it took.
#[inline]
pub fn write_field(region: &mut [u8], field: Field, value: u64) -> Result<u32, Refusal> {
    check_size(region)?;
    let plan = plan(field, true, region.len())?;
    let mut count = 0;
    let mut at = plan.offset & !(plan.width - 1);
    while at < plan.end {
        let mut held = 0;
        if plan.is_loaded_first(at) {
            held = plan.load(region, at);
            count += 1;
        }
        plan.store(region, at, held, value);
        at += plan.width;
        count += 1;
    }
    Ok(count)
}

impl Plan {
    /// The field's bits in the unit at bit at.
    #[inline]
    fn part(self, at: u64) -> (u64, u64) {
        (self.offset.max(at), self.end.min(at + self.width))
    }

    #[inline]
    fn is_loaded_first(self, at: u64) -> bool {
        let (low, high) = self.part(at);
        self.rule == Some(UpdateRule::Preserve) && high - low < self.width
    }

    #[inline]
    fn load(self, region: &[u8], at: u64) -> u64 {
        load(region, at as usize / 8, self.width as usize / 8)
    }

    #[inline]
    fn store(self, region: &mut [u8], at: u64, held: u64, value: u64) {
        let (low, high) = self.part(at);
        let mask = ones(high - low) << (low - at);
        let bits = (value >> (low - self.offset)) << (low - at);
        let unit = match self.rule {
            _ if high - low == self.width => bits,
            Some(UpdateRule::WriteAsOnes) => bits | !mask,
            Some(UpdateRule::WriteAsZeros) => bits & mask,
            _ => held & !mask | bits & mask,
        };
        store(region, at as usize / 8, self.width as usize / 8, unit);
    }

    /// How many loads and stores the operation makes.
    #[inline]
    pub fn count(self) -> u64 {
        let (first, last) = self.ends();
        let units = (last - first) / self.width + 1;
        let at_last = first != last && self.is_loaded_first(last);
        units + u64::from(self.is_loaded_first(first)) + u64::from(at_last)
    }

    /// The first bits of the first and the last unit.
    #[inline]
    fn ends(self) -> (u64, u64) {
        (self.offset & !(self.width - 1), (self.end - 1) & !(self.width - 1))
    }

    /// Makes access made of the operation on the region. Answers what is held after it.
    #[inline]
    pub fn access(self, region: &mut [u8], made: u64, held: u64, value: u64) -> u64 {
        let (first, last) = self.ends();
        if self.rule.is_none() {
            return self.gather(region, first + made * self.width, held);
        }
        let lead = u64::from(self.is_loaded_first(first));
        if made < lead {
            return self.load(region, first);
        }
        let at = first + (made - lead) * self.width;
        if at == last && first != last && self.is_loaded_first(last) {
            return self.load(region, last);
        }
        self.store(region, at.min(last), held, value);
        0
    }

    /// The unit's bits of the field above those held.
    #[inline]
    fn gather(self, region: &[u8], at: u64, held: u64) -> u64 {
        let (low, high) = self.part(at);
        let have = low - self.offset;
        let bits = self.load(region, at) >> (low - at) & ones(high - low);
        held & ones(have) | bits << have
    }
}
