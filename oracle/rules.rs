//! The refusal numbers of document 01 (01-scope.md), written from its words and not from the Rust's text.
//!
//! "Readers refuse at the first step that fails in the Rust's reading order." A reader here is that order as a list of steps, over the
//! number of bytes that are left. It answers the number of bytes consumed or the refusal. Only the MAC reader also gives the values, since
//! 01 decides against the Rust in two cases, and change request 9 of document 02 in a third, for the MAC writer too.

use crate::wire::ieee802154::{Address, Pan, Repr};

/// "the bytes end before a needed field"
pub const SHORT: u8 = 1;
/// "the leading bits aren't this header's"
pub const LEADING: u8 = 2;
/// "reserved or unsupported mode or version"
pub const RESERVED: u8 = 3;
/// "a length not allowed: frame over 127, address bytes not 2 or 8"
pub const LENGTH: u8 = 4;
/// "the context isn't in the list"
pub const CONTEXT: u8 = 5;
/// "a needed link-layer address is absent"
pub const NO_LINK: u8 = 6;
/// "lent room too small"
pub const ROOM: u8 = 7;

/// The place of a reader in its bytes.
struct Place<'a> {
    bytes: &'a [u8],
    at: usize,
}

impl<'a> Place<'a> {
    fn take(&mut self, n: usize) -> Result<&'a [u8], u8> {
        let field = self.bytes.get(self.at..self.at + n).ok_or(SHORT)?;
        self.at += n;
        Ok(field)
    }
}

/// "Writers refuse only 7, exactly when room is below their length".
pub fn writer(len: usize, room: usize) -> Result<(), u8> {
    if room < len { Err(ROOM) } else { Ok(()) }
}

/// "address bytes not 2 or 8".
pub fn address(bytes: usize) -> Result<(), u8> {
    if bytes == 2 || bytes == 8 { Ok(()) } else { Err(LENGTH) }
}

/// "`Key` refuses (6) `None`, where the Rust panics, and takes `Some(Absent)`."
pub fn key(src: Option<Address>, dst: Option<Address>) -> Result<(), u8> {
    if src.is_none() || dst.is_none() { Err(NO_LINK) } else { Ok(()) }
}

// ---- MAC

/// Where 01 or 02 decides against the Rust: two cases of its `addr_present_flags`, the flow label, and sequence numbers left out.
#[derive(Clone, Copy, PartialEq, Eq)]
pub enum Listed {
    /// Versions 0 and 1, both addresses absent, no compression: the Rust reads a source PAN. "a present address brings its PAN".
    BothAbsent,
    /// Version 2, source only, compressed: the Rust reads a source PAN. "src only,1: none".
    SourceOnly,
    /// TF=00 and TF=01: the Rust keeps the low 16 bits of the flow label. 02, item 1: "RFC 6282 gives 20 bits".
    Label,
    /// Version 2, bit 8, a Beacon, Data, Acknowledgement or MAC command frame: "no sequence byte". The Rust reads one.
    Suppressed,
    /// Such a record without a number: "Emit sets the bit and omits the byte". The Rust writes 0.
    Omitted,
}

/// A frame control field, by the bits of IEEE 802.15.4.
pub struct Control(pub u16);

/// Which fields follow the sequence number: destination PAN, destination mode, source PAN, source mode.
pub type Layout = (bool, u8, bool, u8);

impl Control {
    fn bit(&self, n: u16) -> bool {
        self.0 >> n & 1 == 1
    }

    pub fn frame_type(&self) -> u8 {
        (self.0 & 7) as u8
    }

    pub fn security(&self) -> bool {
        self.bit(3)
    }

    pub fn compression(&self) -> bool {
        self.bit(6)
    }

    pub fn version(&self) -> u8 {
        (self.0 >> 12 & 3) as u8
    }

    pub fn dst(&self) -> u8 {
        (self.0 >> 10 & 3) as u8
    }

    pub fn src(&self) -> u8 {
        (self.0 >> 14 & 3) as u8
    }

    /// "version 3, a mode of 01, or versions 0 and 1 with PAN compression and both addresses absent: 3."
    pub fn supported(&self) -> Result<(), u8> {
        let old_absent = self.version() < 2 && self.compression() && self.dst() == 0 && self.src() == 0;
        if self.version() == 3 || self.dst() == 1 || self.src() == 1 || old_absent { Err(RESERVED) } else { Ok(()) }
    }

    /// "version 2 frames with bit 8 set and no sequence byte [..] For such Beacon, Data, Acknowledgement and MacCommand frames read none."
    pub fn suppressed(&self) -> bool {
        self.version() == 2 && self.bit(8) && self.frame_type() < 4
    }

    /// Where the addressing fields begin.
    pub fn fields_at(&self) -> usize {
        if self.suppressed() { 2 } else { 3 }
    }

    /// Beacon, Data, MAC command and Multipurpose have addressing, Acknowledgement from version 2 on.
    pub fn has_addressing(&self) -> bool {
        matches!(self.frame_type(), 0 | 1 | 3 | 5) || (self.frame_type() == 2 && self.version() == 2)
    }

    /// The PANs that are carried: 01's rule for versions 0 and 1, its table for version 2.
    pub fn layout(&self) -> Layout {
        let (dst, src) = (self.dst(), self.src());
        let (dst_pan, src_pan) = if self.version() < 2 {
            // "a present address brings its PAN, except that the source PAN is left out when both addresses are present and
            // compression is set"
            (dst != 0, src != 0 && !(dst != 0 && self.compression()))
        } else {
            match (dst, src, self.compression()) {
                (0, 0, false) => (false, false),
                (0, 0, true) => (true, false),
                (_, 0, compression) => (!compression, false),
                (0, _, compression) => (false, !compression),
                (3, 3, compression) => (!compression, false),
                (_, _, compression) => (true, !compression),
            }
        };
        (dst_pan, dst, src_pan, src)
    }

    /// Whether this is one of the listed differences.
    pub fn listed(&self) -> Option<Listed> {
        if self.supported().is_err() || !self.has_addressing() {
            return None;
        }
        if self.suppressed() {
            return Some(Listed::Suppressed);
        }
        match (self.version(), self.dst(), self.src(), self.compression()) {
            (0 | 1, 0, 0, false) => Some(Listed::BothAbsent),
            (2, 0, 2 | 3, true) => Some(Listed::SourceOnly),
            _ => None,
        }
    }
}

/// The frame control of a frame that is long enough to have one and a sequence number, and not too long.
pub fn control(frame: &[u8]) -> Result<Control, u8> {
    // "Below 3 bytes: 1. Above 127: 4."
    match frame.len() {
        0..3 => Err(SHORT),
        3..=127 => Ok(Control(u16::from_le_bytes([frame[0], frame[1]]))),
        _ => Err(LENGTH),
    }
}

fn pan(place: &mut Place, carried: bool) -> Result<Option<Pan>, u8> {
    if !carried {
        return Ok(None);
    }
    let b = place.take(2)?;
    Ok(Some(Pan(u16::from_le_bytes([b[0], b[1]]))))
}

/// On the air the low byte comes first.
fn mac_address(place: &mut Place, mode: u8) -> Result<Address, u8> {
    match mode {
        0 => Ok(Address::Absent),
        2 => {
            let b = place.take(2)?;
            Ok(Address::Short([b[1], b[0]]))
        }
        _ => {
            let b = place.take(8)?;
            Ok(Address::Extended(std::array::from_fn(|i| b[7 - i])))
        }
    }
}

/// How many bytes a security control byte brings: itself, 4 of frame counter unless bit 5 says it is left out, and the key identifier.
pub fn security_len(control: u8) -> usize {
    let counter = if control & 0x20 == 0 { 4 } else { 0 };
    1 + counter + [0, 1, 5, 9][(control >> 3 & 3) as usize]
}

/// The MAC header that 01 reads, in the Rust's type, and its length.
pub fn mac(frame: &[u8]) -> Result<(Repr, usize), u8> {
    let control = control(frame)?;
    control.supported()?;
    let mut place = Place { bytes: frame, at: control.fields_at() };
    let mut repr = Repr {
        frame_type: control.frame_type().into(),
        security_enabled: control.security(),
        frame_pending: control.bit(4),
        ack_request: control.bit(5),
        sequence_number: (!control.suppressed() && matches!(control.frame_type(), 0..=3 | 5)).then_some(frame[2]),
        pan_id_compression: control.compression(),
        frame_version: control.version().into(),
        dst_pan_id: None,
        dst_addr: None,
        src_pan_id: None,
        src_addr: None,
    };
    // "An absent address read this way is `Some(Absent)`; `None` only where the frame type has no addressing."
    if control.has_addressing() {
        let (dst_pan, dst, src_pan, src) = control.layout();
        repr.dst_pan_id = pan(&mut place, dst_pan)?;
        repr.dst_addr = Some(mac_address(&mut place, dst)?);
        repr.src_pan_id = pan(&mut place, src_pan)?;
        repr.src_addr = Some(mac_address(&mut place, src)?);
    }
    if control.security() {
        let first = *frame.get(place.at).ok_or(SHORT)?;
        place.take(security_len(first))?;
    }
    Ok((repr, place.at))
}

/// "Emit sets the bit and omits the byte for those types in version 2 when the record has none", by the record's own numbers.
pub fn omits(repr: &Repr) -> bool {
    repr.sequence_number.is_none() && repr.frame_version.0 == 2 && repr.frame_type.0 < 4
}

/// "its length falls by one", and all else is the Rust's.
pub fn omitted(repr: &Repr) -> Vec<u8> {
    let mut bytes = vec![0; repr.buffer_len()];
    repr.emit(&mut bytes);
    bytes[1] |= 1;
    bytes.remove(2);
    bytes
}

// ---- 6LoWPAN

/// Dispatch: a fragment (11000 or 11100) or IPHC (011).
pub fn dispatch(payload: &[u8]) -> Result<(), u8> {
    let first = *payload.first().ok_or(SHORT)?;
    if matches!(first >> 3, 0b11000 | 0b11100) || first >> 5 == 0b011 { Ok(()) } else { Err(LEADING) }
}

/// "11000 or 11100, 11 bits of size, 16 of tag, then an offset". The Rust wants four bytes before it looks at the bits.
pub fn fragment(bytes: &[u8]) -> Result<usize, u8> {
    if bytes.len() < 4 {
        return Err(SHORT);
    }
    match bytes[0] >> 3 {
        0b11000 => Ok(4),
        0b11100 if bytes.len() < 5 => Err(SHORT),
        0b11100 => Ok(5),
        _ => Err(LEADING),
    }
}

/// NHC dispatch: an extension header (1110) or UDP (11110).
pub fn nhc(bytes: &[u8]) -> Result<(), u8> {
    let first = *bytes.first().ok_or(SHORT)?;
    if first >> 4 == 0b1110 || first >> 3 == 0b11110 { Ok(()) } else { Err(LEADING) }
}

/// RFC 6282 4.2: 1110 EID NH, the next header unless NH, the length.
pub fn extension(bytes: &[u8]) -> Result<usize, u8> {
    let first = *bytes.first().ok_or(SHORT)?;
    if first >> 4 != 0b1110 {
        return Err(LEADING);
    }
    let len = if first & 1 == 1 { 2 } else { 3 };
    if bytes.len() < len { Err(SHORT) } else { Ok(len) }
}

/// RFC 6282 4.3.3: 11110 C P, the ports that P leaves inline, the checksum unless C.
pub fn udp(bytes: &[u8]) -> Result<usize, u8> {
    let first = *bytes.first().ok_or(SHORT)?;
    if first >> 3 != 0b11110 {
        return Err(LEADING);
    }
    let ports = [4, 3, 3, 1][(first & 3) as usize];
    let checksum = if first & 4 == 0 { 2 } else { 0 };
    let len = 1 + ports + checksum;
    if bytes.len() < len { Err(SHORT) } else { Ok(len) }
}

/// The context step: "the context isn't in the list".
fn context(index: u8, contexts: usize) -> Result<(), u8> {
    if usize::from(index) < contexts { Ok(()) } else { Err(CONTEXT) }
}

/// "an elided address with a context needs the link-layer address first (6), then the context (5); an inline one needs its bytes first
/// (1), then 5." `inline` holds the bytes carried for each mode, the last mode's being elided.
fn unicast(place: &mut Place, mode: u8, link: Option<Address>, with: Option<u8>, contexts: usize) -> Result<(), u8> {
    let inline = [16, 8, 2, 0][mode as usize];
    place.take(inline)?;
    if inline == 0 && matches!(link, None | Some(Address::Absent)) {
        return Err(NO_LINK);
    }
    with.map_or(Ok(()), |index| context(index, contexts))
}

/// RFC 6282 3.2.1: the flow label's 20 bits, where TF is 00 or 01 and they are there. TF=00: ECN 2, DSCP 6, padding 4, label 20 bits;
/// TF=01: ECN 2, padding 2, label 20. "padding bits stay ignored".
pub fn label(bytes: &[u8]) -> Option<u32> {
    let mut place = Place { bytes, at: 0 };
    let base = place.take(2).ok()?;
    let (tf, cid) = (base[0] >> 3 & 3, base[1] >> 7);
    place.take(usize::from(cid)).ok()?;
    let inline = match tf {
        0b00 => place.take(4).ok()?,
        0b01 => place.take(3).ok()?,
        _ => return None,
    };
    Some(inline.iter().fold(0, |label: u32, b| label << 8 | u32::from(*b)) & 0xf_ffff)
}

/// RFC 6282 3.1.1 and 3.2, in the order of 3.1: the word, the context identifiers, traffic class and flow label, next header, hop limit,
/// source, destination.
pub fn iphc(bytes: &[u8], src: Option<Address>, dst: Option<Address>, contexts: usize) -> Result<usize, u8> {
    let mut place = Place { bytes, at: 0 };
    let base = place.take(2)?;
    if base[0] >> 5 != 0b011 {
        return Err(LEADING);
    }
    let (tf, nh, hlim) = (base[0] >> 3 & 3, base[0] >> 2 & 1, base[0] & 3);
    let (cid, sac, sam) = (base[1] >> 7, base[1] >> 6 & 1, base[1] >> 4 & 3);
    let (m, dac, dam) = (base[1] >> 3 & 1, base[1] >> 2 & 1, base[1] & 3);

    let ids = if cid == 1 { place.take(1)?[0] } else { 0 };
    place.take([4, 3, 1, 0][tf as usize])?;
    place.take(if nh == 1 { 0 } else { 1 })?;
    place.take(if hlim == 0 { 1 } else { 0 })?;
    // SAC=1 with SAM=00 is the unspecified address: nothing is needed for it.
    if (sac, sam) != (1, 0) {
        unicast(&mut place, sam, src, (sac == 1).then_some(ids >> 4), contexts)?;
    }
    match (m, dac, dam) {
        // "M=1 with DAC=1 is refused (3), as the Rust does"; M=0, DAC=1, DAM=00 is reserved by RFC 6282.
        (1, 1, _) | (0, 1, 0) => return Err(RESERVED),
        (1, _, _) => place.take([16, 6, 4, 1][dam as usize]).map(|_| ())?,
        _ => unicast(&mut place, dam, dst, (dac == 1).then_some(ids & 15), contexts)?,
    }
    Ok(place.at)
}
