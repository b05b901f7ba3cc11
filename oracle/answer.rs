//! The Rust's answers to command lines, with document 01's refusal numbers.
//!
//! The Rust says `Malformed` for every refusal of a reader; the number then comes from rules.rs. Where it panics, the panic is caught, and
//! rules.rs says whether that is a place where 01 refuses. An answer with `?` or `panic` in it says that the Rust and rules.rs disagree.

use std::io::{self, BufRead, BufReader, BufWriter, Write};
use std::panic::{self, AssertUnwindSafe};

use crate::error::Malformed;
use crate::oracle::rules;
use crate::oracle::text::{Fields, Line};
use crate::wire::ieee802154::{self, Address, Pan};
use crate::wire::ip::Protocol;
use crate::wire::ipv6;
use crate::wire::sixlowpan::nhc::{ExtHeaderId, ExtHeaderRepr, NhcPacket, UdpNhcRepr};
use crate::wire::sixlowpan::{AddressContext, SixlowpanPacket, frag, iphc};

/// What a room holds before a writer is called.
const FILL: u8 = 0xa5;

/// The answer of a call, `None` where it panicked.
fn call<T>(f: impl FnOnce() -> T) -> Option<T> {
    panic::catch_unwind(AssertUnwindSafe(f)).ok()
}

/// Panics are caught and counted as answers: they print nothing.
pub fn silence_panics() {
    panic::set_hook(Box::new(|_| {}));
}

/// Answers command lines. It keeps its buffers from one line to the next.
#[derive(Default)]
pub struct Answerer {
    /// Whether the listed differences are answered as 01 and 02 want.
    as_01: bool,
    input: Vec<u8>,
    flat: Vec<u8>,
    contexts: Vec<AddressContext>,
    room: Vec<u8>,
}

impl Answerer {
    pub fn new(as_01: bool) -> Self {
        Answerer { as_01, ..Self::default() }
    }

    /// Adds the answer to `line` (without its end) to `out`.
    pub fn answer(&mut self, line: &[u8], out: &mut Vec<u8>) {
        if line.first() == Some(&b'#') {
            out.extend_from_slice(line);
            return;
        }
        let start = out.len();
        if self.command(line, out).is_none() {
            out.truncate(start);
            out.extend_from_slice(b"bad");
        }
    }

    fn command(&mut self, line: &[u8], out: &mut Vec<u8>) -> Option<()> {
        let mut f = Fields::of(line);
        match f.next()? {
            b"mac.parse" => self.mac_parse(&mut f, out),
            b"mac.emit" => self.mac_emit(&mut f, out),
            b"addr.from" => self.addr_from(&mut f, out),
            b"addr.info" => addr_info(&mut f, out),
            b"dispatch" => self.dispatch(&mut f, out),
            b"frag.parse" => self.frag_parse(&mut f, out),
            b"frag.emit" => self.frag_emit(&mut f, out),
            b"key" => key(&mut f, out),
            b"nhc.dispatch" => self.nhc_dispatch(&mut f, out),
            b"ext.parse" => self.ext_parse(&mut f, out),
            b"ext.emit" => self.ext_emit(&mut f, out),
            b"udp.parse" => self.udp_parse(&mut f, out),
            b"udp.emit" => self.udp_emit(&mut f, out),
            b"iphc.parse" => self.iphc_parse(&mut f, out),
            b"iphc.emit" => self.iphc_emit(&mut f, out),
            _ => None,
        }
    }

    /// The one field of a reader.
    fn only_bytes(&mut self, f: &mut Fields) -> Option<()> {
        f.bytes_into(&mut self.input)?;
        f.end()
    }

    fn mac_parse(&mut self, f: &mut Fields, out: &mut Vec<u8>) -> Option<()> {
        self.only_bytes(f)?;
        let listed = listed(&self.input).is_some();
        let rule = rules::mac(&self.input);
        if self.as_01 && listed {
            mac_01(rule, out);
            return Some(());
        }
        let rust = call(|| ieee802154::Repr::parse(&self.input));
        // Outside the listed cases the values are those of 01 too.
        if let (Some(Ok(a)), Ok(b)) = (&rust, &rule)
            && a != b
            && !listed
        {
            out.extend_from_slice(b"ok ?");
            return Some(());
        }
        reader(rust, rule.map(|_| ()), out, show_mac);
        Some(())
    }

    fn mac_emit(&mut self, f: &mut Fields, out: &mut Vec<u8>) -> Option<()> {
        let repr = ieee802154::Repr {
            frame_type: f.byte()?.into(),
            security_enabled: f.flag()?,
            frame_pending: f.flag()?,
            ack_request: f.flag()?,
            sequence_number: f.maybe_byte()?,
            pan_id_compression: f.flag()?,
            frame_version: f.byte()?.into(),
            dst_pan_id: f.maybe_word()?.map(Pan),
            dst_addr: f.link()?,
            src_pan_id: f.maybe_word()?.map(Pan),
            src_addr: f.link()?,
        };
        if self.as_01 && rules::omits(&repr) {
            let bytes = rules::omitted(&repr);
            return self.writer(f, out, bytes.len(), |room| room[..bytes.len()].copy_from_slice(&bytes));
        }
        self.writer(f, out, repr.buffer_len(), |room| repr.emit(room))
    }

    fn addr_from(&mut self, f: &mut Fields, out: &mut Vec<u8>) -> Option<()> {
        self.only_bytes(f)?;
        let rust = call(|| Address::from_bytes(&self.input));
        panicking(rust, rules::address(self.input.len()), out, |addr, out| out.link(Some(addr)));
        Some(())
    }

    fn dispatch(&mut self, f: &mut Fields, out: &mut Vec<u8>) -> Option<()> {
        self.only_bytes(f)?;
        let rust = call(|| SixlowpanPacket::dispatch(&self.input));
        reader(rust, rules::dispatch(&self.input), out, |kind, out| {
            out.word(match kind {
                SixlowpanPacket::FragmentHeader => "frag",
                SixlowpanPacket::IphcHeader => "iphc",
            })
        });
        Some(())
    }

    fn frag_parse(&mut self, f: &mut Fields, out: &mut Vec<u8>) -> Option<()> {
        self.only_bytes(f)?;
        let rust = call(|| frag::Repr::parse(&self.input).map(|repr| (repr, repr.buffer_len())));
        measured(rust, rules::fragment(&self.input), out, |repr, out| {
            out.word(if repr.is_first_fragment() { "first" } else { "next" });
            out.bytes(&repr.size().to_be_bytes());
            out.bytes(&repr.tag().to_be_bytes());
            out.bytes(&[repr.offset()]);
        });
        Some(())
    }

    fn frag_emit(&mut self, f: &mut Fields, out: &mut Vec<u8>) -> Option<()> {
        let repr = fragment(f)?;
        self.writer(f, out, repr.buffer_len(), |room| repr.emit(room))
    }

    fn nhc_dispatch(&mut self, f: &mut Fields, out: &mut Vec<u8>) -> Option<()> {
        self.only_bytes(f)?;
        let rust = call(|| NhcPacket::dispatch(&self.input));
        reader(rust, rules::nhc(&self.input), out, |kind, out| {
            out.word(match kind {
                NhcPacket::ExtHeader => "ext",
                NhcPacket::UdpHeader => "udp",
            })
        });
        Some(())
    }

    fn ext_parse(&mut self, f: &mut Fields, out: &mut Vec<u8>) -> Option<()> {
        self.only_bytes(f)?;
        let rust = call(|| ExtHeaderRepr::parse(&self.input));
        measured(rust, rules::extension(&self.input), out, |repr, out| {
            out.decimal(ext_number(repr.ext_header_id));
            out.next_header(repr.next_header);
            out.bytes(&[repr.length]);
            out.bytes(&[Protocol::from(repr.ext_header_id).0]);
        });
        Some(())
    }

    fn ext_emit(&mut self, f: &mut Fields, out: &mut Vec<u8>) -> Option<()> {
        let repr = ExtHeaderRepr { ext_header_id: ext_id(f.next()?)?, next_header: f.next_header()?, length: f.byte()? };
        self.writer(f, out, repr.buffer_len(), |room| repr.emit(room))
    }

    fn udp_parse(&mut self, f: &mut Fields, out: &mut Vec<u8>) -> Option<()> {
        self.only_bytes(f)?;
        let rust = call(|| UdpNhcRepr::parse(&self.input));
        measured(rust, rules::udp(&self.input), out, |repr, out| {
            out.bytes(&repr.src_port.to_be_bytes());
            out.bytes(&repr.dst_port.to_be_bytes());
            out.maybe(repr.checksum.map(u16::to_be_bytes));
        });
        Some(())
    }

    fn udp_emit(&mut self, f: &mut Fields, out: &mut Vec<u8>) -> Option<()> {
        let repr = UdpNhcRepr { src_port: f.word()?, dst_port: f.word()?, checksum: f.maybe_word()? };
        self.writer(f, out, repr.buffer_len(), |room| repr.emit(room))
    }

    fn iphc_parse(&mut self, f: &mut Fields, out: &mut Vec<u8>) -> Option<()> {
        f.bytes_into(&mut self.input)?;
        let (src, dst) = (f.link()?, f.link()?);
        f.bytes_into(&mut self.flat)?;
        f.end()?;
        // "as flat bytes, 8 each, a shorter rest ignored"
        self.contexts.clear();
        self.contexts.extend(self.flat.chunks_exact(8).map(|c| AddressContext(c.try_into().unwrap())));
        let rust = call(|| iphc::Repr::parse(&self.input, src, dst, &self.contexts));
        let rule = rules::iphc(&self.input, src, dst, self.contexts.len());
        let whole = rules::label(&self.input);
        let as_01 = self.as_01;
        measured(rust, rule, out, |repr, out| {
            let label = repr.flow_label.map(u32::from);
            // What the Rust keeps of a label is its low 16 bits.
            if label != whole.map(|l| l & 0xffff) {
                out.extend_from_slice(b" ?");
            }
            show_iphc(repr, if as_01 { whole } else { label }, out);
        });
        Some(())
    }

    fn iphc_emit(&mut self, f: &mut Fields, out: &mut Vec<u8>) -> Option<()> {
        let src_addr = ipv6::Address::from_octets(f.ipv6()?);
        let dst_addr = ipv6::Address::from_octets(f.ipv6()?);
        let repr = iphc::Repr {
            src_addr,
            dst_addr,
            next_header: f.next_header()?,
            hop_limit: f.byte()?,
            ecn: f.maybe_byte()?,
            dscp: f.maybe_byte()?,
            flow_label: f.maybe_label()?,
            ll_src_addr: f.link()?,
            ll_dst_addr: f.link()?,
        };
        self.writer(f, out, repr.buffer_len(), |room| repr.emit(room))
    }

    /// A writer's answer: the whole room afterwards, or 7 where the Rust panicked.
    fn writer(&mut self, f: &mut Fields, out: &mut Vec<u8>, len: usize, emit: impl FnOnce(&mut [u8])) -> Option<()> {
        let room = f.room(len)?;
        f.end()?;
        self.room.clear();
        self.room.resize(room, FILL);
        let rust = call(|| emit(&mut self.room));
        panicking(rust, rules::writer(len, room), out, |(), out| {
            out.decimal(len);
            out.bytes(&self.room);
        });
        Some(())
    }
}

/// Which listed difference a frame is, by its own frame control.
pub fn listed(frame: &[u8]) -> Option<rules::Listed> {
    rules::control(frame).ok()?.listed()
}

/// What 01 wants for a frame.
pub fn mac_01(rule: Result<(ieee802154::Repr, usize), u8>, out: &mut Vec<u8>) {
    reader(Some(rule.map_err(|_| Malformed)), rule.map(|_| ()), out, show_mac);
}

/// A reader's answer: the Rust's value, or the number that 01 gives for its refusal.
fn reader<T>(rust: Option<Result<T, Malformed>>, rule: Result<(), u8>, out: &mut Vec<u8>, show: impl FnOnce(T, &mut Vec<u8>)) {
    match (rust, rule) {
        (None, _) => out.extend_from_slice(b"panic"),
        (Some(Ok(value)), Ok(())) => {
            out.extend_from_slice(b"ok");
            show(value, out);
        }
        (Some(Err(Malformed)), Err(n)) => refused(n, out),
        (Some(Ok(_)), Err(_)) => out.extend_from_slice(b"ok ?"),
        (Some(Err(Malformed)), Ok(())) => out.extend_from_slice(b"no ?"),
    }
}

/// As `reader`, for one that also says how many bytes it consumed: the number is that of the rules too.
fn measured<T>(
    rust: Option<Result<(T, usize), Malformed>>,
    rule: Result<usize, u8>,
    out: &mut Vec<u8>,
    show: impl FnOnce(T, &mut Vec<u8>),
) {
    if let (Some(Ok((_, len))), Ok(n)) = (&rust, rule)
        && *len != n
    {
        out.extend_from_slice(b"ok ?");
        return;
    }
    reader(rust, rule.map(|_| ()), out, |(value, len), out| {
        out.decimal(len);
        show(value, out);
    });
}

/// The answer of a call that panics where 01 refuses.
fn panicking<T>(rust: Option<T>, rule: Result<(), u8>, out: &mut Vec<u8>, show: impl FnOnce(T, &mut Vec<u8>)) {
    match rust {
        Some(value) => reader(Some(Ok(value)), rule, out, show),
        None => reader(Some(Err(Malformed)), rule, out, show),
    }
}

fn refused(n: u8, out: &mut Vec<u8>) {
    out.extend_from_slice(b"no");
    out.decimal(n.into());
}

fn show_mac((repr, len): (ieee802154::Repr, usize), out: &mut Vec<u8>) {
    out.decimal(len);
    out.bytes(&[repr.frame_type.0]);
    out.flag(repr.security_enabled);
    out.flag(repr.frame_pending);
    out.flag(repr.ack_request);
    out.maybe(repr.sequence_number.map(|n| [n]));
    out.flag(repr.pan_id_compression);
    out.bytes(&[repr.frame_version.0]);
    out.maybe(repr.dst_pan_id.map(|pan| pan.0.to_be_bytes()));
    out.link(repr.dst_addr);
    out.maybe(repr.src_pan_id.map(|pan| pan.0.to_be_bytes()));
    out.link(repr.src_addr);
}

fn show_iphc(repr: iphc::Repr, label: Option<u32>, out: &mut Vec<u8>) {
    out.bytes(&repr.src_addr.octets());
    out.bytes(&repr.dst_addr.octets());
    out.next_header(repr.next_header);
    out.bytes(&[repr.hop_limit]);
    out.maybe(repr.ecn.map(|n| [n]));
    out.maybe(repr.dscp.map(|n| [n]));
    out.maybe_label(label);
    out.link(repr.ll_src_addr);
    out.link(repr.ll_dst_addr);
}

fn addr_info(f: &mut Fields, out: &mut Vec<u8>) -> Option<()> {
    let addr = f.link()??;
    f.end()?;
    out.extend_from_slice(b"ok");
    out.flag(addr.is_broadcast());
    out.flag(addr.is_unicast());
    out.bytes(addr.as_bytes());
    out.maybe(addr.as_eui_64());
    out.maybe(addr.as_link_local_address().map(|a| a.octets()));
    Some(())
}

/// KIND SIZE TAG OFFSET; a first part has no offset, and the field is passed over.
fn fragment(f: &mut Fields) -> Option<frag::Repr> {
    let kind = f.next()?;
    let (size, tag, offset) = (f.word()?, f.word()?, f.byte()?);
    match kind {
        b"first" => Some(frag::Repr::FirstFragment { size, tag }),
        b"next" => Some(frag::Repr::Fragment { size, tag, offset }),
        _ => None,
    }
}

fn key(f: &mut Fields, out: &mut Vec<u8>) -> Option<()> {
    let (src_addr, dst_addr) = (f.link()?, f.link()?);
    let part = fragment(f)?;
    f.end()?;
    let header = ieee802154::Repr {
        frame_type: ieee802154::FrameType::Data,
        security_enabled: false,
        frame_pending: false,
        ack_request: false,
        sequence_number: None,
        pan_id_compression: true,
        frame_version: ieee802154::FrameVersion::Ieee802154_2006,
        dst_pan_id: None,
        dst_addr,
        src_pan_id: None,
        src_addr,
    };
    panicking(call(|| part.key(&header)), rules::key(src_addr, dst_addr), out, |key, out| {
        out.link(Some(key.ll_src_addr));
        out.link(Some(key.ll_dst_addr));
        out.bytes(&key.datagram_size.to_be_bytes());
        out.bytes(&key.datagram_tag.to_be_bytes());
    });
    Some(())
}

/// The EID that an identifier is written as; 5 stands for both reserved ones.
pub fn ext_number(id: ExtHeaderId) -> usize {
    match id {
        ExtHeaderId::HopByHopHeader => 0,
        ExtHeaderId::RoutingHeader => 1,
        ExtHeaderId::FragmentHeader => 2,
        ExtHeaderId::DestinationOptionsHeader => 3,
        ExtHeaderId::MobilityHeader => 4,
        ExtHeaderId::Reserved => 5,
        ExtHeaderId::Header => 7,
    }
}

fn ext_id(text: &[u8]) -> Option<ExtHeaderId> {
    match text {
        b"0" => Some(ExtHeaderId::HopByHopHeader),
        b"1" => Some(ExtHeaderId::RoutingHeader),
        b"2" => Some(ExtHeaderId::FragmentHeader),
        b"3" => Some(ExtHeaderId::DestinationOptionsHeader),
        b"4" => Some(ExtHeaderId::MobilityHeader),
        b"5" => Some(ExtHeaderId::Reserved),
        b"7" => Some(ExtHeaderId::Header),
        _ => None,
    }
}

/// Answers standard input, line by line, on standard output.
pub fn run(as_01: bool) -> io::Result<()> {
    silence_panics();
    let mut input = BufReader::with_capacity(1 << 16, io::stdin().lock());
    let mut output = BufWriter::with_capacity(1 << 16, io::stdout().lock());
    let mut answerer = Answerer::new(as_01);
    let (mut line, mut out) = (Vec::new(), Vec::new());
    while input.read_until(b'\n', &mut line)? > 0 {
        if line.last() == Some(&b'\n') {
            line.pop();
        }
        answerer.answer(&line, &mut out);
        out.push(b'\n');
        output.write_all(&out)?;
        line.clear();
        out.clear();
    }
    output.flush()
}
