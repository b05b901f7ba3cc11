//! Command lines, written.

use std::io::Write;

use crate::oracle::text::Line;
use crate::wire::ieee802154::{self, Address};
use crate::wire::sixlowpan::nhc::UdpNhcRepr;
use crate::wire::sixlowpan::{NextHeader, frag, iphc};

/// Where lines go.
pub struct Sink<'a> {
    out: &'a mut dyn Write,
    line: Vec<u8>,
}

impl<'a> Sink<'a> {
    pub fn new(out: &'a mut dyn Write) -> Self {
        Sink { out, line: Vec::new() }
    }

    fn start(&mut self, name: &str) -> &mut Vec<u8> {
        self.line.extend_from_slice(name.as_bytes());
        &mut self.line
    }

    fn end(&mut self) {
        self.line.push(b'\n');
        self.out.write_all(&self.line).expect("the lines can be written");
        self.line.clear();
    }

    /// A line as it stands.
    pub fn plain(&mut self, line: &str) {
        self.start(line);
        self.end();
    }

    /// A reader's line.
    pub fn read(&mut self, name: &str, bytes: &[u8]) {
        self.start(name).bytes(bytes);
        self.end();
    }

    pub fn iphc_read(&mut self, bytes: &[u8], src: Option<Address>, dst: Option<Address>, contexts: &[u8]) {
        let line = self.start("iphc.parse");
        line.bytes(bytes);
        line.link(src);
        line.link(dst);
        line.bytes(contexts);
        self.end();
    }

    pub fn addr_info(&mut self, addr: Address) {
        self.start("addr.info").link(Some(addr));
        self.end();
    }

    pub fn mac_write(&mut self, repr: &ieee802154::Repr, room: &str) {
        let line = self.start("mac.emit");
        line.bytes(&[repr.frame_type.0]);
        line.flag(repr.security_enabled);
        line.flag(repr.frame_pending);
        line.flag(repr.ack_request);
        line.maybe(repr.sequence_number.map(|n| [n]));
        line.flag(repr.pan_id_compression);
        line.bytes(&[repr.frame_version.0]);
        line.maybe(repr.dst_pan_id.map(|pan| pan.0.to_be_bytes()));
        line.link(repr.dst_addr);
        line.maybe(repr.src_pan_id.map(|pan| pan.0.to_be_bytes()));
        line.link(repr.src_addr);
        line.word(room);
        self.end();
    }

    /// KIND SIZE TAG OFFSET of `frag.emit` and `key`.
    fn fragment(&mut self, repr: &frag::Repr) {
        self.line.word(if repr.is_first_fragment() { "first" } else { "next" });
        self.line.bytes(&repr.size().to_be_bytes());
        self.line.bytes(&repr.tag().to_be_bytes());
        self.line.bytes(&[repr.offset()]);
    }

    pub fn frag_write(&mut self, repr: &frag::Repr, room: &str) {
        self.start("frag.emit");
        self.fragment(repr);
        self.line.word(room);
        self.end();
    }

    pub fn key(&mut self, src: Option<Address>, dst: Option<Address>, repr: &frag::Repr) {
        let line = self.start("key");
        line.link(src);
        line.link(dst);
        self.fragment(repr);
        self.end();
    }

    pub fn ext_write(&mut self, id: usize, next: NextHeader, length: u8, room: &str) {
        let line = self.start("ext.emit");
        line.decimal(id);
        line.next_header(next);
        line.bytes(&[length]);
        line.word(room);
        self.end();
    }

    pub fn udp_write(&mut self, repr: &UdpNhcRepr, room: &str) {
        let line = self.start("udp.emit");
        line.bytes(&repr.src_port.to_be_bytes());
        line.bytes(&repr.dst_port.to_be_bytes());
        line.maybe(repr.checksum.map(u16::to_be_bytes));
        line.word(room);
        self.end();
    }

    pub fn iphc_write(&mut self, repr: &iphc::Repr, room: &str) {
        let line = self.start("iphc.emit");
        line.bytes(&repr.src_addr.octets());
        line.bytes(&repr.dst_addr.octets());
        line.next_header(repr.next_header);
        line.bytes(&[repr.hop_limit]);
        line.maybe(repr.ecn.map(|n| [n]));
        line.maybe(repr.dscp.map(|n| [n]));
        line.maybe_label(repr.flow_label.map(u32::from));
        line.link(repr.ll_src_addr);
        line.link(repr.ll_dst_addr);
        line.word(room);
        self.end();
    }
}
