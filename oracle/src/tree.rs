//! A reading as an indented tree.
use std::net::Ipv6Addr;

use netlink_packet_core::{DefaultNla, Emitable, Nla};

use crate::tc::*;
use crate::{counts, hexadecimal};

pub fn of(options: &[TcFilterU32Option]) -> String {
    let mut lines = Vec::new();
    for option in options {
        filter_option(option, &mut lines);
    }
    let (outer, actions, inner) = counts(options);
    lines.push(format!("{outer} options, {actions} actions, {inner} action options"));
    lines.join("\n")
}

fn filter_option(option: &TcFilterU32Option, lines: &mut Vec<String>) {
    use TcFilterU32Option::*;
    lines.push(match option {
        ClassId(handle) => format!("class {:x}:{:x}", handle.major, handle.minor),
        Hash(number) => format!("hash 0x{number:08x}"),
        Link(number) => format!("link 0x{number:08x}"),
        Divisor(number) => format!("divisor {number}"),
        Selector(selector) => return self::selector(selector, lines),
        Police(bytes) => format!("police {}", hexadecimal(bytes)),
        Action(actions) => {
            lines.push("actions".to_string());
            return actions.iter().for_each(|action| self::action(action, lines));
        }
        Indev(bytes) => format!("indev {}", hexadecimal(bytes)),
        Pnct(bytes) => format!("pcnt {}", hexadecimal(bytes)),
        Mark(bytes) => format!("mark {}", hexadecimal(bytes)),
        Flags(flags) => format!("flags 0x{:08x}", flags.bits()),
        Other(attribute) => default(attribute),
    });
}

fn selector(selector: &TcU32Selector, lines: &mut Vec<String>) {
    lines.push(format!(
        "selector flags 0x{:02x}, offshift {}, offmask 0x{:04x}, off {}, offoff {}, hoff {}, hmask 0x{:08x}, keys {}",
        selector.flags.bits(),
        selector.offshift,
        selector.offmask,
        selector.off,
        selector.offoff,
        selector.hoff,
        selector.hmask,
        selector.nkeys,
    ));
    for key in &selector.keys {
        lines.push(format!(
            "  match {:08x}/{:08x} at {}, offmask {}",
            key.val, key.mask, key.off, key.offmask
        ));
    }
}

fn action(action: &TcAction, lines: &mut Vec<String>) {
    let kind = action.attributes.iter().find_map(|attribute| match attribute {
        TcActionAttribute::Kind(kind) => Some(quoted(kind)),
        _ => None,
    });
    lines.push(format!("  action {} {}", action.tab, kind.expect("an action has a kind")));
    for attribute in &action.attributes {
        action_attribute(attribute, lines);
    }
}

fn action_attribute(attribute: &TcActionAttribute, lines: &mut Vec<String>) {
    use TcActionAttribute::*;
    let line = match attribute {
        Kind(kind) => format!("kind {}", quoted(kind)),
        Options(options) => {
            lines.push("    options".to_string());
            return lines.extend(options.iter().map(|option| format!("      {}", action_option(option))));
        }
        Index(number) => format!("index {number}"),
        Stats(list) => {
            let mut bytes = vec![0; list.as_slice().buffer_len()];
            list.as_slice().emit(&mut bytes);
            format!("statistics {}", hexadecimal(&bytes))
        }
        Cookie(bytes) => format!("cookie {}", hexadecimal(bytes)),
        InHwCount(number) => format!("in hardware {number}"),
        Other(attribute) => default(attribute),
    };
    lines.push(format!("    {line}"));
}

fn action_option(option: &TcActionOption) -> String {
    match option {
        TcActionOption::Mirror(option) => mirror(option),
        TcActionOption::Nat(option) => nat(option),
        TcActionOption::TunnelKey(option) => tunnel_key(option),
        TcActionOption::Other(attribute) => default(attribute),
    }
}

fn mirror(option: &TcActionMirrorOption) -> String {
    match option {
        TcActionMirrorOption::Tm(times) => self::times(times),
        TcActionMirrorOption::Parms(mirror) => format!(
            "mirror {:?} to interface {}, {}",
            mirror.eaction,
            mirror.ifindex,
            generic(&mirror.generic)
        ),
        TcActionMirrorOption::Other(attribute) => default(attribute),
    }
}

fn nat(option: &TcActionNatOption) -> String {
    match option {
        TcActionNatOption::Tm(times) => self::times(times),
        TcActionNatOption::Parms(nat) => format!(
            "nat {} to {} mask {}, flags 0x{:08x}, {}",
            nat.old_addr,
            nat.new_addr,
            nat.mask,
            nat.flags.bits(),
            generic(&nat.generic)
        ),
        TcActionNatOption::Other(attribute) => default(attribute),
    }
}

fn tunnel_key(option: &TcActionTunnelKeyOption) -> String {
    use TcActionTunnelKeyOption::*;
    match option {
        Tm(times) => self::times(times),
        Parms(key) => format!("tunnel key action {}, {}", key.t_action, generic(&key.generic)),
        EncIpv4Src(address) => format!("source {address}"),
        EncIpv4Dst(address) => format!("destination {address}"),
        EncIpv6Src(address) => format!("source {}", groups(address)),
        EncIpv6Dst(address) => format!("destination {}", groups(address)),
        EncKeyId(number) => format!("key id {number}"),
        EncDstPort(number) => format!("destination port {number}"),
        EncTos(number) => format!("tos 0x{number:02x}"),
        EncTtl(number) => format!("ttl {number}"),
        NoCsum(true) => "without checksum".to_string(),
        NoCsum(false) => "with checksum".to_string(),
        Other(attribute) => default(attribute),
    }
}

fn times(times: &Tcf) -> String {
    format!(
        "times install {}, lastuse {}, expires {}, firstuse {}",
        times.install, times.lastuse, times.expires, times.firstuse
    )
}

fn generic(generic: &TcActionGeneric) -> String {
    format!(
        "outcome {:?}, index {}, capab {}, refcnt {}, bindcnt {}",
        generic.action, generic.index, generic.capab, generic.refcnt, generic.bindcnt
    )
}

fn groups(address: &Ipv6Addr) -> String {
    address.segments().map(|group| format!("{group:x}")).join(":")
}

fn default(attribute: &DefaultNla) -> String {
    let mut bytes = vec![0; attribute.value_len()];
    attribute.emit_value(&mut bytes);
    format!("attribute 0x{:04x} {}", attribute.kind(), hexadecimal(&bytes))
}

fn quoted(text: &str) -> String {
    let mut shown = String::from("\"");
    for byte in text.bytes() {
        match byte {
            b'"' | b'\\' => shown += &format!("\\x{byte:02x}"),
            0x20..=0x7e => shown.push(byte as char),
            _ => shown += &format!("\\x{byte:02x}"),
        }
    }
    shown + "\""
}
