#!/usr/bin/env python3
"""The loader as a program of its own, which rt proves and builds in a copy of the crates, as it does `sb`. It loads each bundle of its
standard input, and prints the fault, or every field of the network: no command of `sb` does just that.

    tools/loaded.py FILE

puts the program there, for tools/compare_bundles, which else makes it itself. It takes some minutes."""
import pathlib
import re
import shutil
import subprocess
import sys
import tempfile

sys.dont_write_bytecode = True
import built

NAME, USES = "bundle_lines", "sb_topology sb_flow sb_packet sb_text serde_json"
ATOMICS = "add and or xor max min maxu minu swap".split()
VERBS = {"Read": "rd", "Write": "wr", "Posted": "wp"}
SOURCE = r'''//! Loads each bundle of standard input, and prints its fault or every field of its network. Before each bundle, and before
//! each answer, stands a line with the number of its bytes. With an argument it prints no network: with `json` it only reads
//! the bytes as JSON, and with another it loads.
#![tactic(auto)]

use sb_flow::{Bundle, DevicePlan, HostPlan, LinkRow, Place, RouterPlan};
use sb_packet::{Name, Txn};
use sb_text::LineFault;
use sb_topology::{LoadFault, load};
use serde_json::Value;
use std::alloc::{AllocError, Global};
use std::env;
use std::io::{self, BufRead, BufReader, BufWriter, ErrorKind, Read, Write};

/// The most bytes that a bundle has.
const MOST_BYTES: usize = 67_108_864;
const DIGITS: [char; 16] = ['0', '1', '2', '3', '4', '5', '6', '7', '8', '9', 'a', 'b', 'c', 'd', 'e', 'f'];

fn add_name(out: &mut String, name: &Name) -> Result<(), AllocError> {
    for byte in name.as_slice() {
        out.push(char::from(*byte))?;
    }
    Ok(())
}

fn add_bytes(out: &mut String, bytes: &[u8]) -> Result<(), AllocError> {
    if bytes.is_empty() {
        return out.push('-');
    }
    for byte in bytes {
        out.push(DIGITS[usize::from(*byte / 16)])?;
        out.push(DIGITS[usize::from(*byte % 16)])?;
    }
    Ok(())
}

fn add_place(out: &mut String, place: Place) -> Result<(), AllocError> {
    match place {
        Place::Host(at) => write!(out, "host {at}"),
        Place::Router(at) => write!(out, "router {at}"),
        Place::Device(at) => write!(out, "device {at}"),
    }
}

fn add_transaction(out: &mut String, t: &Txn) -> Result<(), AllocError> {
    write!(out, "t {:?} {} {} {} ", t.kind, t.size, t.addr, t.count)?;
    add_bytes(out, t.body.as_slice())?;
    out.push('\n')
}

fn add_host(out: &mut String, host: &HostPlan) -> Result<(), AllocError> {
    out.push_str("host ")?;
    add_name(out, &host.name)?;
    let script = host.script.as_slice();
    writeln!(out, " {} {} {} {}", host.id, host.qos, host.prot, script.len())?;
    for t in script {
        add_transaction(out, t)?;
    }
    Ok(())
}

fn add_router(out: &mut String, router: &RouterPlan, devices: usize) -> Result<(), AllocError> {
    out.push_str("router ")?;
    add_name(out, &router.name)?;
    writeln!(out, " {}", router.side)?;
    for (at, route) in router.routes.iter().take(devices).enumerate() {
        if let Some(link) = route {
            writeln!(out, "route {at} {link}")?;
        }
    }
    Ok(())
}

fn add_device(out: &mut String, device: &DevicePlan) -> Result<(), AllocError> {
    out.push_str("device ")?;
    add_name(out, &device.name)?;
    write!(out, " {} {} {} ", device.base, device.pages, device.readonly)?;
    add_bytes(out, device.image.as_slice())?;
    out.push('\n')
}

fn add_link(out: &mut String, link: &LinkRow) -> Result<(), AllocError> {
    out.push_str("link ")?;
    add_name(out, &link.name)?;
    out.push(' ')?;
    add_place(out, link.from)?;
    out.push(' ')?;
    add_place(out, link.to)?;
    writeln!(out, " {} {}", link.width, link.capacity)
}

fn add_network(out: &mut String, bundle: &Bundle) -> Result<(), AllocError> {
    for host in bundle.hosts.as_slice() {
        add_host(out, host)?;
    }
    for router in bundle.routers.as_slice() {
        add_router(out, router, bundle.devices.len())?;
    }
    for device in bundle.devices.as_slice() {
        add_device(out, device)?;
    }
    for link in bundle.links.as_slice() {
        add_link(out, link)?;
    }
    match bundle.wire {
        Some(link) => writeln!(out, "wire {link}"),
        None => Ok(()),
    }
}

fn line_fault_name(fault: LineFault) -> &'static str {
    match fault {
        LineFault::Verb => "verb",
        LineFault::Number => "number",
        LineFault::Size => "size",
        LineFault::Data => "data",
        LineFault::Length => "length",
        LineFault::Aligned => "aligned",
        LineFault::Page => "page",
        LineFault::Range => "range",
        LineFault::Memory => "memory",
    }
}

fn add_fault(out: &mut String, fault: &LoadFault) -> Result<(), AllocError> {
    out.push_str("refused ")?;
    match fault {
        LoadFault::Json => out.push_str("json"),
        LoadFault::Field { path } => write!(out, "field {}", path.as_str()),
        LoadFault::Count { path } => write!(out, "count {}", path.as_str()),
        LoadFault::Name { path } => write!(out, "name {}", path.as_str()),
        LoadFault::HostId { host } => write!(out, "hostid {host}"),
        LoadFault::Range { device } => write!(out, "range {device}"),
        LoadFault::Overlap { device, other } => write!(out, "overlap {device} {other}"),
        LoadFault::Image { device, bytes } => write!(out, "image {device} {bytes}"),
        LoadFault::Width { link } => write!(out, "width {link}"),
        LoadFault::End { link } => write!(out, "end {link}"),
        LoadFault::Backward { link } => write!(out, "backward {link}"),
        LoadFault::Unlinked { place } => {
            out.push_str("unlinked ")?;
            add_place(out, *place)
        }
        LoadFault::Script { host, line, fault } => {
            write!(out, "script {host} {line} {}", line_fault_name(*fault))
        }
        LoadFault::Route { router, device } => write!(out, "route {router} {device}"),
        LoadFault::Budget { words } => write!(out, "budget {words}"),
        LoadFault::Memory => out.push_str("memory"),
    }?;
    out.push('\n')
}

/// What is made of a bundle.
#[derive(Clone, Copy)]
enum Task {
    Print,
    Load,
    Json,
}

fn answer(alloc: Global, bytes: &[u8], task: Task) -> Result<String, AllocError> {
    let mut out = String::new(alloc);
    if bytes.len() > MOST_BYTES {
        out.push_str("too long\n")?;
        return Ok(out);
    }
    match task {
        Task::Print => match load(alloc, bytes) {
            Ok(bundle) => add_network(&mut out, &bundle)?,
            Err(fault) => add_fault(&mut out, &fault)?,
        },
        Task::Load => match load(alloc, bytes) {
            Ok(bundle) => writeln!(&mut out, "hosts {}", bundle.hosts.len())?,
            Err(fault) => add_fault(&mut out, &fault)?,
        },
        Task::Json => match Value::from_slice(alloc, bytes) {
            Ok(value) => writeln!(&mut out, "object {}", value.is_object())?,
            Err(_) => out.push_str("refused json\n")?,
        },
    }
    Ok(out)
}

fn asked_task(rt: &HostRuntime) -> io::Result<Task> {
    Ok(match env::args(rt)?.nth(1) {
        None => Task::Print,
        Some(word) if word.as_str() == "json" => Task::Json,
        Some(_) => Task::Load,
    })
}

/// The number of bytes of the next bundle, or None at the end.
fn next_length<R: BufRead + Drop>(alloc: Global, input: &mut R) -> io::Result<Option<usize>> {
    let mut line = String::new(alloc);
    if input.read_line(&mut line)? == 0 {
        return Ok(None);
    }
    match line.trim_end().parse::<usize>() {
        Ok(length) => Ok(Some(length)),
        Err(_) => Err(io::Error::from(ErrorKind::InvalidData)),
    }
}

fn main(rt: HostRuntime) -> io::Result<()> {
    let alloc = rt.alloc();
    let task = asked_task(&rt)?;
    let mut input = BufReader::new(alloc, rt.reader())?;
    let mut output = BufWriter::new(alloc, io::writer(&rt))?;
    for _ in 0..u64::MAX {
        let Some(length) = next_length(alloc, &mut input)? else {
            break;
        };
        let mut bytes = vec![in alloc; 0; length]?;
        input.read_exact(&mut bytes)?;
        let text = answer(alloc, bytes.as_slice(), task)?;
        writeln!(output, "{}", text.len())?;
        output.write_all(text.as_str().as_bytes())?;
    }
    output.flush()
}
'''


def proved(folder):
    """Proves and builds the program in a folder, and gives its path."""
    return built.proved(folder, NAME, SOURCE, USES)


def framed(bundles):
    return b"".join(b"%d\n%s" % (len(bundle), bundle) for bundle in bundles)


def texts(output):
    """The answers of the program, one for each bundle."""
    at, found = 0, []
    while at < len(output):
        end = output.index(b"\n", at)
        length = int(output[at:end])
        found.append(re.sub(rb"(?m)^t (\w+)(?:\((\w+)\))?", verb, output[end + 1 : end + 1 + length]))
        at = end + 1 + length
    return found


def verb(found):
    kind, atomic = found[1].decode(), (found[2] or b"").decode()
    if kind != "Atomic":
        return f"t {VERBS[kind]}".encode()
    return f"t {ATOMICS[int(atomic)] if atomic.isdigit() else atomic.lower()}".encode()


def answers(program, bundles):
    """What the program answers to each bundle."""
    ran = subprocess.run([program], input=framed(bundles), stdout=subprocess.PIPE, stderr=subprocess.PIPE)
    if ran.returncode:
        sys.exit(f"the program ended with status {ran.returncode}: {ran.stderr[-3000:].decode(errors='replace')}")
    return texts(ran.stdout)


if __name__ == "__main__":
    if len(sys.argv) != 2:
        sys.exit("usage: loaded.py FILE")
    with tempfile.TemporaryDirectory() as folder:
        shutil.copy(proved(pathlib.Path(folder)), sys.argv[1])
