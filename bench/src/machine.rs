//! What the figures were taken on.

use std::env::consts::ARCH;
use std::fs::read_to_string;
use std::thread::available_parallelism;

/// In a line: the architecture, the cores and the processor's name, and whether it is a virtual machine.
pub fn kind() -> String {
    let cores = available_parallelism().map_or(1, usize::from);
    let about = read_to_string("/proc/cpuinfo").unwrap_or_default();
    let name = field(&about, "model name").unwrap_or("a processor of unknown name");
    let flags = field(&about, "flags").unwrap_or_default();
    let within = match flags.split(' ').any(|flag| flag == "hypervisor") {
        true => ", a virtual machine",
        false => "",
    };
    format!("{ARCH}, {cores} cores, {name}{within}")
}

/// The first value of this name in the system's list.
fn field<'a>(list: &'a str, name: &str) -> Option<&'a str> {
    let line = list.lines().find(|line| line.starts_with(name))?;
    let (_, value) = line.split_once(':')?;
    Some(value.trim())
}
