#![doc = include_str!("../README.md")]
#![forbid(unsafe_code)]

#[cfg(test)]
mod fuzz;
mod kit;
mod proved;

/// Does what the words of the command line ask for, and returns the status with which the program ends.
pub fn run() -> std::process::ExitCode {
    proved::slotctl::main(kit::HostRuntime)
}
