//! The program `slotctl`, built by cargo: see the crate's page.

fn main() -> std::process::ExitCode {
    slotctl::run()
}
