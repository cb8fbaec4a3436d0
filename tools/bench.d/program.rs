//! The program of tools/bench. It stands alone so that another archive of the library needs only this to be linked anew.

fn main() -> std::process::ExitCode {
    bench::main()
}
