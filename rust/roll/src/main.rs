use std::process::ExitCode;

fn main() -> ExitCode {
    roll::system::prepare_signals();
    let arguments: Vec<_> = std::env::args_os().skip(1).collect();
    let status = roll::run(
        &arguments,
        &mut std::io::stdout().lock(),
        &mut std::io::stderr().lock(),
    );
    match roll::system::close_standard_output() {
        Err(error) if status == 0 => {
            eprintln!("roll: standard output: {error}");
            ExitCode::from(2)
        }
        _ => ExitCode::from(status),
    }
}
