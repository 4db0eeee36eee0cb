//! Compiles the library, whose code is assembly text, by the C compiler: `CC`, or `cc` if that is
//! not set. This takes a second, and needs neither another crate nor a network. If `NM_SET_LIB_DIR`
//! names a folder, the crate is linked with the `libnm_set.a` there instead.

use std::env;
use std::error::Error;
use std::fs;
use std::path::{Path, PathBuf};
use std::process::Command;

const ARCHIVE: &str = "libnm_set.a";

/// The files of the library, and the folder that their list counts from.
struct Library {
    top: PathBuf,
    list: String,
    sources: Vec<PathBuf>,
}

impl Library {
    /// Finds the files: `native` of a packaged crate, or otherwise the checkout of this crate.
    fn find() -> Result<Library, Box<dyn Error>> {
        let manifest = PathBuf::from(env::var("CARGO_MANIFEST_DIR")?);
        let packaged = manifest.join("native");
        let top = if packaged.is_dir() {
            packaged
        } else {
            manifest.join("../..")
        };
        let place = top.join("dist/files.txt");
        let list = fs::read_to_string(&place).map_err(|fault| {
            format!(
                "{} could not be read ({fault}): build the crate in its repository or from its \
                 package, or set NM_SET_LIB_DIR to the folder of {ARCHIVE}",
                place.display()
            )
        })?;
        let sources: Vec<PathBuf> = list
            .lines()
            .filter_map(|line| line.strip_prefix("source "))
            .map(|place| top.join(place))
            .collect();
        match sources.iter().find(|source| !source.is_file()) {
            None => Ok(Library { top, list, sources }),
            Some(source) => Err(format!(
                "there is no {}: c/build makes it, with the kit of Rattle",
                source.display()
            )
            .into()),
        }
    }

    /// Fails if an assembly text has not the checksum of the list.
    fn compare_texts(&self) -> Result<(), Box<dyn Error>> {
        let sums = self
            .list
            .lines()
            .filter_map(|line| line.strip_prefix("sum "));
        for (place, listed) in sums.filter_map(|line| line.split_once(' ')) {
            let text = self.top.join(place);
            if !self.sources.contains(&text) {
                continue;
            }
            let found = checksum(&text)?;
            if found != listed {
                return Err(format!(
                    "{place} is not the text that c/build has made: its SHA-256 is {found}, and \
                     dist/files.txt has {listed}. Take both files from the repository again, or \
                     make both by c/build"
                )
                .into());
            }
        }
        Ok(())
    }

    /// Compiles each file, and puts the objects into an archive.
    fn build(&self, out: &Path) -> Result<(), Box<dyn Error>> {
        let compiler = tool("CC", "cc");
        let mut archive = tool("AR", "ar");
        archive.arg("crsD").arg(out.join(ARCHIVE));
        for (number, source) in self.sources.iter().enumerate() {
            let object = out.join(format!("{number}.o"));
            run(self.compile(&compiler, source, &object))?;
            archive.arg(object);
        }
        // `ar` adds to an archive that it finds.
        if out.join(ARCHIVE).exists() {
            fs::remove_file(out.join(ARCHIVE))?;
        }
        run(archive)
    }

    /// The command that compiles a file.
    fn compile(&self, compiler: &Command, source: &Path, object: &Path) -> Command {
        let mut command = Command::new(compiler.get_program());
        command.args(compiler.get_args());
        if source.extension().is_some_and(|kind| kind == "c") {
            command.args([
                "-std=gnu11",
                "-O2",
                "-ffunction-sections",
                "-fdata-sections",
            ]);
            command.arg("-I").arg(self.top.join("c/include"));
        }
        command.args(["-fPIC", "-fno-lto", "-c"]).arg(source);
        command.arg("-o").arg(object);
        command
    }
}

/// The SHA-256 of a file in hexadecimal, by the program `sha256sum`.
fn checksum(file: &Path) -> Result<String, Box<dyn Error>> {
    let mut command = Command::new("sha256sum");
    let output = command.arg("--").arg(file).output().map_err(|fault| {
        format!("sha256sum could not be run ({fault}): install coreutils, or set NM_SET_LIB_DIR")
    })?;
    let line = String::from_utf8(output.stdout)?;
    let sum = line.split_whitespace().next().unwrap_or_default();
    Ok(sum.trim_start_matches('\\').to_owned())
}

/// A program that a variable names, with words of its own, such as `ccache gcc`.
fn tool(variable: &str, default: &str) -> Command {
    println!("cargo:rerun-if-env-changed={variable}");
    let named = env::var(variable).unwrap_or_default();
    let mut words = named.split_whitespace();
    let mut command = Command::new(words.next().unwrap_or(default));
    command.args(words);
    command
}

/// Runs a command, which must succeed.
fn run(mut command: Command) -> Result<(), Box<dyn Error>> {
    let name = command.get_program().to_string_lossy().into_owned();
    let status = command.status().map_err(|fault| {
        format!(
            "{name} could not be run ({fault}): install a C compiler and binutils, or set CC and AR"
        )
    })?;
    if status.success() {
        Ok(())
    } else {
        Err(format!("{name} has failed, with {status}: {command:?}").into())
    }
}

/// Fails for a target for which there is no code.
fn check_target() -> Result<(), Box<dyn Error>> {
    let processor = env::var("CARGO_CFG_TARGET_ARCH")?;
    let system = env::var("CARGO_CFG_TARGET_OS")?;
    if (processor.as_str(), system.as_str()) == ("x86_64", "linux") {
        Ok(())
    } else {
        Err(
            format!("the library has code for x86-64 Linux alone, not for {processor} {system}")
                .into(),
        )
    }
}

/// Finds or builds the library, and returns its folder.
fn library() -> Result<PathBuf, Box<dyn Error>> {
    if let Some(folder) = env::var_os("NM_SET_LIB_DIR").map(PathBuf::from) {
        let archive = folder.join(ARCHIVE);
        println!("cargo:rerun-if-changed={}", archive.display());
        if !archive.is_file() {
            return Err(format!(
                "there is no {}: NM_SET_LIB_DIR names the folder of {ARCHIVE}, such as PREFIX/lib \
                 after `c/install PREFIX`; without that variable the crate builds the library",
                archive.display()
            )
            .into());
        }
        return Ok(folder);
    }
    check_target()?;
    let found = Library::find()?;
    println!(
        "cargo:rerun-if-changed={}",
        found.top.join("dist").display()
    );
    println!("cargo:rerun-if-changed={}", found.top.join("c").display());
    found.compare_texts()?;
    let out = PathBuf::from(env::var("OUT_DIR")?);
    found.build(&out)?;
    Ok(out)
}

/// Returns whether the compiler takes `diagnostic::on_unimplemented`, which 1.78 and later do.
fn says_what_to_do() -> bool {
    let compiler = env::var_os("RUSTC").unwrap_or("rustc".into());
    let told = Command::new(compiler).arg("--version").output();
    let text = told.map_or(String::new(), |it| {
        String::from_utf8_lossy(&it.stdout).into_owned()
    });
    let number = text.split_whitespace().nth(1).unwrap_or_default();
    let mut parts = number.split('.').map(|part| part.parse().unwrap_or(0));
    (parts.next(), parts.next()) >= (Some(1), Some(78))
}

fn main() {
    println!("cargo:rustc-check-cfg=cfg(says_what_to_do)");
    if says_what_to_do() {
        println!("cargo:rustc-cfg=says_what_to_do");
    }
    println!("cargo:rerun-if-env-changed=NM_SET_LIB_DIR");
    println!("cargo:rerun-if-changed=build.rs");
    match library() {
        Ok(folder) => {
            println!("cargo:rustc-link-search=native={}", folder.display());
            println!("cargo:rustc-link-lib=static=nm_set");
        }
        Err(fault) => {
            eprintln!("nm_set: {fault}");
            std::process::exit(1);
        }
    }
}
