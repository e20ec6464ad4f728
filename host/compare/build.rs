//! Makes what the library's calls are held against: the Rust, and copies of two libraries for `bench --before`.
//!
//! `SAFETEAL_ORACLE` names a folder with layer.rs and still.rs; without it the shared folder beside the project is
//! read. `SAFETEAL_BEFORE` names a folder with another finished libhost.a, copies of which are linked beside copies of
//! the present one. A relative folder is taken from the folder `host`.

use std::env;
use std::fs;
use std::path::{Path, PathBuf};
use std::process::Command;

#[path = "../safeteal/build/folder.rs"]
mod folder;
use folder::{host, library, named, stop};

/// Constructors and read access, appended to the copy of layer.rs. The text above them stays byte for byte.
const TAIL: &str = r"
impl Stats {
    pub fn from_raw(luma: Vec<[f32; 6]>, chroma: [Vec<[f32; 2]>; 2], count: f32) -> Self {
        Self { luma, chroma, count }
    }

    pub fn luma(&self) -> &[[f32; 6]] {
        &self.luma
    }

    pub fn chroma(&self) -> [&[[f32; 2]]; 2] {
        [&self.chroma[0], &self.chroma[1]]
    }

    pub fn count(&self) -> f32 {
        self.count
    }
}

pub type Found = Option<((f32, f32), std::ops::Range<usize>)>;

pub fn window_at(parts: [Option<&Stats>; 3], at: usize, limit: f32, proof: f32, strict: bool) -> Found {
    window(parts, at, limit, proof, strict)
}

pub fn is_set(model: (f32, f32)) -> bool {
    set(model)
}
";

fn main() {
    println!("cargo:rerun-if-changed=build.rs");
    println!("cargo:rerun-if-changed=../safeteal/build/folder.rs");
    let out = PathBuf::from(env::var("OUT_DIR").expect("cargo names the folder of made files"));
    let linked = env::var("DEP_HOST_FOLDER").expect("the library says what it links");
    println!("cargo:rustc-env=SAFETEAL_LINKED={linked}");
    println!("cargo:rustc-env=SAFETEAL_RUSTC={}", compiler());
    before(Path::new(&linked), &out);
    oracle(&out);
}

/// The version of the compiler that builds this.
fn compiler() -> String {
    let rustc = env::var_os("RUSTC").expect("cargo names the compiler");
    let version = Command::new(rustc).arg("--version").output();
    let version = version.map(|run| String::from_utf8_lossy(&run.stdout).into_owned());
    let words = version.unwrap_or_default();
    format!(
        "{}, opt-level {}",
        words.trim(),
        env::var("OPT_LEVEL").unwrap_or_default()
    )
}

/// What the names of the C interface begin with.
const PREFIX: &str = "safeteal_";

/// In copy number n of a library each function begins so many bytes behind a multiple of so many. Where a loop stands
/// within 64 bytes can cost it a quarter of its time, which says nothing of the code: so it is measured in every place.
const PLACES: [(usize, usize); 8] = [
    (0, 64),
    (16, 64),
    (32, 64),
    (48, 64),
    (0, 1024),
    (16, 1024),
    (32, 1024),
    (48, 1024),
];

/// Links copies of the present library and of the one that `SAFETEAL_BEFORE` names, if it names one.
fn before(linked: &Path, out: &Path) {
    println!("cargo:rustc-check-cfg=cfg(before)");
    let Some(folder) = named("SAFETEAL_BEFORE") else {
        return;
    };
    let (now, before) = (
        library("SAFETEAL_LIB", linked),
        library("SAFETEAL_BEFORE", &folder),
    );
    let archive = out.join("libcopies.a");
    // Members of an older one would stay in it.
    let _ = fs::remove_file(&archive);
    let mut copies = Vec::new();
    for (library, which) in [(&now, "now"), (&before, "before")] {
        let names = defined(library);
        for (number, place) in PLACES.into_iter().enumerate() {
            let name = format!("{which}{number}");
            let object = copy(library, &names, &name, place, out);
            said(Command::new("ar").arg("rcs").arg(&archive).arg(object));
            copies.push(name);
        }
    }
    let (both, absent) = exported(&now, &before);
    led(&both, &absent, &copies, out);
    println!("cargo:rustc-link-search=native={}", out.display());
    println!("cargo:rustc-link-lib=static=copies");
    println!("cargo:rustc-cfg=before");
}

/// The functions of the C interface that both libraries have, and those that only the present one has. At least one
/// must be in both, or the other is no such library.
fn exported(now: &Path, before: &Path) -> (Vec<String>, Vec<String>) {
    let older = defined(before);
    let mut names = defined(now);
    names.retain(|name| name.starts_with(PREFIX));
    names.sort();
    let (both, absent) = names.into_iter().partition(|name| older.contains(name));
    if Vec::is_empty(&both) {
        stop(&format!(
            "{} exports no function of the present library; SAFETEAL_BEFORE must name the folder of another libhost.a",
            before.display()
        ));
    }
    (both, absent)
}

/// In the program `bench` the linker leads each call of the C interface that both libraries have to a jump, and the
/// jump goes where `PLACES` says: to a function of one of the copies. What is written here is the text of
/// `src/copies.rs`.
fn led(functions: &[String], absent: &[String], copies: &[String], out: &Path) {
    let arch = env::var("CARGO_CFG_TARGET_ARCH").unwrap_or_default();
    let mut jumps = String::new();
    for (at, name) in functions.iter().enumerate() {
        println!("cargo:rustc-link-arg-bin=bench=-Wl,--wrap={name},--undefined=__wrap_{name}");
        let place = format!("safeteal_places+{}", 8 * at);
        let jump = match arch.as_str() {
            "x86_64" => format!("jmp qword ptr [rip + {place}]"),
            "aarch64" => format!("adrp x16, {place}\nldr x16, [x16, :lo12:{place}]\nbr x16"),
            _ => stop(&format!(
                "SAFETEAL_BEFORE is for x86_64 and aarch64, and this is {arch:?}"
            )),
        };
        jumps += &format!(".globl __wrap_{name}\n__wrap_{name}:\n{jump}\n");
    }
    let of = |copy: &String| {
        let names = functions.iter().map(|name| format!("{copy}_{name}"));
        names.collect::<Vec<_>>()
    };
    let all: Vec<Vec<String>> = copies.iter().map(of).collect();
    let declared = all.iter().flatten().map(|name| format!("fn {name}();\n"));
    let rows = all.iter().map(|names| format!("[{}],\n", names.join(", ")));
    let calls = absent.iter().map(|name| name.trim_start_matches(PREFIX));
    let text = format!(
        "std::arch::global_asm!({:?});\nextern \"C\" {{\n{}}}\n\
         pub const ABSENT: &[&str] = &{:?};\nconst FUNCTIONS: usize = {};\n\
         const ALL: [[unsafe extern \"C\" fn(); FUNCTIONS]; {}] = [\n{}];\n",
        format!(".text\n{jumps}"),
        declared.collect::<String>(),
        calls.collect::<Vec<_>>(),
        functions.len(),
        copies.len(),
        rows.collect::<String>(),
    );
    write(&out.join("copies.rs"), &text);
}

/// The names that a library defines for others.
fn defined(library: &Path) -> Vec<String> {
    let mut list = Command::new("nm");
    list.args(["--extern-only", "--defined-only", "--format=posix"]);
    // A line is a name and its kind and place; a line of one word names the member of the archive.
    let listed = said(list.arg(library));
    let names = listed.lines().filter_map(|line| line.split_once(' '));
    names.map(|(name, _)| name.to_owned()).collect()
}

/// The sections of a library's code: one for each function.
fn functions(library: &Path) -> Vec<String> {
    let mut list = Command::new("objdump");
    let listed = said(list.args(["--section-headers", "--wide"]).arg(library));
    let words = listed
        .lines()
        .filter_map(|line| line.split_whitespace().nth(1));
    let code = words.filter(|word| *word == ".text" || word.starts_with(".text."));
    code.map(str::to_owned).collect()
}

/// One object of a library, all its functions in one piece that begins at a page, with `NAME_` in front of each of these
/// names; what it has from elsewhere, as memset, keeps its name.
fn copy(
    library: &Path,
    names: &[String],
    name: &str,
    (behind, multiple): (usize, usize),
    out: &Path,
) -> PathBuf {
    let file = |end: &str| out.join(format!("{name}.{end}"));
    let pairs = names.iter().map(|old| format!("{old} {name}_{old}\n"));
    write(&file("names"), &pairs.collect::<String>());
    let placed = functions(library)
        .into_iter()
        .map(|section| format!(". = ALIGN({multiple}) + {behind}; *(\"{section}\")\n"));
    let script = format!(
        "SECTIONS {{ .text : {{ {} }} }}\n",
        placed.collect::<String>()
    );
    write(&file("ld"), &script);
    let mut joined = Command::new("ld");
    joined
        .args(["--relocatable", "--whole-archive"])
        .arg(library);
    joined.arg("--script").arg(file("ld"));
    said(joined.arg("--output").arg(file("o")));
    let mut renamed = Command::new("objcopy");
    renamed.arg("--set-section-alignment=.text=4096");
    renamed.arg(format!("--redefine-syms={}", file("names").display()));
    said(renamed.arg(file("o")));
    file("o")
}

/// What a command prints; the build ends where it fails.
fn said(command: &mut Command) -> String {
    let name = command.get_program().to_string_lossy().into_owned();
    match command.output() {
        Err(error) => stop(&format!(
            "the command `{name}` could not be started ({error}); SAFETEAL_BEFORE needs it, nm, ld, objdump, objcopy and ar"
        )),
        Ok(run) if !run.status.success() => stop(&format!(
            "`{name}` failed ({}):\n{}",
            run.status,
            String::from_utf8_lossy(&run.stderr)
        )),
        Ok(run) => String::from_utf8_lossy(&run.stdout).into_owned(),
    }
}

/// Copies the Rust into the folder of made files, or says by `oracle_absent` that it is not at hand.
fn oracle(out: &Path) {
    println!("cargo:rustc-check-cfg=cfg(oracle_absent)");
    let named = named("SAFETEAL_ORACLE");
    let is_named = named.is_some();
    let beside = || host().join("../../shared/docs/src/crates/svpflow-core/src");
    let folder = named.unwrap_or_else(beside);
    let (layer, still) = (folder.join("layer.rs"), folder.join("still.rs"));
    println!("cargo:rerun-if-changed={}", layer.display());
    println!("cargo:rerun-if-changed={}", still.display());
    let (Ok(layer), Ok(still)) = (fs::read_to_string(&layer), fs::read_to_string(&still)) else {
        // A folder that was asked for and is not the right one is no reason to compare nothing.
        if is_named {
            let folder = folder.display();
            stop(&format!(
                "SAFETEAL_ORACLE must name the folder with layer.rs and still.rs; they are not both in {folder}"
            ));
        }
        println!("cargo:rustc-cfg=oracle_absent");
        return;
    };
    let (copy, unchanged) = (out.join("layer.rs"), out.join("still.rs"));
    write(&copy, &(layer + TAIL));
    write(&unchanged, &still);
    // layer.rs opens with an inner attribute, so it can only be a file module of its own.
    write(
        &out.join("oracle.rs"),
        &format!("#[path = {copy:?}]\npub mod layer;\n#[path = {unchanged:?}]\npub mod still;\n"),
    );
}

fn write(path: &Path, text: &str) {
    if let Err(error) = fs::write(path, text) {
        stop(&format!("{} could not be written: {error}", path.display()));
    }
}
